//! The notation of token lists: a text is parsed to tokens, and tokens are printed as a text that is parsed to them again.

use crate::names::Letter;
use crate::{Op, Payload, Span, Token, Tokens};
use std::fmt;
use std::str::FromStr;

/// The operators that the notation has a sign for; a sign stands before those that it begins with.
const SIGNS: [(&str, Op); 27] = [
    ("&&", Op::LOGICAL_AND),
    ("||", Op::LOGICAL_OR),
    ("??", Op::NULL_COALESCING),
    ("==", Op::LOGICAL_EQUAL),
    ("!=", Op::LOGICAL_NOT_EQUAL),
    ("<=", Op::LESS_EQUAL),
    (">=", Op::GREATER_EQUAL),
    ("->", Op::POINTER),
    ("{", Op::LEFT_BRACE),
    ("}", Op::RIGHT_BRACE),
    ("[", Op::LEFT_BRACKET),
    ("]", Op::RIGHT_BRACKET),
    ("(", Op::LEFT_PARENTHESIS),
    (")", Op::RIGHT_PARENTHESIS),
    ("-", Op::NEGATE),
    ("!", Op::LOGICAL_NOT),
    ("+", Op::ADD),
    ("/", Op::DIV),
    ("*", Op::MUL),
    (".", Op::MEMBER_ACCESSOR),
    ("<", Op::LESS_THAN),
    (">", Op::GREATER_THAN),
    ("?", Op::CONDITIONAL),
    (":", Op::CONDITIONAL_ELSE),
    ("=", Op::ASSIGNMENT),
    (";", Op::SEMICOLON),
    (",", Op::COMMA),
];

/// The operators that stand before a name or the number of one, as `variable.health` or `variable.7`, with the variant of their payload.
const PREFIXES: [(&str, Op, u8); 9] = [
    ("query.", Op::QUERY_FUNCTION, 11),
    ("array.", Op::ARRAY_VARIABLE, 7),
    ("context.", Op::CONTEXT_VARIABLE, 3),
    ("variable.", Op::ENTITY_VARIABLE, 4),
    ("temp.", Op::TEMP_VARIABLE, 5),
    ("string.", Op::STRING_LITERAL, 2),
    ("geometry.", Op::GEOMETRY_VARIABLE, 8),
    ("material.", Op::MATERIAL_VARIABLE, 9),
    ("texture.", Op::TEXTURE_VARIABLE, 10),
];

fn sign_of(op: Op) -> Option<&'static str> {
    let sign = SIGNS.iter().find(|(_, signed)| *signed == op);
    sign.map(|(sign, _)| *sign)
}

/// A text that is not in the notation of [`Tokens`].
///
/// ```
/// use sorbrudder::{NotationError, Tokens};
///
/// let why = "a $".parse::<Tokens>().unwrap_err();
/// assert_eq!((why.at, why.to_string().as_str()), (2, "no token stands at byte 2"));
/// ```
#[derive(Copy, Clone, Debug, PartialEq, Eq)]
#[non_exhaustive]
pub struct NotationError {
    /// The byte where something else stands.
    pub at: usize,
}

impl fmt::Display for NotationError {
    fn fmt(&self, f: &mut fmt::Formatter<'_>) -> fmt::Result {
        write!(f, "no token stands at byte {}", self.at)
    }
}

impl std::error::Error for NotationError {}

/// What a text begins with, and the length of it: an operator with its payload.
type First = (Op, Payload, usize);

/// The first bytes of a text for which a test holds.
fn run(text: &str, test: impl Fn(char) -> bool) -> &str {
    &text[..text.find(|c| !test(c)).unwrap_or(text.len())]
}

fn first_token(text: &str) -> Option<First> {
    match text.as_bytes().first()? {
        b'0'..=b'9' => decimal(text),
        b'#' => numbered(text),
        b'\'' => string(text),
        b'a'..=b'z' | b'A'..=b'Z' | b'_' => word(text),
        _ => {
            let (sign, op) = SIGNS.iter().find(|(sign, _)| text.starts_with(sign))?;
            Some((*op, Payload::None, sign.len()))
        }
    }
}

/// A number: `2`, `2.5`.
fn decimal(text: &str) -> Option<First> {
    let digit = |c: char| c.is_ascii_digit();
    let whole = run(text, digit).len();
    let part = match text[whole..].strip_prefix('.') {
        Some(rest) => match run(rest, digit).len() {
            0 => 0,
            digits => digits + 1,
        },
        None => 0,
    };
    let len = whole + part;
    let float = text[..len].parse::<f32>().ok().filter(|f| f.is_finite())?;
    Some((Op::FLOAT, Payload::Float(float), len))
}

/// An operator by its number, `#61`, and what it carries by variant and bits, `#61@1:ffc00000`.
fn numbered(text: &str) -> Option<First> {
    let digits = run(&text[1..], |c| c.is_ascii_digit());
    let op = Op::new(digits.parse().ok()?)?;
    let len = 1 + digits.len();
    let Some(rest) = text[len..].strip_prefix('@') else {
        return Some((op, Payload::None, len));
    };
    let variant = run(rest, |c| c.is_ascii_digit());
    let bits = rest[variant.len()..].strip_prefix(':')?;
    let bits = run(bits, |c| c.is_ascii_hexdigit());
    let value = u32::from_str_radix(bits, 16).ok()?;
    let payload = Payload::from_bits(variant.parse().ok()?, value)?;
    Some((op, payload, len + 1 + variant.len() + 1 + bits.len()))
}

/// A text in quotes; what it says is in its span only.
fn string(text: &str) -> Option<First> {
    let len = text[1..].find('\'')?;
    Some((Op::STRING_LITERAL, Payload::None, len + 2))
}

fn is_name(c: char) -> bool {
    c.is_ascii_alphanumeric() || c == '_'
}

/// An operator by its name, a variable, or an operand.
fn word(text: &str) -> Option<First> {
    let name = run(text, is_name);
    let dotted = match text[name.len()..].strip_prefix('.') {
        Some(rest) => name.len() + 1 + run(rest, is_name).len(),
        None => 0,
    };
    if dotted > name.len() + 1
        && let Some(first) = prefixed(&text[..dotted], &text[..=name.len()])
    {
        return Some(first);
    }
    let named = Op::all().find(|op| op.name().eq_ignore_ascii_case(name));
    Some((named.unwrap_or(Op::FLOAT), Payload::None, name.len()))
}

/// `math.sin`, `variable.health`, `variable.7`.
fn prefixed(dotted: &str, prefix: &str) -> Option<First> {
    let after = &dotted[prefix.len()..];
    if prefix.eq_ignore_ascii_case("math.") {
        let function = dotted.parse::<Op>().ok()?;
        return Some((function, Payload::None, dotted.len()));
    }
    let known = PREFIXES
        .iter()
        .find(|(known, ..)| known.eq_ignore_ascii_case(prefix));
    let (_, op, variant) = known?;
    if after.starts_with(|c: char| c.is_ascii_digit()) {
        let payload = Payload::from_bits(*variant, after.parse().ok()?)?;
        return Some((*op, payload, dotted.len()));
    }
    Some((*op, Payload::None, dotted.len()))
}

impl FromStr for Tokens {
    type Err = NotationError;

    fn from_str(text: &str) -> Result<Self, NotationError> {
        let mut tokens = Vec::new();
        let mut at = 0;
        loop {
            at = text.len() - text[at..].trim_start().len();
            if at == text.len() {
                return Ok(tokens.into());
            }
            let wrong = NotationError { at };
            let (op, payload, len) = first_token(&text[at..]).ok_or(wrong)?;
            let place = |byte: usize| u32::try_from(byte).ok();
            let span = place(at).zip(place(at + len));
            let span = span.and_then(|(start, end)| Span::new(start, end));
            let span = span.ok_or(wrong)?;
            tokens.push(Token { op, payload, span });
            at += len;
        }
    }
}

/// The list in the notation: what is printed is parsed to the same operators and payloads again. Operands that carry nothing are `a`,
/// `b`, `c` and so on from the left.
impl fmt::Display for Tokens {
    fn fmt(&self, f: &mut fmt::Formatter<'_>) -> fmt::Result {
        Shown {
            tokens: self,
            source: None,
        }
        .fmt(f)
    }
}

/// A list as it is printed, with the text under the spans of operands where there is one.
pub(crate) struct Shown<'t> {
    pub tokens: &'t [Token],
    pub source: Option<&'t str>,
}

impl fmt::Display for Shown<'_> {
    fn fmt(&self, f: &mut fmt::Formatter<'_>) -> fmt::Result {
        let mut letters = 0;
        let mut before = String::new();
        for token in self.tokens {
            let text = match self.source.and_then(|source| token.span.of(source)) {
                Some(text) if sign_of(token.op).is_none() && !text.is_empty() => text.to_string(),
                _ => printed(*token, &mut letters),
            };
            if needs_space(&before, &text) {
                f.write_str(" ")?;
            }
            f.write_str(&text)?;
            before = text;
        }
        Ok(())
    }
}

/// A token in the notation.
pub(crate) fn printed(token: Token, letters: &mut usize) -> String {
    let op = token.op;
    match token.payload {
        Payload::None if op == Op::FLOAT => {
            *letters += 1;
            Letter(*letters - 1).to_string()
        }
        Payload::None => match sign_of(op) {
            Some(sign) => sign.to_string(),
            None if op.is_host() => op.to_string(),
            None if op.is_math_call() && op.text().starts_with("math.") => op.text().to_string(),
            None => op.name().to_ascii_lowercase(),
        },
        Payload::Float(float)
            if op == Op::FLOAT && float.is_finite() && float.is_sign_positive() =>
        {
            float.to_string()
        }
        payload => {
            let (variant, bits) = payload.bits();
            let known = PREFIXES
                .iter()
                .find(|known| (known.1, known.2) == (op, variant));
            match known {
                Some((prefix, ..)) => format!("{prefix}{bits}"),
                None => format!("#{}@{variant}:{bits:x}", op.number()),
            }
        }
    }
}

/// Whether a space has to stand, or looks better, between two printed tokens.
fn needs_space(before: &str, text: &str) -> bool {
    let is_letter = |text: &str| Letter::is_one(text);
    let begins_operand = |text: &str| text.starts_with(|c: char| is_name(c) || "(#'!".contains(c));
    match (before, text) {
        ("", _) | ("(" | "[" | "{", _) | (_, ")" | "]" | "}" | ";" | ",") => false,
        (_, ".") => !is_letter(before),
        (".", _) => !is_letter(text),
        ("!", _) => !begins_operand(text) || text == "!=",
        (_, "(") => !called(before),
        _ => true,
    }
}

/// Whether a bracket after this text is the call's own.
fn called(text: &str) -> bool {
    let op = match text.split_once('.') {
        Some(("query", _)) => Ok(Op::QUERY_FUNCTION),
        _ => text.parse::<Op>(),
    };
    op.is_ok_and(|op| op.is_call() || op == Op::LOOP || op == Op::FOR_EACH)
}

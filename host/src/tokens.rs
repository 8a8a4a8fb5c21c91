//! Lists of tokens.

use crate::Token;
use crate::notation::Shown;
use std::fmt;
use std::ops::Deref;

/// A list of tokens.
///
/// It can be written in a readable notation, which is printed as it is parsed:
///
/// - signs are Molang's: `+ - * / ! ? : && || ?? == != < <= >= > = -> . , ;` and brackets;
/// - `2` and `2.5` are numbers;
/// - `math.sin`, `sin`, `return`, `loop` or `query_function` is an operator by its name;
/// - `variable.health` is an operator before a name that is in the text only, `variable.7` one that carries the number 7; so are
///   `query.`, `temp.`, `context.`, `array.`, `string.`, `geometry.`, `material.` and `texture.`;
/// - any other name, `a` or `dosed`, is an operand that carries nothing, and so is the text within `'` a string;
/// - `#61` is an operator by its number and `#300` a host's own name, `#61@1:ffc00000` one with its payload's variant and bits.
///
/// A token's span is where it stands in the text.
///
/// ```
/// use sorbrudder::{Op, Payload, Tokens};
///
/// let list: Tokens = "return !sin(dosed)".parse().unwrap();
/// let ops: Vec<Op> = list.iter().map(|token| token.op).collect();
/// let (open, close) = (Op::LEFT_PARENTHESIS, Op::RIGHT_PARENTHESIS);
/// assert_eq!(ops, [Op::RETURN, Op::LOGICAL_NOT, Op::SIN, open, Op::FLOAT, close]);
/// assert_eq!(list[4].span.of("return !sin(dosed)"), Some("dosed"));
/// assert_eq!(list.to_string(), "return !math.sin(a)");
///
/// let sum: Tokens = "1 + variable.7 * 2.5".parse().unwrap();
/// assert_eq!((sum[2].payload, sum[4].payload), (Payload::Entity(7), Payload::Float(2.5)));
/// assert_eq!(sum.to_string(), "1 + variable.7 * 2.5");
/// assert_eq!("a $ b".parse::<Tokens>().unwrap_err().at, 2);
/// ```
#[derive(Clone, Debug, Default, PartialEq, Eq, Hash)]
pub struct Tokens(Vec<Token>);

impl Tokens {
    /// The list of words that are whole tokens; none where some word is not as its field asks for.
    ///
    /// ```
    /// use sorbrudder::Tokens;
    ///
    /// let list: Tokens = "a + b".parse().unwrap();
    /// assert_eq!(Tokens::from_words(&list.words()), Some(list.clone()));
    /// assert_eq!(Tokens::from_words(&list.words()[1..]), None);
    /// ```
    pub fn from_words(words: &[u32]) -> Option<Self> {
        let (tokens, rest) = words.as_chunks::<{ Token::WORDS }>();
        let tokens = tokens.iter().map(|token| Token::from_words(*token));
        rest.is_empty().then(|| tokens.collect()).flatten()
    }

    /// The list's words.
    ///
    /// ```
    /// let list: sorbrudder::Tokens = "a".parse().unwrap();
    /// assert_eq!(list.words(), list[0].words());
    /// ```
    pub fn words(&self) -> Vec<u32> {
        self.0.iter().flat_map(|token| token.words()).collect()
    }

    /// The tokens, for the caller to keep.
    ///
    /// ```
    /// let list: sorbrudder::Tokens = "a b".parse().unwrap();
    /// assert_eq!(list.into_vec().len(), 2);
    /// ```
    pub fn into_vec(self) -> Vec<Token> {
        self.0
    }

    /// The list with each operand as it stands in the source: for lists whose spans lie in a text. Signs are printed as signs, brackets
    /// that the writer added, whose spans cover their operand, among them.
    ///
    /// ```
    /// use sorbrudder::{Tokens, lift};
    ///
    /// let source = "x && y || x";
    /// let list: Tokens = source.parse().unwrap();
    /// let lifted = lift(&list).from(5).to(6).unwrap();
    /// assert_eq!(lifted.tokens.shown_in(source).to_string(), "x && (y || x)");
    /// ```
    pub fn shown_in<'s>(&'s self, source: &'s str) -> impl fmt::Display + 's {
        Shown {
            tokens: self,
            source: Some(source),
        }
    }
}

impl Deref for Tokens {
    type Target = [Token];

    fn deref(&self) -> &[Token] {
        &self.0
    }
}

impl AsRef<[Token]> for Tokens {
    fn as_ref(&self) -> &[Token] {
        &self.0
    }
}

impl From<Vec<Token>> for Tokens {
    fn from(tokens: Vec<Token>) -> Self {
        Self(tokens)
    }
}

impl From<Tokens> for Vec<Token> {
    fn from(tokens: Tokens) -> Self {
        tokens.0
    }
}

impl From<&[Token]> for Tokens {
    fn from(tokens: &[Token]) -> Self {
        Self(tokens.to_vec())
    }
}

impl FromIterator<Token> for Tokens {
    fn from_iter<I: IntoIterator<Item = Token>>(tokens: I) -> Self {
        Self(tokens.into_iter().collect())
    }
}

impl Extend<Token> for Tokens {
    fn extend<I: IntoIterator<Item = Token>>(&mut self, tokens: I) {
        self.0.extend(tokens);
    }
}

impl IntoIterator for Tokens {
    type Item = Token;
    type IntoIter = std::vec::IntoIter<Token>;

    fn into_iter(self) -> Self::IntoIter {
        self.0.into_iter()
    }
}

impl<'t> IntoIterator for &'t Tokens {
    type Item = &'t Token;
    type IntoIter = std::slice::Iter<'t, Token>;

    fn into_iter(self) -> Self::IntoIter {
        self.0.iter()
    }
}

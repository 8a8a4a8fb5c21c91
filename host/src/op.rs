//! Operators by number and name.

use std::fmt;
use std::ops::RangeInclusive;
use std::str::FromStr;

/// What a token of a list is: one of the 111 operators that the Rust parser calls an `ExpressionOp`, or a name of the host's own.
///
/// ```
/// use sorbrudder::Op;
///
/// assert_eq!(Op::ADD.number(), 9);
/// assert_eq!(Op::new(9), Some(Op::ADD));
/// assert_eq!(Op::new(111), None);
/// assert_eq!(Op::ADD.to_string(), "+");
/// ```
///
/// A host that has names which Molang does not gives each a number from 256 to 1,023 ([`Op::host`]). Such a name is an operand. It
/// is read as [`Op::THIS`] would be, its number is kept in the tree, and it is written as it was read:
///
/// ```
/// use sorbrudder::{Op, Reader, Span, Token, Tokens, lift};
///
/// // This pack's host knows `torch` as 300, and `lamp` as 301, which carries nothing either.
/// let (torch, lamp) = (Op::host(300).unwrap(), Op::host(301).unwrap());
/// let source = "torch && lamp || a";
/// let span = |text: &str| {
///     let start = source.find(text).unwrap() as u32;
///     Span::new(start, start + text.len() as u32).unwrap()
/// };
/// let list: Tokens = [
///     Token::bare(torch, span("torch")),
///     Token::bare(Op::LOGICAL_AND, span("&&")),
///     Token::bare(lamp, span("lamp")),
///     Token::bare(Op::LOGICAL_OR, span("||")),
///     Token::bare(Op::FLOAT, Span::new(17, 18).unwrap()),
/// ]
/// .into_iter()
/// .collect();
///
/// let tree = Reader::new().read(&list, 5)?;
/// assert_eq!(tree.to_string(), "57(300,56(301,a))");
/// assert!(tree.root().child(0).unwrap().op().is_host());
///
/// // The pack is lifted: version 6 reads the written list as version 5 read the given one.
/// let lifted = lift(&list).from(5).to(6)?;
/// assert_eq!(lifted.tokens.shown_in(source).to_string(), "torch && (lamp || a)");
/// assert_eq!((lifted.tokens[0].op, lifted.tokens[3].op), (torch, lamp));
/// let again = Reader::new().read(&lifted.tokens, 6)?;
/// assert_eq!(again.without_brackets(), tree);
/// # Ok::<(), Box<dyn std::error::Error>>(())
/// ```
#[derive(Copy, Clone, PartialEq, Eq, PartialOrd, Ord, Hash)]
pub struct Op(u16);

macro_rules! operators {
    ($($number:literal $name:ident $text:literal;)*) => {
        impl Op {
            $(
                #[doc = concat!("Operator ", $number, ", `", $text, "`.")]
                pub const $name: Self = Self($number);
            )*
        }

        /// The name of each operator, and how it is shown.
        const OPERATORS: [(&str, &str); Op::COUNT] = [$((stringify!($name), $text)),*];
    };
}

operators! {
    0 LEFT_BRACE "{";
    1 RIGHT_BRACE "}";
    2 LEFT_BRACKET "[";
    3 RIGHT_BRACKET "]";
    4 LEFT_PARENTHESIS "(";
    5 RIGHT_PARENTHESIS ")";
    6 NEGATE "-";
    7 LOGICAL_NOT "!";
    8 ABS "math.abs";
    9 ADD "+";
    10 ACOS "math.acos";
    11 ASIN "math.asin";
    12 ATAN "math.atan";
    13 ATAN2 "math.atan2";
    14 CEIL "math.ceil";
    15 CLAMP "math.clamp";
    16 COPY_SIGN "math.copy_sign";
    17 COS "math.cos";
    18 DIE_ROLL "math.die_roll";
    19 DIE_ROLL_INT "math.die_roll_integer";
    20 DIV "/";
    21 EXP "math.exp";
    22 FLOOR "math.floor";
    23 HERMITE_BLEND "math.hermite_blend";
    24 LERP "math.lerp";
    25 LERP_ROTATE "math.lerprotate";
    26 LN "math.ln";
    27 MAX "math.max";
    28 MIN "math.min";
    29 MIN_ANGLE "math.min_angle";
    30 MOD "math.mod";
    31 MUL "*";
    32 POW "math.pow";
    33 RANDOM "math.random";
    34 RANDOM_INT "math.random_integer";
    35 ROUND "math.round";
    36 SIN "math.sin";
    37 SIGN "math.sign";
    38 SQRT "math.sqrt";
    39 TRUNC "math.trunc";
    40 QUERY_FUNCTION "query.";
    41 ARRAY_VARIABLE "array.";
    42 CONTEXT_VARIABLE "context.";
    43 ENTITY_VARIABLE "variable.";
    44 TEMP_VARIABLE "temp.";
    45 MEMBER_ACCESSOR ".";
    46 STRING_LITERAL "string";
    47 GEOMETRY_VARIABLE "geometry.";
    48 MATERIAL_VARIABLE "material.";
    49 TEXTURE_VARIABLE "texture.";
    50 LESS_THAN "<";
    51 LESS_EQUAL "<=";
    52 GREATER_EQUAL ">=";
    53 GREATER_THAN ">";
    54 LOGICAL_EQUAL "==";
    55 LOGICAL_NOT_EQUAL "!=";
    56 LOGICAL_OR "||";
    57 LOGICAL_AND "&&";
    58 NULL_COALESCING "??";
    59 CONDITIONAL "?";
    60 CONDITIONAL_ELSE ":";
    61 FLOAT "float";
    62 PI "math.pi";
    63 ARRAY "array";
    64 GEOMETRY "geometry";
    65 MATERIAL "material";
    66 TEXTURE "texture";
    67 LOOP "loop";
    68 FOR_EACH "for_each";
    69 BREAK "break";
    70 CONTINUE "continue";
    71 ASSIGNMENT "=";
    72 POINTER "->";
    73 SEMICOLON ";";
    74 RETURN "return";
    75 COMMA ",";
    76 THIS "this";
    77 EXPRESSION_ARRAY "expression array";
    78 INVERSE_LERP "math.inverse_lerp";
    79 EASE_IN_QUAD "math.ease_in_quad";
    80 EASE_OUT_QUAD "math.ease_out_quad";
    81 EASE_IN_OUT_QUAD "math.ease_in_out_quad";
    82 EASE_IN_CUBIC "math.ease_in_cubic";
    83 EASE_OUT_CUBIC "math.ease_out_cubic";
    84 EASE_IN_OUT_CUBIC "math.ease_in_out_cubic";
    85 EASE_IN_QUART "math.ease_in_quart";
    86 EASE_OUT_QUART "math.ease_out_quart";
    87 EASE_IN_OUT_QUART "math.ease_in_out_quart";
    88 EASE_IN_QUINT "math.ease_in_quint";
    89 EASE_OUT_QUINT "math.ease_out_quint";
    90 EASE_IN_OUT_QUINT "math.ease_in_out_quint";
    91 EASE_IN_SINE "math.ease_in_sine";
    92 EASE_OUT_SINE "math.ease_out_sine";
    93 EASE_IN_OUT_SINE "math.ease_in_out_sine";
    94 EASE_IN_EXPO "math.ease_in_expo";
    95 EASE_OUT_EXPO "math.ease_out_expo";
    96 EASE_IN_OUT_EXPO "math.ease_in_out_expo";
    97 EASE_IN_CIRC "math.ease_in_circ";
    98 EASE_OUT_CIRC "math.ease_out_circ";
    99 EASE_IN_OUT_CIRC "math.ease_in_out_circ";
    100 EASE_IN_BOUNCE "math.ease_in_bounce";
    101 EASE_OUT_BOUNCE "math.ease_out_bounce";
    102 EASE_IN_OUT_BOUNCE "math.ease_in_out_bounce";
    103 EASE_IN_BACK "math.ease_in_back";
    104 EASE_OUT_BACK "math.ease_out_back";
    105 EASE_IN_OUT_BACK "math.ease_in_out_back";
    106 EASE_IN_ELASTIC "math.ease_in_elastic";
    107 EASE_OUT_ELASTIC "math.ease_out_elastic";
    108 EASE_IN_OUT_ELASTIC "math.ease_in_out_elastic";
    109 HOST_MATH "host math";
    110 HOST_MATH_VOLATILE "volatile host math";
}

impl Op {
    /// How many operators there are, without the hosts' own names.
    ///
    /// ```
    /// assert_eq!(sorbrudder::Op::all().len(), sorbrudder::Op::COUNT);
    /// ```
    pub const COUNT: usize = 111;

    /// The numbers that a host may give to names of its own.
    ///
    /// ```
    /// use sorbrudder::Op;
    ///
    /// assert!(Op::HOSTS.contains(&300));
    /// assert_eq!((Op::HOSTS.start(), Op::HOSTS.end()), (&256, &1_023));
    /// ```
    pub const HOSTS: RangeInclusive<u16> = sorbrudder_sys::FIRST_HOST..=sorbrudder_sys::LAST_HOST;

    /// The operator of this number, if there is one, 0 to 110, or the host's own name, 256 to 1,023.
    ///
    /// ```
    /// use sorbrudder::Op;
    ///
    /// assert_eq!(Op::new(110), Some(Op::HOST_MATH_VOLATILE));
    /// assert_eq!(Op::new(111), None);
    /// assert_eq!(Op::new(256), Op::host(256));
    /// assert_eq!(Op::new(1_024), None);
    /// ```
    pub const fn new(number: u16) -> Option<Self> {
        if (number as usize) < Self::COUNT {
            Some(Self(number))
        } else {
            Self::host(number)
        }
    }

    /// The host's own name of this number, if it may have it: 256 to 1,023.
    ///
    /// ```
    /// use sorbrudder::Op;
    ///
    /// assert_eq!(Op::host(300).unwrap().number(), 300);
    /// assert_eq!((Op::host(255), Op::host(1_024)), (None, None));
    /// assert_eq!(Op::host(9), None, "an operator of Molang is no host's");
    /// ```
    pub const fn host(number: u16) -> Option<Self> {
        if Self(number).is_host() {
            Some(Self(number))
        } else {
            None
        }
    }

    /// Whether it is a name of the host's own. What the name is, and what it means, only the host knows.
    ///
    /// ```
    /// use sorbrudder::Op;
    ///
    /// assert!(Op::host(300).unwrap().is_host() && !Op::HOST_MATH.is_host());
    /// ```
    pub const fn is_host(self) -> bool {
        sorbrudder_sys::FIRST_HOST <= self.0 && self.0 <= sorbrudder_sys::LAST_HOST
    }

    /// Every operator, by number, without the hosts' own names.
    ///
    /// ```
    /// let maths = sorbrudder::Op::all().filter(|op| op.is_math_call());
    /// assert_eq!(maths.count(), 62);
    /// ```
    pub fn all() -> impl ExactSizeIterator<Item = Self> + DoubleEndedIterator {
        (0..Self::COUNT as u16).map(Self)
    }

    /// The operator's number.
    ///
    /// ```
    /// assert_eq!(sorbrudder::Op::FLOAT.number(), 61);
    /// ```
    pub const fn number(self) -> u16 {
        self.0
    }

    /// The name of the operator's constant; of a host's own name `HOST`.
    ///
    /// ```
    /// use sorbrudder::Op;
    ///
    /// assert_eq!(Op::CONDITIONAL_ELSE.name(), "CONDITIONAL_ELSE");
    /// assert_eq!(Op::host(300).unwrap().name(), "HOST");
    /// ```
    pub const fn name(self) -> &'static str {
        match self.is_host() {
            true => "HOST",
            false => OPERATORS[self.0 as usize].0,
        }
    }

    /// How the operator stands in Molang; what has no sign of its own is named: `float`, `string`, `host`.
    ///
    /// ```
    /// use sorbrudder::Op;
    ///
    /// assert_eq!(Op::SIN.text(), "math.sin");
    /// assert_eq!(Op::host(300).unwrap().text(), "host");
    /// ```
    pub const fn text(self) -> &'static str {
        match self.is_host() {
            true => "host",
            false => OPERATORS[self.0 as usize].1,
        }
    }

    /// Whether it is a math function that is called with brackets.
    ///
    /// ```
    /// use sorbrudder::Op;
    ///
    /// assert!(Op::SIN.is_math_call() && !Op::PI.is_math_call());
    /// ```
    pub const fn is_math_call(self) -> bool {
        matches!(self.0, 8 | 10..=19 | 21..=30 | 32..=39 | 78..=110)
    }

    /// Whether a bracket below it is part of the call, and not one that can be taken away: a query or a math function.
    ///
    /// ```
    /// use sorbrudder::Op;
    ///
    /// assert!(Op::SIN.is_call() && Op::QUERY_FUNCTION.is_call() && !Op::ADD.is_call());
    /// ```
    pub const fn is_call(self) -> bool {
        self.0 == Self::QUERY_FUNCTION.0 || self.is_math_call()
    }
}

/// A number or a text that no operator has.
///
/// ```
/// use sorbrudder::Op;
///
/// assert_eq!(Op::try_from(111_u16).unwrap_err().to_string(), "there is no such operator");
/// ```
#[derive(Copy, Clone, Debug, PartialEq, Eq)]
#[non_exhaustive]
pub struct UnknownOp;

impl fmt::Display for UnknownOp {
    fn fmt(&self, f: &mut fmt::Formatter<'_>) -> fmt::Result {
        f.write_str("there is no such operator")
    }
}

impl std::error::Error for UnknownOp {}

/// ```
/// use sorbrudder::Op;
///
/// assert_eq!(Op::try_from(9_u16), Ok(Op::ADD));
/// ```
impl TryFrom<u16> for Op {
    type Error = UnknownOp;

    fn try_from(number: u16) -> Result<Self, UnknownOp> {
        Self::new(number).ok_or(UnknownOp)
    }
}

/// ```
/// use sorbrudder::Op;
///
/// assert_eq!(Op::try_from(9_u8), Ok(Op::ADD));
/// assert!(Op::try_from(111_u8).is_err());
/// ```
impl TryFrom<u8> for Op {
    type Error = UnknownOp;

    fn try_from(number: u8) -> Result<Self, UnknownOp> {
        Self::try_from(u16::from(number))
    }
}

/// ```
/// use sorbrudder::Op;
///
/// assert_eq!(u16::from(Op::ADD), 9);
/// ```
impl From<Op> for u16 {
    fn from(op: Op) -> Self {
        op.number()
    }
}

/// By its sign, its name in Molang or the name of its constant, in capitals or not; or by `#` and its number, as a host's own name
/// is printed.
///
/// ```
/// use sorbrudder::Op;
///
/// assert_eq!("+".parse(), Ok(Op::ADD));
/// assert_eq!("math.sin".parse(), Ok(Op::SIN));
/// assert_eq!("sin".parse(), Ok(Op::SIN));
/// assert_eq!("#300".parse(), Ok(Op::host(300).unwrap()));
/// assert!("sinus".parse::<Op>().is_err());
/// ```
impl FromStr for Op {
    type Err = UnknownOp;

    fn from_str(text: &str) -> Result<Self, UnknownOp> {
        if let Some(number) = text.strip_prefix('#') {
            return number.parse().ok().and_then(Self::new).ok_or(UnknownOp);
        }
        let by_text = Self::all().find(|op| op.text().eq_ignore_ascii_case(text));
        let by_name = || Self::all().find(|op| op.name().eq_ignore_ascii_case(text));
        by_text.or_else(by_name).ok_or(UnknownOp)
    }
}

/// As it stands in Molang ([`Op::text`]); a host's own name as `#` and its number.
///
/// ```
/// use sorbrudder::Op;
///
/// assert_eq!(Op::SIN.to_string(), "math.sin");
/// assert_eq!(Op::host(300).unwrap().to_string(), "#300");
/// ```
impl fmt::Display for Op {
    fn fmt(&self, f: &mut fmt::Formatter<'_>) -> fmt::Result {
        match self.is_host() {
            true => f.pad(&format!("#{}", self.0)),
            false => f.pad(self.text()),
        }
    }
}

impl fmt::Debug for Op {
    fn fmt(&self, f: &mut fmt::Formatter<'_>) -> fmt::Result {
        write!(f, "{} ({})", self.name(), self.0)
    }
}

//! Tokens: an operator, what it carries, and where it stands in the source.

use crate::Op;
use std::fmt;
use std::hash::{Hash, Hasher};

/// A byte range of the source. The start may exceed the end.
///
/// ```
/// use sorbrudder::Span;
///
/// let span = Span::new(3, 7).unwrap();
/// assert_eq!((span.start(), span.end()), (3, 7));
/// assert_eq!(Span::new(0, Span::LAST + 1), None);
/// ```
#[derive(Copy, Clone, Debug, Default, PartialEq, Eq, Hash)]
pub struct Span {
    start: u32,
    end: u32,
}

impl Span {
    /// The highest start, end and source length: 2²⁹ − 1.
    ///
    /// ```
    /// assert_eq!(sorbrudder::Span::LAST, 536_870_911);
    /// ```
    pub const LAST: u32 = (1 << 29) - 1;

    /// The span from `start` to `end`, unless one of them is above [`Span::LAST`].
    ///
    /// ```
    /// use sorbrudder::Span;
    ///
    /// assert!(Span::new(9, 3).is_some());
    /// assert!(Span::new(0, u32::MAX).is_none());
    /// ```
    pub const fn new(start: u32, end: u32) -> Option<Self> {
        if start <= Self::LAST && end <= Self::LAST {
            Some(Self { start, end })
        } else {
            None
        }
    }

    /// Where it starts.
    ///
    /// ```
    /// assert_eq!(sorbrudder::Span::new(3, 7).unwrap().start(), 3);
    /// ```
    pub const fn start(self) -> u32 {
        self.start
    }

    /// Where it ends.
    ///
    /// ```
    /// assert_eq!(sorbrudder::Span::new(3, 7).unwrap().end(), 7);
    /// ```
    pub const fn end(self) -> u32 {
        self.end
    }

    /// The span moved by so many bytes, unless it would leave what a span can be.
    ///
    /// ```
    /// use sorbrudder::Span;
    ///
    /// let span = Span::new(3, 7).unwrap();
    /// assert_eq!((span.moved(2), span.moved(-3)), (Span::new(5, 9), Span::new(0, 4)));
    /// assert_eq!((span.moved(-4), span.moved(i64::MAX)), (None, None));
    /// ```
    pub fn moved(self, by: i64) -> Option<Self> {
        let place = |byte: u32| i64::from(byte).checked_add(by)?.try_into().ok();
        Self::new(place(self.start)?, place(self.end)?)
    }

    /// What stands there in a text, if the span lies in it.
    ///
    /// ```
    /// assert_eq!(sorbrudder::Span::new(4, 5).unwrap().of("a + b"), Some("b"));
    /// ```
    pub fn of(self, source: &str) -> Option<&str> {
        source.get(self.start as usize..self.end as usize)
    }
}

impl fmt::Display for Span {
    fn fmt(&self, f: &mut fmt::Formatter<'_>) -> fmt::Result {
        write!(f, "{}-{}", self.start, self.end)
    }
}

/// What a token carries. The numbers are the caller's own: indices into its names, or what stands for a string.
///
/// Two payloads are equal where their bits are, so a float that is no number equals itself.
///
/// ```
/// use sorbrudder::Payload;
///
/// assert_eq!(Payload::Float(f32::NAN), Payload::Float(f32::NAN));
/// assert_ne!(Payload::Float(0.0), Payload::Float(-0.0));
/// ```
#[derive(Copy, Clone, Debug, Default)]
pub enum Payload {
    /// Nothing.
    #[default]
    None,
    /// A number literal.
    Float(f32),
    /// What stands for a string literal: an index, or 32 bits of its hash.
    Hash(u32),
    /// The name of a `context.` variable.
    Context(u32),
    /// The name of a `variable.` variable.
    Entity(u32),
    /// The name of a `temp.` variable.
    Temp(u32),
    /// The name of a member.
    Member(u32),
    /// The name of an array.
    ArrayVariable(u32),
    /// The name of a geometry.
    Geometry(u32),
    /// The name of a material.
    Material(u32),
    /// The name of a texture.
    Texture(u32),
    /// A query.
    Query(u32),
    /// A math function of the host.
    HostMath(u32),
}

impl Payload {
    /// The variant's number and the value's bits.
    ///
    /// ```
    /// assert_eq!(sorbrudder::Payload::Query(7).bits(), (11, 7));
    /// ```
    pub const fn bits(self) -> (u8, u32) {
        match self {
            Self::None => (0, 0),
            Self::Float(float) => (1, float.to_bits()),
            Self::Hash(value) => (2, value),
            Self::Context(value) => (3, value),
            Self::Entity(value) => (4, value),
            Self::Temp(value) => (5, value),
            Self::Member(value) => (6, value),
            Self::ArrayVariable(value) => (7, value),
            Self::Geometry(value) => (8, value),
            Self::Material(value) => (9, value),
            Self::Texture(value) => (10, value),
            Self::Query(value) => (11, value),
            Self::HostMath(value) => (12, value),
        }
    }

    /// The payload of a variant's number and a value's bits: none where the variant is above 12, or 0 with a value.
    ///
    /// ```
    /// use sorbrudder::Payload;
    ///
    /// assert_eq!(Payload::from_bits(1, 0x3F80_0000), Some(Payload::Float(1.0)));
    /// assert_eq!(Payload::from_bits(0, 1), None);
    /// ```
    pub const fn from_bits(variant: u8, value: u32) -> Option<Self> {
        Some(match variant {
            0 if value == 0 => Self::None,
            1 => Self::Float(f32::from_bits(value)),
            2 => Self::Hash(value),
            3 => Self::Context(value),
            4 => Self::Entity(value),
            5 => Self::Temp(value),
            6 => Self::Member(value),
            7 => Self::ArrayVariable(value),
            8 => Self::Geometry(value),
            9 => Self::Material(value),
            10 => Self::Texture(value),
            11 => Self::Query(value),
            12 => Self::HostMath(value),
            _ => return None,
        })
    }
}

impl PartialEq for Payload {
    fn eq(&self, other: &Self) -> bool {
        self.bits() == other.bits()
    }
}

impl Eq for Payload {}

impl Hash for Payload {
    fn hash<H: Hasher>(&self, state: &mut H) {
        self.bits().hash(state);
    }
}

/// A token of a list, and a tree node's own part.
///
/// ```
/// use sorbrudder::{Op, Payload, Span, Token};
///
/// let half = Token {
///     op: Op::FLOAT,
///     payload: Payload::Float(0.5),
///     span: Span::new(0, 3).unwrap(),
/// };
/// assert_eq!(Token::from_words(half.words()), Some(half));
/// ```
///
/// As words it is five of 32 bits, the top three bits of each saying which it is; bits that are not named are 0:
///
/// | word | top bits | the other bits |
/// |---|---|---|
/// | 0 | 1 | bits 0-7 and 12-15 the operator's number, lower eight and upper four bits; bits 8-11 the payload's variant |
/// | 1 | 2 | bits 0-28 the span's start |
/// | 2 | 3 | bits 0-28 the span's end |
/// | 3 | 4 | bits 0-15 the upper half of the payload's value |
/// | 4 | 5 | bits 0-15 the lower half of the payload's value |
///
/// The variants are numbered as [`Payload::bits`] has them. A tree's node has these words and two more: one whose top bits are 6 and
/// whose bits 0-13 are the number of its children, and one whose top bits are 7 and whose bits 0-28 are where it closes
/// ([`Node::close`](crate::Node::close)).
#[derive(Copy, Clone, Debug, PartialEq, Eq, Hash)]
pub struct Token {
    /// The operator.
    pub op: Op,
    /// What it carries.
    pub payload: Payload,
    /// Where it stands.
    pub span: Span,
}

/// The bits of a word below its kind.
pub(crate) const LOW: u32 = (1 << 29) - 1;

/// A word of this kind.
const fn word(kind: u32, low: u32) -> u32 {
    kind << 29 | low
}

/// The number that a token's first word has for its operator, whether it is one's or not: twelve bits.
pub(crate) const fn number_in(first: u32) -> u16 {
    (first & 0xFF | first >> 4 & 0xF00) as u16
}

/// A number of twelve bits where a token's first word has it.
const fn number_bits(number: u16) -> u32 {
    let number = number as u32;
    number & 0xFF | (number & 0xF00) << 4
}

impl Token {
    /// How many words a token has.
    ///
    /// ```
    /// use sorbrudder::{Token, Tokens};
    ///
    /// let list: Tokens = "a + b".parse().unwrap();
    /// assert_eq!(list.words().len(), 3 * Token::WORDS);
    /// ```
    pub const WORDS: usize = sorbrudder_sys::TOKEN_WORDS;

    /// A token with nothing to carry.
    ///
    /// ```
    /// use sorbrudder::{Op, Span, Token};
    ///
    /// assert_eq!(Token::bare(Op::ADD, Span::default()).words()[0], 0x2000_0009);
    /// ```
    pub const fn bare(op: Op, span: Span) -> Self {
        Self {
            op,
            payload: Payload::None,
            span,
        }
    }

    /// The token's five words.
    ///
    /// ```
    /// use sorbrudder::{Op, Span, Token};
    ///
    /// let plus = Token::bare(Op::ADD, Span::new(1, 2).unwrap());
    /// let words = [0x2000_0009, 0x4000_0001, 0x6000_0002, 0x8000_0000, 0xA000_0000];
    /// assert_eq!(plus.words(), words);
    ///
    /// let own = Token::bare(Op::host(0x3A5).unwrap(), Span::default());
    /// assert_eq!(own.words()[0], 0x2000_30A5);
    /// ```
    pub const fn words(self) -> [u32; Self::WORDS] {
        let (variant, value) = self.payload.bits();
        [
            word(1, number_bits(self.op.number()) | (variant as u32) << 8),
            word(2, self.span.start),
            word(3, self.span.end),
            word(4, value >> 16),
            word(5, value & 0xFFFF),
        ]
    }

    /// The token of five words, if they are one's.
    ///
    /// ```
    /// assert_eq!(sorbrudder::Token::from_words([0; 5]), None);
    /// ```
    pub fn from_words(words: [u32; Self::WORDS]) -> Option<Self> {
        let [first, start, end, upper, lower] = words.map(|word| word & LOW);
        let token = Self {
            op: Op::new(number_in(first))?,
            payload: Payload::from_bits((first >> 8 & 0xF) as u8, upper << 16 | lower & 0xFFFF)?,
            span: Span::new(start, end)?,
        };
        // Any other bit, and any other kind, is lost on the way and so shows here.
        (token.words() == words).then_some(token)
    }
}

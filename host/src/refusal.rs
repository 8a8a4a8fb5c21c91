//! Which calls the reader turns back.

use crate::Span;
use std::fmt;

/// A call that is turned back before a list is read. Words are counted from 0.
///
/// The library's other refusals cannot happen here: 3, 4, 5 and 16 are about buffers, which the reader owns and keeps long
/// enough, 6 is about bits that a [`Used`](crate::Used) cannot have, and 17 about numbers that are no
/// [`Limit`](crate::Limit). 18 is [`ReadError::TooDeep`](crate::ReadError::TooDeep): such a list is sound, and too deep for
/// the engine that it is read for. 12 to 15 are the writer's ([`WriteError`](crate::WriteError)), 21 to 23 an open list's
/// ([`EditError`](crate::EditError)). Of stack order 24 is a [`NotATree`](crate::NotATree), and 25, about an output that is too
/// short, cannot happen.
///
/// ```
/// use sorbrudder::{ReadError, Reader, Refusal, Used};
///
/// let mut reader = Reader::new();
/// let refused = reader.parse_words(&[0; 5], 6, Used::EMPTY, 0);
/// assert_eq!(refused, Err(ReadError::Refused(Refusal::WrongKind { word: 0 })));
/// ```
#[derive(Copy, Clone, Debug, PartialEq, Eq, Hash)]
#[non_exhaustive]
#[allow(missing_docs)] // The fields: each is the index of the word.
pub enum Refusal {
    /// The words are not a multiple of five. Only words can have this fault; tokens cannot.
    NotWhole,
    /// More than 4,096 tokens.
    TooManyTokens,
    /// A source length above [`Span::LAST`].
    SourceTooLong,
    /// A word is of another kind than its field asks for. Only words can have this fault.
    WrongKind { word: usize },
    /// A word has a number that neither an operator, 0 to 110, nor a host's own name, 256 to 1,023, has. Only words can have this
    /// fault.
    UnknownOperator { word: usize },
    /// A word has a payload variant above 12. Only words can have this fault.
    UnknownPayload { word: usize },
    /// A word has a bit set that has to be 0. Only words can have this fault.
    OtherBits { word: usize },
}

impl Refusal {
    /// The library's number for it.
    ///
    /// ```
    /// assert_eq!(sorbrudder::Refusal::TooManyTokens.number(), 2);
    /// ```
    pub const fn number(self) -> u32 {
        match self {
            Self::NotWhole => 1,
            Self::TooManyTokens => 2,
            Self::SourceTooLong => 7,
            Self::WrongKind { .. } => 8,
            Self::UnknownOperator { .. } => 9,
            Self::UnknownPayload { .. } => 10,
            Self::OtherBits { .. } => 11,
        }
    }

    /// The refusal of a number and a place.
    pub(crate) fn of(number: u32, word: usize) -> Option<Self> {
        Some(match number {
            1 => Self::NotWhole,
            2 => Self::TooManyTokens,
            7 => Self::SourceTooLong,
            8 => Self::WrongKind { word },
            9 => Self::UnknownOperator { word },
            10 => Self::UnknownPayload { word },
            11 => Self::OtherBits { word },
            _ => return None,
        })
    }
}

impl fmt::Display for Refusal {
    fn fmt(&self, f: &mut fmt::Formatter<'_>) -> fmt::Result {
        match self {
            Self::NotWhole => write!(f, "the words are not whole tokens"),
            Self::TooManyTokens => write!(f, "the list has more than 4,096 tokens"),
            Self::SourceTooLong => write!(f, "the source length is above {}", Span::LAST),
            Self::WrongKind { word } => write!(f, "word {word} is of a wrong kind"),
            Self::UnknownOperator { word } => write!(f, "word {word} names no operator"),
            Self::UnknownPayload { word } => write!(f, "word {word} names no payload"),
            Self::OtherBits { word } => write!(f, "word {word} has a bit that has to be 0"),
        }
    }
}

impl std::error::Error for Refusal {}

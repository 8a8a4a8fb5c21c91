//! What can be wrong with a file of lists.

use super::{MOST_WORDS, ZEROS};
use std::{fmt, io};

/// Why the next list of a file cannot be had.
///
/// ```
/// use sorbrudder::archive::{ArchiveError, Damage, Lists};
///
/// let why = Lists::new(&[][..]).unwrap_err();
/// assert!(matches!(why, ArchiveError::Damaged { damage: Damage::Empty, byte: 0, list: 0 }));
/// assert_eq!(why.to_string(), "damaged at byte 0 (list 0): the file is empty");
/// ```
#[derive(Debug)]
#[non_exhaustive]
pub enum ArchiveError {
    /// The system gives no bytes.
    Io(io::Error),
    /// The bytes are not as an archive has them.
    Damaged {
        /// What is wrong.
        damage: Damage,
        /// The byte of the file where it shows.
        byte: u64,
        /// The number of the list that it is in or before, from 0.
        list: u64,
    },
}

/// What is wrong with a file's bytes.
///
/// ```
/// assert_eq!(sorbrudder::archive::Damage::CutWord.to_string(), "it ends within a word");
/// ```
#[derive(Copy, Clone, Debug, PartialEq, Eq)]
#[non_exhaustive]
pub enum Damage {
    /// The file is empty; an archive without a list is a container.
    Empty,
    /// It begins neither as a container nor with a version word.
    NoArchive,
    /// It is a container of another layout than this program knows.
    Layout,
    /// It ends within a word.
    CutWord,
    /// A file of words ends within a token.
    CutToken,
    /// A container ends before its end.
    Cut,
    /// A word that opens a list has other bits than a version's.
    NoVersion,
    /// A list has more words than any.
    TooLong,
    /// Zeros, as a failing disk leaves them.
    Zeros,
    /// A list's checksum is not that of its words.
    Checksum,
    /// The counts at the end are not those of the lists, or have another checksum.
    Count,
    /// Something follows the end.
    After,
}

impl fmt::Display for Damage {
    fn fmt(&self, f: &mut fmt::Formatter<'_>) -> fmt::Result {
        match self {
            Self::Empty => f.write_str("the file is empty"),
            Self::NoArchive => f.write_str("it is no archive: it begins with no version word"),
            Self::Layout => f.write_str("its layout is another than this program knows"),
            Self::CutWord => f.write_str("it ends within a word"),
            Self::CutToken => f.write_str("it ends within a token"),
            Self::Cut => f.write_str("it is cut: it ends before its end mark"),
            Self::NoVersion => f.write_str("a list begins with no version word"),
            Self::TooLong => write!(f, "a list has more than {MOST_WORDS} words"),
            Self::Zeros => write!(
                f,
                "{ZEROS} empty lists of version 0 in a row: zeros, as a failing disk leaves them"
            ),
            Self::Checksum => f.write_str("a list's checksum is wrong"),
            Self::Count => f.write_str("the counts at the end are wrong"),
            Self::After => f.write_str("something follows the end mark"),
        }
    }
}

impl fmt::Display for ArchiveError {
    fn fmt(&self, f: &mut fmt::Formatter<'_>) -> fmt::Result {
        match self {
            Self::Io(why) => why.fmt(f),
            Self::Damaged { damage, byte, list } => {
                write!(f, "damaged at byte {byte} (list {list}): {damage}")
            }
        }
    }
}

/// Its text says all: there is no source that would say it again.
impl std::error::Error for ArchiveError {}

impl From<io::Error> for ArchiveError {
    fn from(why: io::Error) -> Self {
        Self::Io(why)
    }
}

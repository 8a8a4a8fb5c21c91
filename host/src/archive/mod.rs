//! Files of lists, each with its version: streams of words, and a container that finds damage. docs/FORMAT.md has the layout of both.
//!
//! ```
//! use sorbrudder::Tokens;
//! use sorbrudder::archive::{Format, Lists, ListsWriter};
//!
//! let list: Tokens = "a && b || c".parse()?;
//! let mut writer = ListsWriter::new(Vec::new(), Format::Container)?;
//! writer.write(5, &list.words())?;
//! let (bytes, totals) = writer.finish()?;
//! assert_eq!(totals.lists, 1);
//!
//! let mut lists = Lists::new(&bytes[..])?;
//! let first = lists.next_list()?.expect("one list");
//! assert_eq!((first.version, first.words), (5, &list.words()[..]));
//! assert!(lists.next_list()?.is_none());
//!
//! // Cut anywhere, or with a bit turned over, it is found to be damaged.
//! let mut cut = Lists::new(&bytes[..bytes.len() - 8])?;
//! cut.next_list()?;
//! assert!(cut.next_list().is_err());
//! # Ok::<(), Box<dyn std::error::Error>>(())
//! ```

mod checksum;
mod error;
mod mark;
mod read;
mod salvage;
mod words;
mod write;

pub use error::{ArchiveError, Damage};
pub use mark::Mark;
pub use read::{List, Lists};
pub use salvage::{Piece, Salvage};
pub use write::{Encoded, ListsWriter, Totals};

/// How a file holds its lists.
///
/// ```
/// use sorbrudder::archive::{Format, ListsWriter};
///
/// let writer = ListsWriter::new(Vec::new(), Format::Container)?;
/// assert!(writer.finish()?.0.starts_with(b"\x89SBR"));
/// # Ok::<(), std::io::Error>(())
/// ```
#[derive(Copy, Clone, Debug, PartialEq, Eq, Hash)]
pub enum Format {
    /// Lists one after the other, each opened by a word of kind 0 with its version. Nothing says how many there are: a file that is cut
    /// at a token's end is a shorter one.
    Words,
    /// Lists with their lengths and checksums, and their count at the end.
    Container,
}

/// The first two words of a container: as words no version, as text no text, and changed by whatever changes line ends.
const MAGIC: [u32; 2] = [
    u32::from_le_bytes(*b"\x89SBR"),
    u32::from_le_bytes(*b"\r\n\x1a\n"),
];

/// The number of the container's layout.
const LAYOUT: u32 = 1;

/// The word before the counts at the end of a container; no version word is like it.
const END: u32 = u32::MAX;

/// The most words of a list in a file. A list that can be read has at most 20,480; a longer one is carried along as it is.
///
/// ```
/// use sorbrudder::{MOST_TOKENS, Token, archive};
///
/// assert!(MOST_TOKENS * Token::WORDS < archive::MOST_WORDS);
/// ```
pub const MOST_WORDS: usize = 65_536;

/// So many empty lists of version 0 in a row are no lists but zeros, as a failing disk or a crash leaves them.
const ZEROS: usize = 16;

/// A version word's version: bits 0-15, and no other bit set.
fn version_of(word: u32) -> Option<i16> {
    (word >> 16 == 0).then_some(word as u16 as i16)
}

/// The word before a list's own words.
fn version_word(version: i16) -> u32 {
    u32::from(version as u16)
}

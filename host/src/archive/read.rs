//! The lists of a file, one after the other.

use super::checksum::Checksum;
use super::words::{Next, Words};
use super::{
    ArchiveError, Damage, END, Format, LAYOUT, MAGIC, MOST_WORDS, Mark, Totals, ZEROS, version_of,
};
use crate::Token;
use std::io::Read;

/// A list of a file.
///
/// ```
/// use sorbrudder::archive::Lists;
///
/// let mut lists = Lists::new(&[4, 0, 0, 0, 6, 0, 0, 0][..]).unwrap();
/// lists.next_list().unwrap();
/// let second = lists.next_list().unwrap().unwrap();
/// assert_eq!((second.number, second.byte, second.version, second.words), (1, 4, 6, &[][..]));
/// ```
#[derive(Copy, Clone, Debug, PartialEq, Eq)]
#[non_exhaustive]
pub struct List<'w> {
    /// Its number in the file, from 0.
    pub number: u64,
    /// The byte of the file where it begins.
    pub byte: u64,
    /// The version that it was written for.
    pub version: i16,
    /// Its words, which may be no tokens.
    pub words: &'w [u32],
}

/// Reads the lists of a stream of either format. It holds one list, however long the stream is.
///
/// ```
/// use sorbrudder::archive::Lists;
///
/// let file: &[u8] = &[6, 0, 0, 0];
/// let mut lists = Lists::new(file)?;
/// while let Some(list) = lists.next_list()? {
///     assert_eq!(list.version, 6);
/// }
/// # Ok::<(), sorbrudder::archive::ArchiveError>(())
/// ```
#[derive(Debug)]
pub struct Lists<R> {
    words: Words<R>,
    format: Format,
    /// Of a file of words: the version word of the next list, and its byte.
    opened: Option<(u32, u64)>,
    list: Vec<u32>,
    totals: Totals,
    sums: Sums,
    zeros: usize,
    ended: bool,
}

/// The checksum of the checksums.
#[derive(Copy, Clone)]
struct Sums(Checksum);

impl std::fmt::Debug for Sums {
    fn fmt(&self, f: &mut std::fmt::Formatter<'_>) -> std::fmt::Result {
        write!(f, "{:08x}", self.0.value())
    }
}

impl<R: Read> Lists<R> {
    /// Begins to read: the first bytes tell the format.
    ///
    /// ```
    /// use sorbrudder::archive::{Format, Lists};
    ///
    /// let lists = Lists::new(&[6, 0, 0, 0][..]).unwrap();
    /// assert_eq!(lists.format(), Format::Words);
    /// assert!(Lists::new(&b"text"[..]).is_err());
    /// ```
    pub fn new(from: R) -> Result<Self, ArchiveError> {
        let mut lists = Self {
            words: Words::new(from),
            format: Format::Words,
            opened: None,
            list: Vec::new(),
            totals: Totals::default(),
            sums: Sums(Checksum::new()),
            zeros: 0,
            ended: false,
        };
        match lists.words.next()? {
            Next::Word(word) if word == MAGIC[0] => {
                lists.format = Format::Container;
                lists.begin(word)?;
            }
            Next::Word(word) if version_of(word).is_some() => lists.opened = Some((word, 0)),
            Next::Part if MAGIC[0].to_le_bytes().starts_with(lists.words.part()) => {
                return Err(lists.damaged(Damage::Cut, 0));
            }
            Next::Word(_) | Next::Part => return Err(lists.damaged(Damage::NoArchive, 0)),
            Next::End => return Err(lists.damaged(Damage::Empty, 0)),
        }
        Ok(lists)
    }

    /// Goes on to read a container from a place in it that its writer, or another reader, noted; the stream begins there.
    ///
    /// ```
    /// use sorbrudder::archive::{Format, Lists, ListsWriter};
    ///
    /// let writer = ListsWriter::new(Vec::new(), Format::Container).unwrap();
    /// let mark = writer.mark().unwrap();
    /// let (bytes, _) = writer.finish().unwrap();
    /// let mut lists = Lists::from_mark(&bytes[16..], mark);
    /// assert!(lists.next_list().unwrap().is_none());
    /// ```
    pub fn from_mark(from: R, mark: Mark) -> Self {
        Self {
            words: Words::behind(from, mark.byte()),
            format: Format::Container,
            opened: None,
            list: Vec::new(),
            totals: mark.totals(),
            sums: Sums(mark.sums()),
            zeros: 0,
            ended: false,
        }
    }

    /// The place in a container behind the lists that were read; none in a file of words.
    ///
    /// ```
    /// use sorbrudder::archive::Lists;
    ///
    /// assert!(Lists::new(&[6, 0, 0, 0][..]).unwrap().mark().is_none());
    /// ```
    pub fn mark(&self) -> Option<Mark> {
        let is_container = self.format == Format::Container;
        is_container.then(|| Mark::of(self.totals, self.sums.0))
    }

    /// The format of the stream.
    ///
    /// ```
    /// use sorbrudder::archive::{Format, Lists};
    ///
    /// assert_eq!(Lists::new(&[6, 0, 0, 0][..]).unwrap().format(), Format::Words);
    /// ```
    pub fn format(&self) -> Format {
        self.format
    }

    /// How many lists and words were read so far.
    ///
    /// ```
    /// use sorbrudder::archive::Lists;
    ///
    /// let mut lists = Lists::new(&[6, 0, 0, 0][..]).unwrap();
    /// while lists.next_list().unwrap().is_some() {}
    /// assert_eq!((lists.totals().lists, lists.totals().words), (1, 0));
    /// ```
    pub fn totals(&self) -> Totals {
        self.totals
    }

    /// The byte of the stream after what was read.
    ///
    /// ```
    /// use sorbrudder::archive::Lists;
    ///
    /// assert_eq!(Lists::new(&[6, 0, 0, 0][..]).unwrap().byte(), 4);
    /// ```
    pub fn byte(&self) -> u64 {
        self.words.byte()
    }

    /// The next list; none at the end, which has then been found to be whole. After an error there is no list more.
    ///
    /// ```
    /// use sorbrudder::archive::Lists;
    ///
    /// let mut lists = Lists::new(&[6, 0, 0, 0, 4, 0, 0, 0][..]).unwrap();
    /// let mut versions = Vec::new();
    /// while let Some(list) = lists.next_list().unwrap() {
    ///     versions.push(list.version);
    /// }
    /// assert_eq!(versions, [6, 4]);
    /// ```
    pub fn next_list(&mut self) -> Result<Option<List<'_>>, ArchiveError> {
        let read = self.step()?;
        Ok(read.map(|read| self.last(read)))
    }

    /// Reads the next list, and gives its version and its byte.
    pub(super) fn step(&mut self) -> Result<Option<(i16, u64)>, ArchiveError> {
        if self.ended {
            return Ok(None);
        }
        let read = match self.format {
            Format::Words => self.next_of_words(),
            Format::Container => self.next_of_container(),
        };
        let read = read.inspect_err(|_| self.ended = true)?;
        match read {
            Some(_) => self.totals.add(&self.list),
            None => self.ended = true,
        }
        Ok(read)
    }

    /// The list that was read last, of this version and at this byte.
    pub(super) fn last(&self, (version, byte): (i16, u64)) -> List<'_> {
        List {
            number: self.totals.lists - 1,
            byte,
            version,
            words: &self.list,
        }
    }

    /// Passes by all that is left; how long the stream is.
    pub(super) fn skip(&mut self) -> std::io::Result<u64> {
        while let Next::Word(_) = self.words.next()? {}
        Ok(self.words.byte() + self.words.part().len() as u64)
    }

    fn damaged(&self, damage: Damage, byte: u64) -> ArchiveError {
        ArchiveError::Damaged {
            damage,
            byte,
            list: self.totals.lists,
        }
    }

    /// A word that has to be there.
    fn word(&mut self) -> Result<u32, ArchiveError> {
        match self.words.next()? {
            Next::Word(word) => Ok(word),
            Next::End | Next::Part => Err(self.damaged(Damage::Cut, self.words.byte())),
        }
    }

    /// The head of a container after its first word.
    fn begin(&mut self, first: u32) -> Result<(), ArchiveError> {
        let head = [first, self.word()?, self.word()?];
        let sum = self.word()?;
        if head[1] != MAGIC[1] {
            return Err(self.damaged(Damage::NoArchive, 4));
        }
        if sum != Checksum::of(&head).value() {
            return Err(self.damaged(Damage::Checksum, 12));
        }
        match head[2] {
            LAYOUT => Ok(()),
            _ => Err(self.damaged(Damage::Layout, 8)),
        }
    }

    /// A list of a file of words: up to the next word of kind 0.
    fn next_of_words(&mut self) -> Result<Option<(i16, u64)>, ArchiveError> {
        let Some((opener, byte)) = self.opened.take() else {
            return Ok(None);
        };
        let Some(version) = version_of(opener) else {
            return Err(self.damaged(Damage::NoVersion, byte));
        };
        self.list.clear();
        loop {
            let at = self.words.byte();
            match self.words.next()? {
                Next::Word(word) if word >> 29 == 0 => {
                    self.opened = Some((word, at));
                    break;
                }
                Next::Word(_) if self.list.len() == MOST_WORDS => {
                    return Err(self.damaged(Damage::TooLong, byte));
                }
                Next::Word(word) => self.list.push(word),
                Next::End if !self.list.len().is_multiple_of(Token::WORDS) => {
                    return Err(self.damaged(Damage::CutToken, at));
                }
                Next::End => break,
                Next::Part => return Err(self.damaged(Damage::CutWord, at)),
            }
        }
        let is_zero = opener == 0 && self.list.is_empty();
        self.zeros = if is_zero { self.zeros + 1 } else { 0 };
        if self.zeros == ZEROS {
            return Err(self.damaged(Damage::Zeros, byte));
        }
        Ok(Some((version, byte)))
    }

    /// A list of a container, with its length and its checksum, or the end.
    fn next_of_container(&mut self) -> Result<Option<(i16, u64)>, ArchiveError> {
        let byte = self.words.byte();
        let opener = self.word()?;
        if opener == END {
            return self.end(byte);
        }
        let Some(version) = version_of(opener) else {
            return Err(self.damaged(Damage::NoVersion, byte));
        };
        let len = self.word()?;
        if len as usize > MOST_WORDS {
            return Err(self.damaged(Damage::TooLong, byte));
        }
        let mut sum = Checksum::of(&[opener, len]);
        self.list.clear();
        if !self.words.take(len as usize, &mut self.list)? {
            return Err(self.damaged(Damage::Cut, self.words.byte()));
        }
        sum.add_all(&self.list);
        if self.word()? != sum.value() {
            return Err(self.damaged(Damage::Checksum, byte));
        }
        self.sums.0.add(sum.value());
        Ok(Some((version, byte)))
    }

    /// The end of a container after its mark: the counts, their checksum, and nothing more.
    fn end(&mut self, byte: u64) -> Result<Option<(i16, u64)>, ArchiveError> {
        let counts = [self.word()?, self.word()?, self.word()?, self.word()?];
        let mut sum = self.sums.0;
        sum.add(END);
        counts.iter().for_each(|count| sum.add(*count));
        if counts != self.totals.as_words() || self.word()? != sum.value() {
            return Err(self.damaged(Damage::Count, byte));
        }
        match self.words.next()? {
            Next::End => Ok(None),
            Next::Word(_) | Next::Part => Err(self.damaged(Damage::After, byte + 24)),
        }
    }
}

//! Writes lists one after the other.

use super::checksum::Checksum;
use super::{END, Format, LAYOUT, MAGIC, MOST_WORDS, Mark, ZEROS, version_word};
use crate::Token;
use std::io::{self, Write};

/// How many lists, and how many words of lists.
///
/// ```
/// use sorbrudder::archive::{Format, ListsWriter};
///
/// let mut writer = ListsWriter::new(Vec::new(), Format::Container).unwrap();
/// writer.write(6, &[1 << 29]).unwrap();
/// let (_, totals) = writer.finish().unwrap();
/// assert_eq!((totals.lists, totals.words), (1, 1));
/// ```
#[derive(Copy, Clone, Debug, Default, PartialEq, Eq, Hash)]
#[non_exhaustive]
pub struct Totals {
    /// The lists.
    pub lists: u64,
    /// Their words, without those of versions, lengths and checksums.
    pub words: u64,
}

impl Totals {
    pub(super) fn add(&mut self, list: &[u32]) {
        self.lists += 1;
        self.words += list.len() as u64;
    }

    /// As they stand at the end of a container: the lower half of each number first.
    pub(super) fn as_words(self) -> [u32; 4] {
        let halves = |number: u64| [number as u32, (number >> 32) as u32];
        let ([a, b], [c, d]) = (halves(self.lists), halves(self.words));
        [a, b, c, d]
    }
}

/// Writes lists to a stream of either format. What it holds does not grow; give it a buffered stream.
///
/// ```
/// use sorbrudder::archive::{Format, ListsWriter};
///
/// let mut writer = ListsWriter::new(Vec::new(), Format::Container).unwrap();
/// writer.write(6, &[]).unwrap();
/// assert_eq!(writer.finish().unwrap().0.len(), 16 + 12 + 24);
/// ```
pub struct ListsWriter<W> {
    to: W,
    format: Format,
    bytes: Vec<u8>,
    totals: Totals,
    sums: Checksum,
    /// Of a file of words: how many lists in a row look like zeros, and whether the last list could have been cut.
    zeros: usize,
    is_cut: bool,
}

impl<W: Write> ListsWriter<W> {
    /// Begins to write.
    ///
    /// ```
    /// use sorbrudder::archive::{Format, ListsWriter};
    ///
    /// let mut writer = ListsWriter::new(Vec::new(), Format::Words).unwrap();
    /// writer.write(6, &[]).unwrap();
    /// assert_eq!(writer.finish().unwrap().0, [6, 0, 0, 0]);
    /// ```
    pub fn new(to: W, format: Format) -> io::Result<Self> {
        let mut writer = Self {
            to,
            format,
            bytes: Vec::new(),
            totals: Totals::default(),
            sums: Checksum::new(),
            zeros: 0,
            is_cut: false,
        };
        if format == Format::Container {
            let head = [MAGIC[0], MAGIC[1], LAYOUT];
            writer.put(&head)?;
            writer.put(&[Checksum::of(&head).value()])?;
        }
        Ok(writer)
    }

    /// Writes a list.
    ///
    /// A list of more than [`MOST_WORDS`] words is an error, and so is, in a file of words, a list with a word of kind 0, which would
    /// begin another list, and the last of so many empty lists of version 0 that a reader takes them for zeros.
    ///
    /// ```
    /// use sorbrudder::archive::{Format, ListsWriter};
    ///
    /// let mut writer = ListsWriter::new(Vec::new(), Format::Words).unwrap();
    /// assert!(writer.write(6, &[1 << 29]).is_ok());
    /// assert!(writer.write(6, &[0]).is_err());
    /// ```
    pub fn write(&mut self, version: i16, words: &[u32]) -> io::Result<()> {
        let splits = self.format == Format::Words && words.iter().any(|word| word >> 29 == 0);
        let is_zero = self.format == Format::Words && version == 0 && words.is_empty();
        self.zeros = if is_zero { self.zeros + 1 } else { 0 };
        if words.len() > MOST_WORDS || splits || self.zeros == ZEROS {
            return Err(wrong("the words cannot be one list of this format"));
        }
        self.is_cut = !words.len().is_multiple_of(Token::WORDS);
        self.totals.add(words);
        let opener = version_word(version);
        match self.format {
            Format::Words => {
                self.put(&[opener])?;
                self.put(words)
            }
            Format::Container => {
                self.bytes.clear();
                let sum = encode(&mut self.bytes, opener, words);
                self.sums.add(sum);
                self.to.write_all(&self.bytes)
            }
        }
    }

    /// Writes lists that were put together apart. Only a container takes them.
    ///
    /// ```
    /// use sorbrudder::archive::{Encoded, Format, ListsWriter};
    ///
    /// let mut lists = Encoded::default();
    /// lists.add(6, &[1 << 29]).unwrap();
    /// let mut writer = ListsWriter::new(Vec::new(), Format::Container).unwrap();
    /// writer.append(&lists).unwrap();
    /// let mut other = ListsWriter::new(Vec::new(), Format::Container).unwrap();
    /// other.write(6, &[1 << 29]).unwrap();
    /// assert_eq!(writer.finish().unwrap(), other.finish().unwrap());
    /// ```
    pub fn append(&mut self, lists: &Encoded) -> io::Result<()> {
        if self.format == Format::Words {
            return Err(wrong("only a container takes lists with their checksums"));
        }
        self.totals.lists += lists.totals.lists;
        self.totals.words += lists.totals.words;
        self.sums.add_all(&lists.sums);
        self.to.write_all(&lists.bytes)
    }

    /// The place behind what was written, from which [`Lists::from_mark`](super::Lists::from_mark) reads on. Only a container has such
    /// places.
    ///
    /// ```
    /// use sorbrudder::archive::{Format, ListsWriter};
    ///
    /// let writer = ListsWriter::new(Vec::new(), Format::Container).unwrap();
    /// assert_eq!(writer.mark().unwrap().byte(), 16);
    /// let writer = ListsWriter::new(Vec::new(), Format::Words).unwrap();
    /// assert!(writer.mark().is_none());
    /// ```
    pub fn mark(&self) -> Option<Mark> {
        let is_container = self.format == Format::Container;
        is_container.then(|| Mark::of(self.totals, self.sums))
    }

    /// Writes the end, and gives the stream back, flushed, with how much was written.
    ///
    /// A file of words without a list is an error, since it would be empty, and so is one whose last list ends within a token: a reader
    /// calls either damaged.
    ///
    /// ```
    /// use sorbrudder::archive::{Format, ListsWriter};
    ///
    /// let writer = ListsWriter::new(Vec::new(), Format::Container).unwrap();
    /// assert_eq!(writer.finish().unwrap().0.len(), 16 + 24);
    /// let writer = ListsWriter::new(Vec::new(), Format::Words).unwrap();
    /// assert!(writer.finish().is_err());
    /// ```
    pub fn finish(mut self) -> io::Result<(W, Totals)> {
        match self.format {
            Format::Words if self.totals.lists == 0 => {
                return Err(wrong("a plain file of words has at least one list"));
            }
            Format::Words if self.is_cut => {
                return Err(wrong("a plain file of words ends with a whole token"));
            }
            _ => {}
        }
        if self.format == Format::Container {
            let [a, b, c, d] = self.totals.as_words();
            let mut sum = self.sums;
            [END, a, b, c, d].iter().for_each(|word| sum.add(*word));
            self.put(&[END, a, b, c, d, sum.value()])?;
        }
        self.to.flush()?;
        Ok((self.to, self.totals))
    }

    fn put(&mut self, words: &[u32]) -> io::Result<()> {
        self.bytes.clear();
        self.bytes
            .extend(words.iter().flat_map(|word| word.to_le_bytes()));
        self.to.write_all(&self.bytes)
    }
}

/// Lists as they stand in a container, put together apart from it, so that several threads can.
///
/// ```
/// use sorbrudder::archive::Encoded;
///
/// let mut lists = Encoded::default();
/// lists.add(6, &[]).unwrap();
/// assert_eq!(lists.totals().lists, 1);
/// ```
#[derive(Clone, Debug, Default)]
pub struct Encoded {
    bytes: Vec<u8>,
    /// The lists' checksums.
    sums: Vec<u32>,
    totals: Totals,
}

impl Encoded {
    /// Adds a list. One of more than [`MOST_WORDS`] words is an error.
    ///
    /// ```
    /// use sorbrudder::archive::{Encoded, MOST_WORDS};
    ///
    /// assert!(Encoded::default().add(6, &vec![0; MOST_WORDS + 1]).is_err());
    /// ```
    pub fn add(&mut self, version: i16, words: &[u32]) -> io::Result<()> {
        if words.len() > MOST_WORDS {
            return Err(wrong("the words cannot be one list of this format"));
        }
        let sum = encode(&mut self.bytes, version_word(version), words);
        self.sums.push(sum);
        self.totals.add(words);
        Ok(())
    }

    /// How many lists and words were added.
    ///
    /// ```
    /// assert_eq!(sorbrudder::archive::Encoded::default().totals().lists, 0);
    /// ```
    pub fn totals(&self) -> Totals {
        self.totals
    }
}

/// Puts a list behind bytes as a container has it, and gives its checksum.
fn encode(bytes: &mut Vec<u8>, opener: u32, words: &[u32]) -> u32 {
    let head = [opener, words.len() as u32];
    let mut sum = Checksum::of(&head);
    sum.add_all(words);
    let mut put = |words: &[u32]| bytes.extend(words.iter().flat_map(|word| word.to_le_bytes()));
    put(&head);
    put(words);
    put(&[sum.value()]);
    sum.value()
}

fn wrong(why: &'static str) -> io::Error {
    io::Error::new(io::ErrorKind::InvalidInput, why)
}

impl<W> std::fmt::Debug for ListsWriter<W> {
    fn fmt(&self, f: &mut std::fmt::Formatter<'_>) -> std::fmt::Result {
        write!(f, "ListsWriter({:?}, {:?})", self.format, self.totals)
    }
}

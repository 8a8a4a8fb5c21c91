//! An archive that is read, from a file or from standard input.

use crate::escape;
use crate::failure::Failure;
use crate::paths::{is_dangling, is_stream};
use sorbrudder::archive::{Format, List, Lists};
use std::fs::File;
use std::io::{self, Read};
use std::path::{Path, PathBuf};
use std::sync::atomic::{AtomicU64, Ordering};

/// How many bytes all inputs together have given.
pub static READ: AtomicU64 = AtomicU64::new(0);

/// Bytes that are counted while they are read.
pub struct Counted(Box<dyn Read + Send>);

impl Read for Counted {
    fn read(&mut self, bytes: &mut [u8]) -> io::Result<usize> {
        let count = self.0.read(bytes)?;
        READ.fetch_add(count as u64, Ordering::Relaxed);
        Ok(count)
    }
}

/// A list of an archive, with its number, its place and its version there.
#[derive(Copy, Clone, Debug)]
pub struct Listed<'w> {
    pub number: u64,
    pub byte: u64,
    pub version: i16,
    pub words: &'w [u32],
}

impl<'w> From<List<'w>> for Listed<'w> {
    fn from(list: List<'w>) -> Self {
        Self {
            number: list.number,
            byte: list.byte,
            version: list.version,
            words: list.words,
        }
    }
}

/// Lists that are kept together.
#[derive(Debug, Default)]
pub struct Batch {
    /// The format of the archive that they are from.
    pub format: Option<Format>,
    heads: Vec<Head>,
    words: Vec<u32>,
}

/// What is known of a list, and where its words end among the batch's.
#[derive(Debug)]
struct Head {
    number: u64,
    byte: u64,
    version: i16,
    end: usize,
}

/// Where lists come from.
pub trait Source {
    /// The file as it was named.
    fn path(&self) -> &Path;

    /// Fills a batch; whether there may be more.
    fn fill(&mut self, batch: &mut Batch) -> Result<bool, Failure>;
}

/// How many lists and words make a batch. A few batches for each thread are under way at once, with what comes of them: twice as much went
/// past 10 MB on four threads.
const MOST_LISTS: usize = 128;
const MOST_WORDS: usize = 1 << 12;

impl Batch {
    pub fn is_empty(&self) -> bool {
        self.heads.is_empty()
    }

    pub fn is_full(&self) -> bool {
        self.heads.len() >= MOST_LISTS || self.words.len() >= MOST_WORDS
    }

    pub fn push(&mut self, list: Listed<'_>) {
        self.words.extend_from_slice(list.words);
        self.heads.push(Head {
            number: list.number,
            byte: list.byte,
            version: list.version,
            end: self.words.len(),
        });
    }

    pub fn lists(&self) -> impl Iterator<Item = Listed<'_>> {
        let mut start = 0;
        self.heads.iter().map(move |head| Listed {
            number: head.number,
            byte: head.byte,
            version: head.version,
            words: &self.words[std::mem::replace(&mut start, head.end)..head.end],
        })
    }
}

/// The lists of an archive.
pub struct Input {
    pub path: PathBuf,
    lists: Lists<Counted>,
}

impl Input {
    pub fn open(path: &Path) -> Result<Self, Failure> {
        if is_stream(path) {
            return Self::of(path, io::stdin());
        }
        let file = File::open(path).map_err(|why| match is_dangling(path) {
            true => Failure::Io(format!(
                "{}: a link that leads nowhere: {why}",
                escape::path(path)
            )),
            false => Failure::io(path, &why),
        })?;
        Self::of(path, file)
    }

    /// The lists that are read from here, under this name.
    pub fn of(path: &Path, from: impl Read + Send + 'static) -> Result<Self, Failure> {
        let from: Box<dyn Read + Send> = Box::new(from);
        let lists = Lists::new(Counted(from)).map_err(|why| Failure::archive(path, &why))?;
        Ok(Self {
            path: path.to_path_buf(),
            lists,
        })
    }

    pub fn format(&self) -> Format {
        self.lists.format()
    }

    pub fn is_words(&self) -> bool {
        self.format() == Format::Words
    }

    /// How many lists were read so far.
    pub fn count(&self) -> u64 {
        self.lists.totals().lists
    }

    pub fn next_list(&mut self) -> Result<Option<List<'_>>, Failure> {
        let next = self.lists.next_list();
        next.map_err(|why| Failure::archive(&self.path, &why))
    }
}

impl Source for Input {
    fn path(&self) -> &Path {
        &self.path
    }

    fn fill(&mut self, batch: &mut Batch) -> Result<bool, Failure> {
        batch.format = Some(self.format());
        while !batch.is_full() {
            let Some(list) = self.next_list()? else {
                return Ok(false);
            };
            batch.push(list.into());
        }
        Ok(true)
    }
}

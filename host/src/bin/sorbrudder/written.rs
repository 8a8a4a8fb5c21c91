//! What was written is read back before it takes a file's place.

use crate::escape;
use crate::failure::Failure;
use crate::helpers::{Helpers, Task};
use crate::replace::Replacement;
use sorbrudder::archive::{Lists, Mark};
use std::fs::File;
use std::io::{self, Read};
use std::os::unix::fs::FileExt as _;
use std::path::Path;
use std::sync::Arc;

/// A number over lists: equal for equal lists in the same order.
#[derive(Clone, Copy, Debug, PartialEq, Eq)]
pub struct Digest {
    lists: u64,
    mixed: u64,
}

impl Digest {
    pub fn new() -> Self {
        Self {
            lists: 0,
            mixed: 0xCBF2_9CE4_8422_2325,
        }
    }

    pub fn add(&mut self, version: i16, words: &[u32]) {
        self.add_list(Self::of_list(version, words));
    }

    /// Adds a list by its own number.
    pub fn add_list(&mut self, list: u64) {
        self.lists += 1;
        self.mixed = mixed(self.mixed, list);
    }

    /// The number of a list by itself.
    pub fn of_list(version: i16, words: &[u32]) -> u64 {
        let (pairs, rest) = words.as_chunks();
        let pair = |[first, second]: &[u32; 2]| u64::from(*first) << 32 | u64::from(*second);
        let all = mixed(version as u64, words.len() as u64);
        let all = pairs.iter().map(pair).fold(all, mixed);
        rest.iter().map(|word| u64::from(*word)).fold(all, mixed)
    }
}

fn mixed(before: u64, number: u64) -> u64 {
    (before.rotate_left(23) ^ number).wrapping_mul(0x9E37_79B9_7F4A_7C15)
}

/// The most places of a container that are noted.
const MOST_MARKS: usize = 64;

/// Places of a container that was written, with the digest up to each, so that its parts can be read back apart. However long it is, they
/// are no more than so many, and lie about evenly.
#[derive(Debug)]
pub struct Marks {
    marks: Vec<(Mark, Digest)>,
    /// Each so many times a place is noted.
    every: u64,
    times: u64,
}

impl Marks {
    pub fn new() -> Self {
        Self {
            marks: Vec::new(),
            every: 1,
            times: 0,
        }
    }

    pub fn note(&mut self, mark: Option<Mark>, digest: Digest) {
        self.times += 1;
        if let (Some(mark), true) = (mark, self.times.is_multiple_of(self.every)) {
            self.marks.push((mark, digest));
        }
        if self.marks.len() == MOST_MARKS {
            // Every second one, the last among them.
            let mut place = 0;
            self.marks.retain(|_| {
                place += 1;
                place % 2 == 0
            });
            self.every *= 2;
        }
    }
}

/// The bytes of a file from a place on, whoever else reads it.
struct From {
    file: Arc<File>,
    at: u64,
}

impl Read for From {
    fn read(&mut self, bytes: &mut [u8]) -> io::Result<usize> {
        let count = self.file.read_at(bytes, self.at)?;
        self.at += count as u64;
        Ok(count)
    }
}

/// A part of a file: from a place on, or from its beginning, up to a place, or to its end.
struct Part {
    file: Arc<File>,
    from: Option<(Mark, Digest)>,
    to: Option<Mark>,
}

impl Part {
    /// Reads it; the digest at its end, or why it is not what was written.
    fn read(self) -> Result<Digest, String> {
        let said = |why: sorbrudder::archive::ArchiveError| why.to_string();
        let at = self.from.map_or(0, |(mark, _)| mark.byte());
        let from = From {
            file: self.file,
            at,
        };
        let (mut lists, mut digest) = match self.from {
            Some((mark, digest)) => (Lists::from_mark(from, mark), digest),
            None => (Lists::new(from).map_err(said)?, Digest::new()),
        };
        while self.to.is_none_or(|to| lists.byte() < to.byte()) {
            let Some(list) = lists.next_list().map_err(said)? else {
                break;
            };
            digest.add(list.version, list.words);
        }
        match self.to {
            Some(to) if lists.mark() != Some(to) => Err("other lists".to_string()),
            _ => Ok(digest),
        }
    }
}

/// What is compared with what was meant.
pub struct Meant {
    pub digest: Digest,
    /// Places at which to share the reading.
    pub marks: Marks,
}

/// Reads what was written, and compares it with what was meant, before anything is replaced by it.
pub fn read_back(written: &mut Replacement, meant: Digest, target: &Path) -> Result<(), Failure> {
    let file = Arc::new(written.synced()?);
    let (from, to) = (None, None);
    let read = Part { file, from, to }.read();
    compared(read, meant, target)
}

/// The same, each part by whoever is free.
pub fn read_back_shared<T: Task>(
    written: &mut Replacement,
    meant: Meant,
    target: &Path,
    helpers: &Helpers<'_, T>,
) -> Result<(), Failure> {
    let file = Arc::new(written.synced()?);
    let (mut from, mut parts) = (None, Vec::new());
    let ends = meant.marks.marks.into_iter().map(Some).chain([None]);
    for to in ends {
        let part = Part {
            file: Arc::clone(&file),
            from,
            to: to.map(|(mark, _)| mark),
        };
        parts.push((helpers.share(|| part.read()), to));
        from = to;
    }
    // A part is right where it ends as the next one was meant to begin.
    for (part, to) in parts {
        let wanted = to.map_or(meant.digest, |(_, digest)| digest);
        compared(part.done()?, wanted, target)?;
    }
    Ok(())
}

fn compared(read: Result<Digest, String>, meant: Digest, target: &Path) -> Result<(), Failure> {
    let why = match read {
        Ok(found) if found == meant => return Ok(()),
        Ok(found) if found.lists == meant.lists => "other lists".to_string(),
        Ok(found) => format!("{} lists of {}", found.lists, meant.lists),
        Err(why) => why,
    };
    let target = escape::path(target);
    Err(Failure::Io(format!(
        "{target}: what was written reads back otherwise: {why}"
    )))
}

#[cfg(test)]
mod tests {
    use super::*;
    use sorbrudder::archive::{Format, ListsWriter};
    use std::sync::atomic::{AtomicUsize, Ordering};

    /// A container of so many lists, marked after each, and what was meant.
    fn written(count: u32) -> (Vec<u8>, Meant) {
        let mut writer = ListsWriter::new(Vec::new(), Format::Container).expect("bytes");
        let (mut marks, mut digest) = (Marks::new(), Digest::new());
        for number in 0..count {
            let words: Vec<u32> = (0..number % 7).map(|word| word ^ number).collect();
            writer.write(4, &words).expect("bytes");
            digest.add(4, &words);
            marks.note(writer.mark(), digest);
        }
        let (bytes, _) = writer.finish().expect("bytes");
        (bytes, Meant { digest, marks })
    }

    /// Whether all parts of these bytes are as they were meant, each read apart.
    fn is_right(bytes: &[u8], meant: &Meant) -> bool {
        static FILES: AtomicUsize = AtomicUsize::new(0);
        let number = FILES.fetch_add(1, Ordering::Relaxed);
        let name = format!("sorbrudder-parts-{}-{number}", std::process::id());
        let path = std::env::temp_dir().join(name);
        std::fs::write(&path, bytes).expect("a file");
        let file = Arc::new(File::open(&path).expect("a file"));
        std::fs::remove_file(&path).expect("a file");
        let mut from = None;
        meant.marks.marks.iter().map(Some).chain([None]).all(|to| {
            let to = to.copied();
            let part = Part {
                file: Arc::clone(&file),
                from: std::mem::replace(&mut from, to),
                to: to.map(|(mark, _)| mark),
            };
            let wanted = to.map_or(meant.digest, |(_, digest)| digest);
            compared(part.read(), wanted, Path::new("a")).is_ok()
        })
    }

    #[test]
    fn places_are_few_however_many_lists_there_are() {
        for count in [0, 1, 63, 64, 65, 1_000, 100_000] {
            let (bytes, meant) = written(count);
            let marks = &meant.marks.marks;
            assert!(marks.len() < MOST_MARKS);
            assert!(count < 64 || marks.len() >= MOST_MARKS / 2 - 1);
            let gaps = marks
                .windows(2)
                .map(|pair| pair[1].1.lists - pair[0].1.lists);
            assert!(gaps.clone().all(|gap| gap == meant.marks.every), "{count}");
            assert!(is_right(&bytes, &meant), "{count}");
        }
    }

    #[test]
    fn every_bit_that_is_turned_over_is_found_by_a_part() {
        let (bytes, meant) = written(70);
        for bit in 0..8 * bytes.len() {
            let mut turned = bytes.clone();
            turned[bit / 8] ^= 1 << (bit % 8);
            assert!(!is_right(&turned, &meant), "bit {bit}");
        }
        for len in 0..bytes.len() {
            assert!(!is_right(&bytes[..len], &meant), "cut to {len}");
        }
        assert!(!is_right(&[&bytes[..], &[0]].concat(), &meant));
    }

    #[test]
    fn other_lists_with_right_checksums_are_found() {
        let (_, meant) = written(70);
        let (other, _) = written(71);
        assert!(!is_right(&other, &meant));
        let mut writer = ListsWriter::new(Vec::new(), Format::Container).expect("bytes");
        for number in 0..70u32 {
            let words: Vec<u32> = (0..number % 7).map(|word| word ^ number).collect();
            // One list at another version.
            writer
                .write(if number == 40 { 5 } else { 4 }, &words)
                .expect("bytes");
        }
        let (other, _) = writer.finish().expect("bytes");
        assert!(!is_right(&other, &meant));
    }
}

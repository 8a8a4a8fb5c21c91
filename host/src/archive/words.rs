//! Little-endian words from a stream of bytes.

use std::io::{self, Read};

/// How many bytes are asked for at once.
const CHUNK: usize = 1 << 16;

/// The words of a stream, and how far they are read.
#[derive(Debug)]
pub(super) struct Words<R> {
    from: R,
    bytes: Box<[u8]>,
    at: usize,
    len: usize,
    /// Bytes of the stream before `bytes`.
    before: u64,
}

/// What comes next in a stream.
pub(super) enum Next {
    Word(u32),
    End,
    /// Fewer than four bytes are left.
    Part,
}

impl<R: Read> Words<R> {
    pub(super) fn new(from: R) -> Self {
        Self {
            from,
            bytes: vec![0; CHUNK].into(),
            at: 0,
            len: 0,
            before: 0,
        }
    }

    /// The words of a stream that begins so many bytes behind a file's beginning.
    pub(super) fn behind(from: R, before: u64) -> Self {
        Self {
            before,
            ..Self::new(from)
        }
    }

    /// The byte of the stream that comes next.
    pub(super) fn byte(&self) -> u64 {
        self.before + self.at as u64
    }

    /// The bytes that are left where they are fewer than a word's.
    pub(super) fn part(&self) -> &[u8] {
        &self.bytes[self.at..self.len]
    }

    #[inline]
    pub(super) fn next(&mut self) -> io::Result<Next> {
        if self.len - self.at < 4 {
            self.fill()?;
        }
        match self.bytes[self.at..self.len].first_chunk() {
            Some(bytes) => {
                self.at += 4;
                Ok(Next::Word(u32::from_le_bytes(*bytes)))
            }
            None if self.at == self.len => Ok(Next::End),
            None => Ok(Next::Part),
        }
    }

    /// Takes so many words; whether there are as many.
    pub(super) fn take(&mut self, count: usize, to: &mut Vec<u32>) -> io::Result<bool> {
        let mut left = count;
        while left > 0 {
            if self.len - self.at < 4 {
                self.fill()?;
            }
            let (words, _) = self.bytes[self.at..self.len].as_chunks();
            let words = &words[..words.len().min(left)];
            if words.is_empty() {
                return Ok(false);
            }
            to.extend(words.iter().map(|word| u32::from_le_bytes(*word)));
            self.at += 4 * words.len();
            left -= words.len();
        }
        Ok(true)
    }

    /// Reads on until there is a word, or no byte more.
    fn fill(&mut self) -> io::Result<()> {
        self.bytes.copy_within(self.at..self.len, 0);
        self.before += self.at as u64;
        self.len -= self.at;
        self.at = 0;
        while self.len < 4 {
            match self.from.read(&mut self.bytes[self.len..]) {
                Ok(0) => break,
                Ok(count) => self.len += count,
                Err(why) if why.kind() == io::ErrorKind::Interrupted => {}
                Err(why) => return Err(why),
            }
        }
        Ok(())
    }
}

//! What is whole of a damaged file.

use super::checksum::Checksum;
use super::{ArchiveError, END, Format, LAYOUT, List, Lists, MAGIC, MOST_WORDS, version_of};
use std::io::{self, Chain, Cursor, Read};

/// A part of a file: a list that is whole, or bytes that are lost.
///
/// ```
/// use sorbrudder::archive::{Piece, Salvage};
///
/// let mut pieces = Salvage::new(&[6, 0, 0, 0][..]).unwrap();
/// assert!(matches!(pieces.next_piece().unwrap(), Some(Piece::List(list)) if list.version == 6));
/// ```
#[derive(Copy, Clone, Debug, PartialEq, Eq)]
pub enum Piece<'w> {
    /// A list. Its number counts the lists that are whole.
    List(List<'w>),
    /// Bytes in which no list is whole.
    Lost {
        /// The first of them.
        start: u64,
        /// The first behind them.
        end: u64,
    },
}

/// Goes through a file and on behind damage, as far as the format lets one.
///
/// In a container each list has its length and its checksum, so behind bytes that are no list the next list is where a version, a length
/// and so many words have their checksum. In a file of words nothing tells where a list begins behind damage: what follows is lost.
///
/// ```
/// use sorbrudder::archive::{Format, ListsWriter, Piece, Salvage};
///
/// let mut writer = ListsWriter::new(Vec::new(), Format::Container)?;
/// for version in [4, 5, 6] {
///     writer.write(version, &[1 << 29])?;
/// }
/// let (mut bytes, _) = writer.finish()?;
/// bytes[16 + 16 + 8] ^= 1;
///
/// let mut pieces = Salvage::new(&bytes[..])?;
/// let mut whole = Vec::new();
/// while let Some(piece) = pieces.next_piece()? {
///     match piece {
///         Piece::List(list) => whole.push(list.version),
///         Piece::Lost { start, end } => assert_eq!((start, end), (32, 48)),
///     }
/// }
/// assert_eq!((whole, pieces.count()), (vec![4, 6], Some(3)));
/// # Ok::<(), std::io::Error>(())
/// ```
#[derive(Debug)]
pub struct Salvage<R>(Way<R>);

#[derive(Debug)]
enum Way<R> {
    Container(Box<Container<R>>),
    Words(Box<Plain<R>>),
}

/// A file of words: its lists up to the first damage.
#[derive(Debug)]
struct Plain<R> {
    lists: Lists<Chain<Cursor<Vec<u8>>, R>>,
    /// The first byte behind the last list that is whole.
    whole: u64,
}

impl<R: Read> Salvage<R> {
    /// Begins to read: the first bytes tell the format. What begins with no version is looked through as a container whose head is damaged.
    ///
    /// ```
    /// use sorbrudder::archive::{Format, Salvage};
    ///
    /// assert_eq!(Salvage::new(&[6, 0, 0, 0][..]).unwrap().format(), Format::Words);
    /// assert_eq!(Salvage::new(&b"text"[..]).unwrap().format(), Format::Container);
    /// ```
    pub fn new(mut from: R) -> io::Result<Self> {
        let mut first = Vec::new();
        from.by_ref().take(4).read_to_end(&mut first)?;
        let word = first.first_chunk().map(|word| u32::from_le_bytes(*word));
        if word.and_then(version_of).is_none() {
            let container = Container::new(Window::new(first, from));
            return Ok(Self(Way::Container(Box::new(container))));
        }
        let lists = Lists::new(Cursor::new(first).chain(from));
        let lists = lists.map_err(|_| io::Error::from(io::ErrorKind::InvalidData))?;
        Ok(Self(Way::Words(Box::new(Plain { lists, whole: 0 }))))
    }

    /// The format of the stream.
    ///
    /// ```
    /// use sorbrudder::archive::{Format, Salvage};
    ///
    /// assert_eq!(Salvage::new(&[6, 0, 0, 0][..]).unwrap().format(), Format::Words);
    /// ```
    pub fn format(&self) -> Format {
        match self.0 {
            Way::Container(_) => Format::Container,
            Way::Words(_) => Format::Words,
        }
    }

    /// How many lists there were, where a container's end was found and says so.
    ///
    /// ```
    /// use sorbrudder::archive::Salvage;
    ///
    /// assert_eq!(Salvage::new(&[6, 0, 0, 0][..]).unwrap().count(), None);
    /// ```
    pub fn count(&self) -> Option<u64> {
        match &self.0 {
            Way::Container(container) => container.count,
            Way::Words(_) => None,
        }
    }

    /// The next piece; none at the end. Pieces come in the order of the file, and hold every byte of it but for a container's head and end.
    ///
    /// ```
    /// use sorbrudder::archive::{Piece, Salvage};
    ///
    /// let mut pieces = Salvage::new(&b"text"[..]).unwrap();
    /// assert_eq!(pieces.next_piece().unwrap(), Some(Piece::Lost { start: 0, end: 4 }));
    /// assert_eq!(pieces.next_piece().unwrap(), None);
    /// ```
    pub fn next_piece(&mut self) -> io::Result<Option<Piece<'_>>> {
        match &mut self.0 {
            Way::Container(container) => container.next_piece(),
            Way::Words(plain) => plain.next_piece(),
        }
    }
}

impl<R: Read> Plain<R> {
    fn next_piece(&mut self) -> io::Result<Option<Piece<'_>>> {
        let start = self.whole;
        match self.lists.step() {
            Ok(None) => Ok(None),
            Ok(Some(read)) => {
                let list = self.lists.last(read);
                self.whole = list.byte + 4 + 4 * list.words.len() as u64;
                Ok(Some(Piece::List(list)))
            }
            Err(ArchiveError::Io(why)) => Err(why),
            // The list that the damage shows in is lost, and what follows.
            Err(_) => {
                let end = self.lists.skip()?;
                Ok(Some(Piece::Lost { start, end }))
            }
        }
    }
}

/// How many bytes are asked for at once.
const CHUNK: usize = 1 << 16;

/// The bytes of a stream from some place on, as many as are asked for.
#[derive(Debug)]
struct Window<R> {
    from: R,
    bytes: Vec<u8>,
    at: usize,
    /// Bytes of the stream before `bytes`.
    before: u64,
    is_end: bool,
}

impl<R: Read> Window<R> {
    fn new(bytes: Vec<u8>, from: R) -> Self {
        Self {
            from,
            bytes,
            at: 0,
            before: 0,
            is_end: false,
        }
    }

    /// The byte of the stream that comes next.
    fn byte(&self) -> u64 {
        self.before + self.at as u64
    }

    /// Whether so many bytes are left.
    fn has(&mut self, count: usize) -> io::Result<bool> {
        while self.bytes.len() - self.at < count && !self.is_end {
            if self.at >= CHUNK {
                self.bytes.drain(..self.at);
                self.before += self.at as u64;
                self.at = 0;
            }
            let mut more = self.from.by_ref().take(CHUNK as u64);
            self.is_end = more.read_to_end(&mut self.bytes)? == 0;
        }
        Ok(self.bytes.len() - self.at >= count)
    }

    /// The word so many bytes further on, which are there.
    fn word(&self, ahead: usize) -> u32 {
        let word = self.bytes[self.at + ahead..].first_chunk();
        word.map_or(0, |word| u32::from_le_bytes(*word))
    }

    fn words(&self, ahead: usize, count: usize) -> impl Iterator<Item = u32> {
        let words = &self.bytes[self.at + ahead..][..4 * count];
        let (words, _) = words.as_chunks();
        words.iter().map(|word| u32::from_le_bytes(*word))
    }
}

/// What stands at a place of a container.
enum Record {
    /// A list of so many words, with its checksum.
    List(usize, u32),
    /// The end, and nothing behind it.
    End,
    Neither,
}

/// How many bytes of would-be lists may be looked through without a list among them, at the first, and for each byte that is passed by:
/// with it a file that is made to look like beginnings of long lists takes no longer than its length allows.
const LOOKS: u64 = 1 << 26;
const LOOKS_A_BYTE: u64 = 256;

#[derive(Debug)]
struct Container<R> {
    window: Window<R>,
    is_begun: bool,
    /// The first byte that is lost, while no list follows.
    lost: Option<u64>,
    is_whole: bool,
    list: Vec<u32>,
    lists: u64,
    words: u64,
    sums: Sums,
    count: Option<u64>,
    looks: u64,
}

/// The checksum of the checksums.
#[derive(Copy, Clone)]
struct Sums(Checksum);

impl std::fmt::Debug for Sums {
    fn fmt(&self, f: &mut std::fmt::Formatter<'_>) -> std::fmt::Result {
        write!(f, "{:08x}", self.0.value())
    }
}

impl<R: Read> Container<R> {
    fn new(window: Window<R>) -> Self {
        Self {
            window,
            is_begun: false,
            lost: None,
            is_whole: true,
            list: Vec::new(),
            lists: 0,
            words: 0,
            sums: Sums(Checksum::new()),
            count: None,
            looks: LOOKS,
        }
    }

    fn next_piece(&mut self) -> io::Result<Option<Piece<'_>>> {
        if !self.is_begun {
            self.is_begun = true;
            self.begin()?;
        }
        loop {
            let end = self.window.byte();
            let record = self.record()?;
            let is_over = matches!(record, Record::Neither) && !self.window.has(1)?;
            // What is lost ends where something is found, or the file does.
            if (is_over || !matches!(record, Record::Neither))
                && let Some(start) = self.lost.take()
            {
                return Ok(Some(Piece::Lost { start, end }));
            }
            match record {
                Record::List(len, sum) => return Ok(Some(self.take(end, len, sum))),
                Record::End if self.end() => return Ok(None),
                _ if is_over => return Ok(None),
                _ => self.pass_by(end),
            }
        }
    }

    /// Passes by a head that is whole.
    fn begin(&mut self) -> io::Result<()> {
        let head = [MAGIC[0], MAGIC[1], LAYOUT];
        if self.window.has(16)?
            && self.window.words(0, 3).eq(head)
            && self.window.word(12) == Checksum::of(&head).value()
        {
            self.window.at += 16;
        }
        Ok(())
    }

    /// What stands here.
    fn record(&mut self) -> io::Result<Record> {
        if !self.window.has(12)? {
            return Ok(Record::Neither);
        }
        let (opener, len) = (self.window.word(0), self.window.word(4));
        if opener == END {
            let is_end = self.window.has(24)? && !self.window.has(25)?;
            return Ok(if is_end { Record::End } else { Record::Neither });
        }
        let len = len as usize;
        if version_of(opener).is_none() || len > MOST_WORDS {
            return Ok(Record::Neither);
        }
        let size = 4 * (len + 3);
        if size as u64 > self.looks || !self.window.has(size)? {
            return Ok(Record::Neither);
        }
        let mut sum = Checksum::new();
        let words = self.window.words(0, len + 2);
        words.for_each(|word| sum.add(word));
        if sum.value() == self.window.word(size - 4) {
            return Ok(Record::List(len, sum.value()));
        }
        self.looks -= size as u64;
        Ok(Record::Neither)
    }

    /// Takes the list that stands here.
    fn take(&mut self, byte: u64, len: usize, sum: u32) -> Piece<'_> {
        let version = version_of(self.window.word(0)).unwrap_or_default();
        self.list.clear();
        self.list.extend(self.window.words(8, len));
        self.window.at += 4 * (len + 3);
        self.looks = LOOKS;
        self.sums.0.add(sum);
        let number = self.lists;
        self.lists += 1;
        self.words += len as u64;
        Piece::List(List {
            number,
            byte,
            version,
            words: &self.list,
        })
    }

    /// Takes the end that stands here: it is whole where it says what was read, or could say it if more had been.
    fn end(&mut self) -> bool {
        let halves = |low: u32, high: u32| u64::from(low) | u64::from(high) << 32;
        let lists = halves(self.window.word(4), self.window.word(8));
        let words = halves(self.window.word(12), self.window.word(16));
        let mut sum = self.sums.0;
        self.window.words(0, 5).for_each(|word| sum.add(word));
        let is_right = match self.is_whole {
            true => {
                (lists, words) == (self.lists, self.words) && sum.value() == self.window.word(20)
            }
            false => lists >= self.lists && words >= self.words,
        };
        if is_right {
            self.window.at += 24;
            self.count = Some(lists);
            // What is asked for next is the end of the file.
            self.is_whole = true;
        }
        is_right
    }

    /// Passes by a byte of what is no list. Where its length says that the next list is, is no place to go on at: the length may be what is
    /// damaged, and lead behind lists that are whole.
    fn pass_by(&mut self, byte: u64) {
        self.is_whole = false;
        self.lost.get_or_insert(byte);
        self.window.at += 1;
        self.looks += LOOKS_A_BYTE;
    }
}

//! The answers that are kept in the repository (`vectors/vectors.bin`).
//!
//! The file is the eight bytes `SORBVEC2`, the number of records as four bytes (little-endian) and
//! the records. A number is a varint: seven bits a byte, lowest first, the top bit set on all bytes
//! but the last. A word of a list is kept as the number `word XOR (kind << 29)`, `kind` being the
//! one that its field asks for (1 to 5 in turn); a word of a tree likewise (1 to 6 in turn: where a
//! node closes, its seventh word, is not the Rust's and not kept; `closing` finds it from the list).
//! Since card 7 the operator's number in a word of kind 1 has twelve bits, so lists and trees may
//! have hosts' own names; nothing else of the format changed with that.
//!
//! A record is
//!
//! 1. one byte: the answer in bits 0-1 (0 a tree, 1 messages, 2 turned back), the used set in bits
//!    4-5 (0 as two numbers, low half first; 1 exact, hosts having no bit; 2 full), and in bit 6
//!    whether a nesting limit is kept (card 8; else it is 4,096);
//! 2. the list's length in words, and its words;
//! 3. the used set, if bits 4-5 are 0;
//! 4. the source length;
//! 5. the version, two bytes in two's complement;
//! 6. the nesting limit, if bit 6 is set;
//! 7. a tree: its length in nodes and its words; messages: how many, and eight numbers each; a call
//!    that is turned back: the lengths of its tree, message and work buffer, the answer's number
//!    and its place.

use crate::nesting::MOST_NESTING;
use crate::refusal::{Call, Refusal};
use crate::words::{
    Answer, Case, FULL_SET, LAST_PLACE, Record, RustNode, TOKEN_WORDS, Token, decode_list,
    exact_set, kind, low, word,
};

#[cfg(molangx)]
mod made;

#[cfg(molangx)]
pub use made::made;

/// The seed of the file in the repository.
pub const SEED: u64 = 20_261_115;

const MAGIC: &[u8; 8] = b"SORBVEC2";

/// The bit of a record's first byte that says that a nesting limit is kept.
const LIMITED: u8 = 1 << 6;

/// Words of a kept node: a token's and its child count.
const KEPT_WORDS: usize = TOKEN_WORDS + 1;

/// A record of the file.
#[derive(Clone, Debug, PartialEq, Eq)]
pub enum Stored {
    /// A list that is read, a nesting limit that it is within, and its answer.
    Answered {
        case: Case,
        limit: u32,
        answer: Answer,
    },
    /// A call that is turned back.
    Refused(Call, Refusal),
}

/// What a file was found not to be, and at which byte.
#[derive(Clone, Debug, PartialEq, Eq)]
pub struct Malformed {
    pub what: &'static str,
    pub at: usize,
}

/// Where the file stands in the repository.
pub fn path() -> std::path::PathBuf {
    std::path::Path::new(env!("CARGO_MANIFEST_DIR")).join("../vectors/vectors.bin")
}

/// The records of the file in the repository.
pub fn stored() -> Vec<Stored> {
    let path = path();
    let bytes = std::fs::read(&path).unwrap_or_else(|why| panic!("{}: {why}", path.display()));
    decode(&bytes).unwrap_or_else(|why| panic!("{}: {why:?}", path.display()))
}

/// The bytes of a file of these records.
pub fn encode(records: &[Stored]) -> Vec<u8> {
    let mut bytes = MAGIC.to_vec();
    bytes.extend((records.len() as u32).to_le_bytes());
    for record in records {
        put_record(&mut bytes, record);
    }
    bytes
}

fn put_number(bytes: &mut Vec<u8>, mut number: u64) {
    while number >= 0x80 {
        bytes.push(number as u8 | 0x80);
        number >>= 7;
    }
    bytes.push(number as u8);
}

fn put_words(bytes: &mut Vec<u8>, words: &[u32], kinds: usize) {
    for (place, given) in words.iter().enumerate() {
        put_number(bytes, u64::from(given ^ word_kind(place, kinds)));
    }
}

/// The bits of the kind that a field asks for.
fn word_kind(place: usize, kinds: usize) -> u32 {
    word((place % kinds) as u32 + 1, 0)
}

fn put_record(bytes: &mut Vec<u8>, record: &Stored) {
    let (answer, call) = match record {
        Stored::Answered {
            case,
            limit,
            answer,
        } => (
            matches!(answer, Answer::Messages(_)) as u8,
            &Call::of(case).at_limit(*limit),
        ),
        Stored::Refused(call, _) => (2, call),
    };
    let (list, used) = (&call.list, call.used);
    let set = match decode_list(list) {
        Some(tokens) if exact_set(&tokens) == used => 1,
        _ if used == FULL_SET => 2,
        _ => 0,
    };
    let limited = call.limit != MOST_NESTING;
    bytes.push(answer | set << 4 | if limited { LIMITED } else { 0 });
    put_number(bytes, list.len() as u64);
    put_words(bytes, list, TOKEN_WORDS);
    if set == 0 {
        put_number(bytes, used.0);
        put_number(bytes, used.1);
    }
    put_number(bytes, call.source_len);
    bytes.extend(call.version.to_le_bytes());
    if limited {
        put_number(bytes, u64::from(call.limit));
    }
    put_answer(bytes, record);
}

fn put_answer(bytes: &mut Vec<u8>, record: &Stored) {
    match record {
        Stored::Answered {
            answer: Answer::Tree(nodes),
            ..
        } => {
            put_number(bytes, nodes.len() as u64);
            for node in nodes {
                let mut words = node.token.words().to_vec();
                words.push(word(6, node.children));
                put_words(bytes, &words, KEPT_WORDS);
            }
        }
        Stored::Answered {
            answer: Answer::Messages(records),
            ..
        } => {
            put_number(bytes, records.len() as u64);
            for number in records.iter().flatten() {
                put_number(bytes, u64::from(*number));
            }
        }
        Stored::Refused(call, refusal) => {
            put_number(bytes, call.tree_len);
            put_number(bytes, call.messages_len);
            put_number(bytes, call.work_len);
            put_number(bytes, u64::from(refusal.number));
            put_number(bytes, u64::from(refusal.place));
        }
    }
}

/// The records of a file's bytes.
pub fn decode(bytes: &[u8]) -> Result<Vec<Stored>, Malformed> {
    let mut reader = Reader { bytes, at: 0 };
    if reader.take(MAGIC.len())? != MAGIC {
        return Err(reader.malformed("not a file of vectors"));
    }
    let mut count = [0; 4];
    count.copy_from_slice(reader.take(4)?);
    let records = (0..u32::from_le_bytes(count))
        .map(|_| reader.record())
        .collect::<Result<_, _>>()?;
    if reader.at != bytes.len() {
        return Err(reader.malformed("bytes after the last record"));
    }
    Ok(records)
}

struct Reader<'b> {
    bytes: &'b [u8],
    at: usize,
}

impl<'b> Reader<'b> {
    fn malformed(&self, what: &'static str) -> Malformed {
        Malformed { what, at: self.at }
    }

    fn take(&mut self, count: usize) -> Result<&'b [u8], Malformed> {
        let end = self.at.saturating_add(count);
        let taken = self.bytes.get(self.at..end);
        let taken = taken.ok_or_else(|| self.malformed("the bytes run out"))?;
        self.at = end;
        Ok(taken)
    }

    fn number(&mut self) -> Result<u64, Malformed> {
        let mut number = 0;
        for shift in (0..64).step_by(7) {
            let byte = self.take(1)?[0];
            number |= u64::from(byte & 0x7F) << shift;
            if byte < 0x80 {
                return Ok(number);
            }
        }
        Err(self.malformed("a number of more than ten bytes"))
    }

    fn number_32(&mut self) -> Result<u32, Malformed> {
        let number = self.number()?;
        u32::try_from(number).map_err(|_| self.malformed("a number of more than 32 bits"))
    }

    fn words(&mut self, count: u64, kinds: usize) -> Result<Vec<u32>, Malformed> {
        (0..count as usize)
            .map(|place| Ok(self.number_32()? ^ word_kind(place, kinds)))
            .collect()
    }

    fn record(&mut self) -> Result<Stored, Malformed> {
        let head = self.take(1)?[0];
        let len = self.number()?;
        let list = self.words(len, TOKEN_WORDS)?;
        let tokens = decode_list(&list);
        let used = match (head >> 4 & 3, &tokens) {
            (0, _) => (self.number()?, self.number()?),
            (1, Some(tokens)) => exact_set(tokens),
            (2, _) => FULL_SET,
            _ => return Err(self.malformed("no such used set")),
        };
        let source_len = self.number()?;
        let mut version = [0; 2];
        version.copy_from_slice(self.take(2)?);
        let version = i16::from_le_bytes(version);
        let limit = match head & LIMITED {
            0 => MOST_NESTING,
            _ => self.number_32()?,
        };
        if head & 0xF == 2 {
            let call = Call {
                list,
                tree_len: self.number()?,
                messages_len: self.number()?,
                work_len: self.number()?,
                used,
                source_len,
                version,
                limit,
            };
            return Ok(Stored::Refused(call, self.refusal()?));
        }
        let (Some(tokens), Ok(source_len)) = (tokens, u32::try_from(source_len)) else {
            return Err(self.malformed("a call that would be turned back"));
        };
        if source_len > LAST_PLACE {
            return Err(self.malformed("a source length that would be turned back"));
        }
        let case = Case {
            tokens,
            used,
            source_len,
            version,
        };
        let answer = self.answer(head & 0xF)?;
        Ok(Stored::Answered {
            case,
            limit,
            answer,
        })
    }

    fn refusal(&mut self) -> Result<Refusal, Malformed> {
        Ok(Refusal {
            number: self.number_32()?,
            place: self.number_32()?,
        })
    }

    fn answer(&mut self, kind: u8) -> Result<Answer, Malformed> {
        let count = self.number()?;
        match kind {
            0 => {
                let nodes = (0..count).map(|_| self.node());
                Ok(Answer::Tree(nodes.collect::<Result<_, _>>()?))
            }
            1 => {
                let messages = (0..count).map(|_| self.message());
                Ok(Answer::Messages(messages.collect::<Result<_, _>>()?))
            }
            _ => Err(self.malformed("no such answer")),
        }
    }

    fn node(&mut self) -> Result<RustNode, Malformed> {
        let words = self.words(KEPT_WORDS as u64, KEPT_WORDS)?;
        let token = Token::of_words(&words[..TOKEN_WORDS]);
        let token = token.ok_or_else(|| self.malformed("a node without a token"))?;
        let count = words[TOKEN_WORDS];
        if kind(count) != 6 {
            return Err(self.malformed("a node without a child count"));
        }
        Ok(RustNode {
            token,
            children: low(count),
        })
    }

    fn message(&mut self) -> Result<Record, Malformed> {
        let mut record = [0; 8];
        for number in &mut record {
            *number = self.number_32()?;
        }
        Ok(record)
    }
}

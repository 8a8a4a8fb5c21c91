//! The kept answers of the Rust parser (vectors/vectors.bin) through the safe interface: every tree's words, every message's
//! record, every refusal that a list can have. Where a node closes is not the Rust's word: it is found from the list.

mod common;

use common::{Bytes, KEPT_NODE_WORDS, LIMITED, USED, vectors};
use sorbrudder::{Limit, ReadError, Reader, Refusal, Tokens, Tree, Used};

/// The bits of a word below its kind.
const LOW: u32 = (1 << 29) - 1;

/// The operator's number in a token's first word.
fn number_in(first: u32) -> u32 {
    first & 0xFF | (first >> 12 & 0xF) << 8
}

/// A kept call: the used set is none where it has a bit that no operator has, the limit where it is no legal one.
struct Call {
    list: Vec<u32>,
    used: Option<Used>,
    source_len: u64,
    version: i16,
    limit: Option<Limit>,
}

impl Call {
    fn next(bytes: &mut Bytes<'_>, head: u8) -> Self {
        let len = bytes.number();
        let list = bytes.words(len, 5);
        let used = match (head & USED) >> 4 {
            0 => {
                let low = bytes.number();
                Used::from_halves(low, bytes.number())
            }
            1 => Some(Used::exact_words(&list)),
            _ => Some(Used::FULL),
        };
        Self {
            list,
            used,
            source_len: bytes.number(),
            version: i16::from_le_bytes([bytes.byte(), bytes.byte()]),
            limit: match head & LIMITED {
                0 => Some(Limit::MOST),
                _ => Limit::new(bytes.number() as u32),
            },
        }
    }

    fn read(&self, reader: &mut Reader) -> Result<Vec<u32>, ReadError> {
        let used = self.used.expect("a legal set");
        let words = reader.parse_words(&self.list, self.version, used, self.source_len)?;
        Ok(words.to_vec())
    }

    /// Where the section of each token closes, or the token's own end: the brackets are matched where one of the used
    /// set opens a section.
    fn closes(&self) -> Vec<u32> {
        let mut closes: Vec<u32> = self.list.chunks(5).map(|token| token[2] & LOW).collect();
        let used = self.used.expect("a legal set").halves().0;
        let mut open = Vec::new();
        for (place, token) in self.list.chunks(5).enumerate() {
            match number_in(token[0]) {
                _ if used & 0b01_0101 == 0 => break,
                0 | 2 | 4 => open.push(place),
                1 | 3 | 5 => {
                    if let Some(opener) = open.pop() {
                        closes[opener] = token[2] & LOW;
                    }
                }
                _ => {}
            }
        }
        closes
    }

    /// The kept words of a tree, six a node, with the seventh: reading the list with each token's number as its span
    /// says which token a node was made of.
    fn closed(&self, reader: &mut Reader, kept: &[u32]) -> Vec<u32> {
        let mut numbered = self.list.clone();
        for (number, token) in numbered.chunks_mut(5).enumerate() {
            (token[1], token[2]) = (2 << 29 | number as u32, 3 << 29 | number as u32);
        }
        let used = self.used.expect("a legal set");
        let named = reader.parse_words(&numbered, self.version, used, self.source_len);
        let named = named.expect("spans decide nothing");
        let closes = self.closes();
        let close = |node: &[u32], named: &[u32]| match number_in(node[0]) {
            0 | 2 | 4 => closes[(named[1] & LOW) as usize],
            _ => node[2] & LOW,
        };
        let nodes = kept
            .chunks(KEPT_NODE_WORDS as usize)
            .zip(named.chunks(Tree::NODE_WORDS));
        nodes
            .flat_map(|(node, named)| [node, &[7 << 29 | close(node, named)]].concat())
            .collect()
    }

    /// The same tree comes of words, of tokens, and of its own nodes.
    fn is_tree(&self, reader: &mut Reader, kept: &[u32]) {
        let words = self.closed(reader, kept);
        assert_eq!(self.read(reader), Ok(words.clone()));
        let tree = Tree::from_words(words).expect("an answer is a tree");
        let tokens = Tokens::from_words(&self.list).expect("a list that is read");
        let used = self.used.expect("a legal set");
        let typed = reader.parse(&tokens, self.version, used, self.source_len as u32);
        assert_eq!(typed, Ok(tree.clone()));
        let nodes = tree.nodes();
        let nodes = nodes.map(|node| (node.token(), node.child_count(), node.close()));
        assert_eq!(Tree::from_closed_nodes(nodes).expect("the same tree"), tree);
    }

    fn has_messages(&self, reader: &mut Reader, records: &[u32]) {
        let Err(ReadError::Messages(messages)) = self.read(reader) else {
            panic!("a tree of {:x?}", self.list);
        };
        let given = messages.iter().flat_map(|message| message.record());
        assert_eq!(given.collect::<Vec<u32>>(), records);
    }

    fn is_refused(&self, reader: &mut Reader, number: u32, place: u64) {
        // 3 to 6 and 17 are about the buffers, the set and the limit, which are the reader's and legal.
        if matches!(number, 3..=6 | 17) || self.used.is_none() || self.limit.is_none() {
            return;
        }
        let refusal = match self.read(reader) {
            Err(ReadError::Refused(refusal)) => refusal,
            Err(ReadError::TooDeep { token }) => {
                assert_eq!((18, token as u64), (number, place));
                return;
            }
            _ => panic!("{:x?} was read", self.list),
        };
        let word = match refusal {
            Refusal::WrongKind { word }
            | Refusal::UnknownOperator { word }
            | Refusal::UnknownPayload { word }
            | Refusal::OtherBits { word } => word as u64,
            _ => 0,
        };
        assert_eq!((refusal.number(), word), (number, place));
    }
}

#[test]
fn every_kept_answer() {
    let file = vectors();
    let mut bytes = Bytes(&file);
    let mut reader = Reader::new();
    let (mut counts, mut limited) = ([0; 3], 0);
    while !bytes.0.is_empty() {
        let head = bytes.byte();
        let call = Call::next(&mut bytes, head);
        counts[usize::from(head & 3)] += 1;
        limited += usize::from(head & LIMITED != 0);
        reader = reader.with_limit(call.limit.unwrap_or_default());
        match head & 3 {
            0 => {
                let nodes = bytes.number();
                let words = bytes.words(KEPT_NODE_WORDS * nodes, KEPT_NODE_WORDS);
                call.is_tree(&mut reader, &words);
            }
            1 => {
                let count = bytes.number();
                let records: Vec<u32> = (0..8 * count).map(|_| bytes.number() as u32).collect();
                call.has_messages(&mut reader, &records);
            }
            _ => {
                let _lent = [bytes.number(), bytes.number(), bytes.number()];
                let (number, place) = (bytes.number() as u32, bytes.number());
                call.is_refused(&mut reader, number, place);
            }
        }
    }
    assert!(counts.iter().all(|count| *count > 1_000), "{counts:?}");
    assert!(limited > 5_000, "{limited}");
}

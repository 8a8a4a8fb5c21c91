//! The library's entries on lists and trees that differ in one payload (card 6), beside how far it may reach.

use crate::library::{self, Given, Read};
use crate::payload_calls::{PayloadCall, PayloadTree};
use crate::payload_reach::{Left, Payload, Reach, WriteLeft, reach, write_reach};
use crate::smallest::{shown, smallest};
use crate::writer_model::Written;
use oracle::generate::Rng;
use oracle::nesting::{MOST_NESTING, least_limit};
use oracle::refusal::{Call, refusal, rule_bytes};
use oracle::words::{Case, NODE_WORDS, TOKEN_WORDS, decode_list, exact_set};

/// Which of the two entries reads.
#[derive(Copy, Clone, Debug, PartialEq, Eq)]
pub enum Entry {
    Parse,
    ParseRules,
}

/// A reader and a writer, over buffers that hold the same words before every call until they are stirred.
pub trait Entries {
    /// Other words stand in the buffers from now on.
    fn stir(&mut self);
    /// Reads a list that is not turned back.
    fn read(&mut self, entry: Entry, call: &Call) -> Result<Left, String>;
    /// Writes a tree into a list of `room` words.
    fn write(&mut self, tree: &[u32], room: usize) -> WriteLeft;
}

/// The library's.
#[derive(Default)]
pub struct Library {
    noise: Vec<u32>,
    moved: usize,
}

impl Library {
    /// By how much the noise moves at most.
    const MOVES: usize = 1 << 10;

    /// So many words that stand in a buffer before a call.
    fn words(&mut self, len: usize) -> Vec<u32> {
        let mut rng = Rng::new(self.noise.len() as u64 ^ 0x6);
        while self.noise.len() < Self::MOVES + len {
            self.noise.push(rng.bits() as u32);
        }
        self.noise[self.moved..][..len].to_vec()
    }
}

impl Entries for Library {
    fn stir(&mut self) {
        self.moved = (self.moved + 1) % Self::MOVES;
    }

    fn read(&mut self, entry: Entry, call: &Call) -> Result<Left, String> {
        let lens = [call.tree_len, call.messages_len, call.work_len];
        let [mut tree, mut messages, mut work] = lens.map(|len| self.words(len as usize));
        let mut rules = match entry {
            Entry::Parse => Vec::new(),
            Entry::ParseRules => {
                let words = self.words(rule_bytes(call.list.len()) as usize);
                words.into_iter().map(|word| word as u8).collect()
            }
        };
        let given = Given {
            source_len: call.source_len,
            version: call.version,
            used: call.used,
            limit: call.limit,
        };
        let (list, lent) = (&call.list, (&mut tree, &mut messages, &mut work));
        let read = match entry {
            Entry::Parse => library::parse(list, lent.0, lent.1, lent.2, given),
            Entry::ParseRules => {
                library::parse_rules(list, lent.0, lent.1, lent.2, &mut rules, given)
            }
        };
        let (nodes, records) = match read {
            Read::Tree(nodes) => (nodes, 0),
            Read::Messages(records) => (0, records),
            Read::Refused(..) => return Err(format!("{read:?} to a list that is accepted")),
        };
        Ok(Left {
            nodes,
            records,
            tree,
            messages,
            work,
            rules,
        })
    }

    fn write(&mut self, tree: &[u32], room: usize) -> WriteLeft {
        let mut list = self.words(room);
        let answer = library::write(tree, &mut list);
        WriteLeft { answer, list }
    }
}

/// How many pairs were compared, and what the payloads reached.
#[derive(Copy, Clone, Debug, Default)]
pub struct Tally {
    /// Pairs of trees that differ in one node, and that are equal.
    pub trees_apart: u64,
    pub trees_equal: u64,
    /// Pairs of messages that differ in one argument, by the number of the message, and that are equal.
    pub messages_apart: [u64; 18],
    pub messages_equal: u64,
    /// Pairs of written lists that differ in one token, and that are equal.
    pub lists_apart: u64,
    pub lists_equal: u64,
    /// Pairs of trees that were turned back, by the number of the answer.
    pub refused: [u64; 16],
    /// Pairs of trees that were read from the written lists.
    pub again_apart: u64,
    pub again_equal: u64,
}

impl Tally {
    fn read(&mut self, reach: Reach, left: &Left) {
        match reach {
            Reach::Tree(Some(_)) => self.trees_apart += 1,
            Reach::Tree(None) => self.trees_equal += 1,
            Reach::Messages(Some(place)) => {
                self.messages_apart[left.messages[place / 8 * 8] as usize] += 1;
            }
            Reach::Messages(None) => self.messages_equal += 1,
        }
    }

    fn written(&mut self, reach: Option<usize>, left: &WriteLeft) {
        match (left.answer, reach) {
            (Written::Refused(number, _), _) => self.refused[number as usize] += 1,
            (_, Some(_)) => self.lists_apart += 1,
            (_, None) => self.lists_equal += 1,
        }
    }

    fn again(&mut self, node: Option<usize>) {
        match node {
            Some(_) => self.again_apart += 1,
            None => self.again_equal += 1,
        }
    }

    /// How many pairs of lists were read.
    pub fn read_pairs(&self) -> u64 {
        let apart: u64 = self.messages_apart.iter().sum();
        self.trees_apart + self.trees_equal + apart + self.messages_equal
    }
}

/// Pairs of calls of a reader and a writer, one after the other.
#[derive(Default)]
pub struct Pairs<E> {
    pub entries: E,
    pub tally: Tally,
}

impl<E: Entries> Pairs<E> {
    /// Reads two lists that differ in one payload, by both entries; what it reached, and what they left without rules.
    fn read(&mut self, one: &Call, other: &Call) -> Result<(Reach, [Left; 2]), String> {
        self.entries.stir();
        let mut with = |entry| -> Result<(Reach, [Left; 2]), String> {
            let left = [
                self.entries.read(entry, one)?,
                self.entries.read(entry, other)?,
            ];
            let reached = reach(&left[0], &left[1]);
            let reached = reached.map_err(|why| format!("{entry:?}: {why}"))?;
            Ok((reached, left))
        };
        with(Entry::ParseRules)?;
        with(Entry::Parse)
    }

    /// Writes two trees that differ in one payload; what it reached, and what they left.
    fn write(
        &mut self,
        trees: [&[u32]; 2],
        room: usize,
    ) -> Result<(Option<usize>, [WriteLeft; 2]), String> {
        self.entries.stir();
        let left = trees.map(|tree| self.entries.write(tree, room));
        let reached = write_reach(&left[0], &left[1])?;
        Ok((reached, left))
    }

    /// Compares two readings; a difference is told of the smallest list that shows it.
    pub fn list(&mut self, pair: &PayloadCall) -> Result<Reach, String> {
        match self.read(&pair.call, &pair.changed()) {
            Ok((reached, [left, _])) => {
                self.tally.read(reached, &left);
                Ok(reached)
            }
            Err(why) => Err(self.told(pair, &why)),
        }
    }

    /// Compares two writings.
    pub fn tree(&mut self, pair: &PayloadTree) -> Result<Option<usize>, String> {
        let (tree, changed) = (&pair.tree, pair.changed());
        match self.write([tree, &changed], pair.room) {
            Ok((reached, [left, _])) => {
                self.tally.written(reached, &left);
                Ok(reached)
            }
            Err(why) => {
                let PayloadTree { node, payload, .. } = pair;
                Err(format!("{why}\n{payload:?} in node {node} of {tree:x?}"))
            }
        }
    }

    /// Compares two readings, the writings of their trees, and the readings of the written lists, at any version and under a limit that
    /// they are within. Whether it came to the last readings.
    pub fn chain(&mut self, rng: &mut Rng, pair: &PayloadCall) -> Result<bool, String> {
        self.links(rng, pair).map_err(|why| {
            let PayloadCall {
                call,
                token,
                payload,
            } = pair;
            format!("{why}\n{payload:?} in token {token} of\n{}", shown(call))
        })
    }

    fn links(&mut self, rng: &mut Rng, pair: &PayloadCall) -> Result<bool, String> {
        let (reached, left) = self.read(&pair.call, &pair.changed())?;
        self.tally.read(reached, &left[0]);
        let Reach::Tree(_) = reached else {
            return Ok(false);
        };
        let [one, other] = left
            .each_ref()
            .map(|left| &left.tree[..NODE_WORDS * left.nodes]);
        let room = 4 * TOKEN_WORDS * left[0].nodes;
        let (reached, written) = self.write([one, other], room)?;
        self.tally.written(reached, &written[0]);
        let Written::Tokens(tokens) = written[0].answer else {
            return Ok(false);
        };
        let lists = written
            .each_ref()
            .map(|left| &left.list[..TOKEN_WORDS * tokens]);
        let [one, other] = self.calls_again(rng, lists)?;
        match self.read(&one, &other)? {
            (Reach::Tree(node), _) => self.tally.again(node),
            (Reach::Messages(_), _) => return Err("messages to a written list".to_string()),
        }
        Ok(true)
    }

    /// The calls with two written lists, which differ in nothing else: the used set has each operator of the tokens and no other.
    fn calls_again(&self, rng: &mut Rng, lists: [&[u32]; 2]) -> Result<[Call; 2], String> {
        let tokens = decode_list(lists[0]).ok_or("the written words are no list")?;
        let version = match rng.below(5) {
            0 => rng.bits() as i16,
            _ => rng.below(12) as i16,
        };
        let limit = *rng.pick(&[least_limit(&tokens), MOST_NESTING]);
        let case = Case {
            used: exact_set(&tokens),
            source_len: rng.below(1 << 29) as u32,
            version,
            tokens,
        };
        let call = Call::of(&case).at_limit(limit);
        Ok(lists.map(|list| Call {
            list: list.to_vec(),
            ..call.clone()
        }))
    }

    /// What differs on the smallest list in which some token can have the other payload.
    fn told(&mut self, pair: &PayloadCall, why: &str) -> String {
        let payload = pair.payload;
        let least = smallest(pair.call.clone(), |call| {
            self.too_far(call, payload).is_some()
        });
        match self.too_far(&least, payload) {
            Some((token, why)) => {
                format!("{why}\n{payload:?} in token {token} of\n{}", shown(&least))
            }
            None => {
                let (token, call) = (pair.token, shown(&pair.call));
                format!("{why}\n{payload:?} in token {token} of\n{call}")
            }
        }
    }

    /// The first token of a call in which the payload reaches too far.
    fn too_far(&mut self, call: &Call, payload: Payload) -> Option<(usize, String)> {
        if refusal(call).is_some() {
            return None;
        }
        let tokens = call.list.len() / TOKEN_WORDS;
        (0..tokens).find_map(|token| {
            let pair = PayloadCall {
                call: call.clone(),
                token,
                payload,
            };
            let read = self.read(call, &pair.changed());
            read.err().map(|why| (token, why))
        })
    }
}

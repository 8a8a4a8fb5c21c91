//! A call of the parse entry beside what it has to leave: the answer, every word of the tree (six of a node by the Rust, the
//! seventh by the list) and of the messages, the work buffer zero, and all other words as they were, those around the lent
//! slices too.

use crate::library::{self, Given, Read};
use oracle::closing::{closed, numbered};
use oracle::refusal::{Call, refusal};
use oracle::words::{Answer, Case, NODE_WORDS, Record, decode_list, low, tree_words};
use std::fmt::LowerHex;

/// What a call has to leave.
#[derive(Clone, Debug, PartialEq, Eq)]
pub enum Expected {
    Tree(Vec<u32>),
    Messages(Vec<Record>),
    Refused(u32, usize),
    /// A tree or messages; which ones is not known, since the Rust is not at hand.
    Something,
}

impl Expected {
    /// What the Rust answers to a case, with the seventh word of each node; `names` names the tokens of a numbered case's
    /// nodes.
    pub fn answered(case: &Case, answer: Answer, names: impl FnOnce(&Case) -> Vec<u32>) -> Self {
        match answer {
            Answer::Tree(nodes) => {
                let names = names(&numbered(case));
                Self::Tree(tree_words(&closed(case, &nodes, &names)))
            }
            Answer::Messages(records) => Self::Messages(records),
        }
    }
}

/// What document 01's table with card 8's rows, and the Rust, say to a call.
pub fn expected(call: &Call) -> Expected {
    if let Some(refused) = refusal(call) {
        return Expected::Refused(refused.number, refused.place as usize);
    }
    let case = case_of(call);
    match oracle::answer_if_at_hand(&case) {
        Some(answer) => Expected::answered(&case, answer, names_by_the_rust),
        None => Expected::Something,
    }
}

/// The case of a call that is not turned back.
pub(crate) fn case_of(call: &Call) -> Case {
    Case {
        tokens: decode_list(&call.list).expect("the table lets only tokens pass"),
        used: call.used,
        source_len: call.source_len as u32,
        version: call.version,
    }
}

/// The tokens of a numbered case's nodes, as the Rust reads it.
fn names_by_the_rust(numbered: &Case) -> Vec<u32> {
    let answer = oracle::answer_if_at_hand(numbered).expect("the Rust is at hand");
    let starts = answer.nodes().iter().map(|node| node.token.start);
    starts.collect()
}

/// Words before and after each lent slice.
pub(crate) const GUARD: usize = 16;
/// By how much the noise is moved from call to call.
pub(crate) const MOVES: usize = 1 << 10;

/// A lent slice of words, or of bytes, between its guards.
#[derive(Default)]
pub(crate) struct Lent<W> {
    words: Vec<W>,
    len: usize,
}

impl<W: Copy + PartialEq + LowerHex> Lent<W> {
    /// A slice of `len` words filled with noise, as its guards are.
    pub(crate) fn fill(&mut self, noise: &[W], len: usize) {
        self.len = len;
        self.words.clear();
        self.words.extend_from_slice(&noise[..len + 2 * GUARD]);
    }

    pub(crate) fn slice(&mut self) -> &mut [W] {
        &mut self.words[GUARD..GUARD + self.len]
    }

    /// The index in the slice of the first word that is neither `front`'s nor as it was; before the slice it is negative.
    fn changed(&self, noise: &[W], front: &[W]) -> Option<isize> {
        let (before, rest) = self.words.split_at(GUARD);
        let (filled, after) = rest.split_at(front.len());
        let from = GUARD + front.len();
        let same = before == &noise[..GUARD]
            && filled == front
            && after == &noise[from..from + after.len()];
        if same {
            return None;
        }
        let wanted = noise[..GUARD].iter().chain(front).chain(&noise[from..]);
        let place = self
            .words
            .iter()
            .zip(wanted)
            .position(|(is, was)| is != was)?;
        Some(place as isize - GUARD as isize)
    }

    /// Says which word is neither `front`'s nor as it was.
    pub(crate) fn judge(&self, name: &str, noise: &[W], front: &[W]) -> Result<(), String> {
        let Some(place) = self.changed(noise, front) else {
            return Ok(());
        };
        let at = (place + GUARD as isize) as usize;
        let filled = usize::try_from(place).ok();
        let filled = filled.and_then(|place| front.get(place));
        let (is, wanted) = (self.words[at], filled.unwrap_or(&noise[at]));
        Err(format!(
            "place {place} of the {name} buffer is {is:#x} and not {wanted:#x}"
        ))
    }
}

/// The buffers that calls are lent, one call after the other.
#[derive(Default)]
pub struct Buffers {
    noise: Vec<u32>,
    moved: usize,
    tree: Lent<u32>,
    messages: Lent<u32>,
    work: Lent<u32>,
    zeros: Vec<u32>,
}

impl Buffers {
    /// Makes the noise long enough for a slice of `len` words, wherever it starts.
    fn stretch(&mut self, len: usize) {
        let mut rng = oracle::generate::Rng::new(self.noise.len() as u64);
        while self.noise.len() < len + 2 * GUARD + MOVES {
            // Never 0, which the work buffer is cleared to.
            self.noise.push(rng.bits() as u32 | 1);
        }
        self.zeros.resize(self.zeros.len().max(len), 0);
    }

    /// Makes the call; what it answers, or how what it left differs from what is expected.
    pub fn call(&mut self, call: &Call, expected: &Expected) -> Result<Read, String> {
        self.call_by(library::parse, call, expected)
    }

    /// Makes the call of an entry that is lent the list, the tree, the messages and the work, and given the rest.
    pub(crate) fn call_by(
        &mut self,
        entry: impl FnOnce(&[u32], &mut [u32], &mut [u32], &mut [u32], Given) -> Read,
        call: &Call,
        expected: &Expected,
    ) -> Result<Read, String> {
        let lens = [call.tree_len, call.messages_len, call.work_len].map(|len| len as usize);
        self.stretch(*lens.iter().max().expect("there are three"));
        self.moved = (self.moved + 1) % MOVES;
        let noise = &self.noise[self.moved..];
        let lents = [&mut self.tree, &mut self.messages, &mut self.work];
        for (lent, len) in lents.into_iter().zip(lens) {
            lent.fill(noise, len);
        }
        let given = Given {
            source_len: call.source_len,
            version: call.version,
            used: call.used,
            limit: call.limit,
        };
        let (tree, messages) = (self.tree.slice(), self.messages.slice());
        let answer = entry(&call.list, tree, messages, self.work.slice(), given);
        self.judge(answer, expected)?;
        Ok(answer)
    }

    /// The words that the last call put in front of the tree buffer, for an answer of so many nodes.
    pub fn tree(&mut self, nodes: usize) -> &[u32] {
        &self.tree.slice()[..NODE_WORDS * nodes]
    }

    /// The records that the last call put in front of the message buffer, for an answer of so many messages.
    pub fn records(&mut self, count: usize) -> Vec<Record> {
        let words = self.messages.slice()[..8 * count].chunks_exact(8);
        words
            .map(|record| record.try_into().expect("eight words"))
            .collect()
    }

    /// The tokens of a numbered case's nodes, as the library reads it: where only the Rust's kept answers are at hand.
    pub fn names(&mut self, numbered: &Case) -> Result<Vec<u32>, String> {
        match self.call(&Call::of(numbered), &Expected::Something)? {
            Read::Tree(nodes) => {
                let words = self.tree(nodes).chunks(NODE_WORDS);
                Ok(words.map(|node| low(node[1])).collect())
            }
            other => Err(format!("{other:?} to {numbered:?}")),
        }
    }

    /// The words that stand in front of the tree and of the message buffer, if the answer is what is expected.
    fn fronts(&mut self, answer: Read, expected: &Expected) -> Option<(Vec<u32>, Vec<u32>)> {
        match (answer, expected) {
            (Read::Tree(nodes), Expected::Tree(words)) => {
                (NODE_WORDS * nodes == words.len()).then(|| (words.clone(), Vec::new()))
            }
            (Read::Messages(count), Expected::Messages(records)) => {
                (count == records.len()).then(|| (Vec::new(), records.concat()))
            }
            (Read::Refused(number, place), Expected::Refused(wanted, at)) => {
                ((number, place) == (*wanted, *at)).then(Default::default)
            }
            (Read::Tree(nodes), Expected::Something) => {
                let sound = NODE_WORDS * nodes <= self.tree.len;
                sound.then(|| (self.tree(nodes).to_vec(), Vec::new()))
            }
            (Read::Messages(count @ 1..=2), Expected::Something) => {
                Some((Vec::new(), self.messages.slice()[..8 * count].to_vec()))
            }
            _ => None,
        }
    }

    fn judge(&mut self, answer: Read, expected: &Expected) -> Result<(), String> {
        let fronts = self.fronts(answer, expected);
        let other = || format!("the answer is {answer:?} and not {expected:?}");
        let (tree, messages) = fronts.ok_or_else(other)?;
        let work = match answer {
            Read::Refused(..) => &[],
            _ => &self.zeros[..self.work.len],
        };
        let noise = &self.noise[self.moved..];
        self.tree.judge("tree", noise, &tree)?;
        self.messages.judge("message", noise, &messages)?;
        self.work.judge("work", noise, work)
    }
}

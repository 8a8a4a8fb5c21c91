//! The lift of a list by the library, beside a model of what was asked of it: a list with its own used set and highest span end is read at
//! the old version. It stays word for word if the new version reads it as the same tree, within its limit; it comes out as it is written if
//! its tree is plain and what is written is within the new limit; every other list stays behind, with a reason as number and place. The
//! readings are the Rust's, the writing is the second writer's; every word of every lent buffer is compared.

use crate::library::{self, Given, Read};
use crate::reading::{Expected, GUARD, Lent, MOVES, expected};
use crate::writer_model::{Written, write};
use oracle::generate::Rng;
use oracle::nesting::{MOST_NESTING, too_deep};
use oracle::refusal::{Call, refusal};
use oracle::words::{NODE_WORDS, TOKEN_WORDS, decode_list, exact_set, number_in};
use sorbrudder_sys::{Engine, LIST_BUFFER, LentToLift, Lot};

/// The versions whose rules differ, and any of either side.
pub const VERSIONS: [i16; 5] = [4, 5, 6, i16::MIN, i16::MAX];
/// Limits that many lists are above, the greatest, and two that are none.
pub const LIMITS: [u32; 8] = [1, 2, 3, 5, 64, MOST_NESTING, 0, MOST_NESTING + 1];

/// What the lift is lent and given. Only the lengths of the lent buffers count.
#[derive(Clone, Debug)]
pub struct LiftCall {
    pub list: Vec<u32>,
    pub tree_len: u64,
    pub again_len: u64,
    pub messages_len: u64,
    pub work_len: u64,
    pub output_len: u64,
    pub from: Engine,
    pub to: Engine,
}

/// What a call answers, and the words that it puts in front of each buffer.
#[derive(Clone, Debug, PartialEq, Eq)]
pub struct Left {
    pub lot: Lot,
    pub tree: Vec<u32>,
    pub again: Vec<u32>,
    pub messages: Vec<u32>,
    pub output: Vec<u32>,
}

impl LiftCall {
    /// The reading of the list at an engine, into a tree buffer of so many words.
    fn reading(&self, engine: Engine, tree_len: u64) -> Call {
        let tokens = decode_list(&self.list).unwrap_or_default();
        Call {
            list: self.list.clone(),
            tree_len,
            messages_len: self.messages_len,
            work_len: self.work_len,
            used: exact_set(&tokens),
            source_len: tokens
                .iter()
                .map(|token| token.end)
                .max()
                .unwrap_or(0)
                .into(),
            version: engine.version,
            limit: engine.limit,
        }
    }

    /// The answer that turns the call back, if one does.
    fn refused(&self) -> Option<Lot> {
        let is_limit = |limit| (1..=MOST_NESTING).contains(&limit);
        let both = is_limit(self.from.limit) && is_limit(self.to.limit);
        let limit = if both { self.from.limit } else { 0 };
        let old = self.reading(self.from, self.tree_len.min(self.again_len));
        if let Some(refused) = refusal(&old.at_limit(limit)) {
            return Some(Lot::Refused(refused.number, refused.place as usize));
        }
        (self.output_len < LIST_BUFFER as u64).then_some(Lot::Refused(15, 0))
    }
}

/// The first token of a list's words with which more brackets are open than the limit.
fn above(list: &[u32], limit: u32) -> Option<usize> {
    let ops = list.iter().step_by(TOKEN_WORDS);
    too_deep(ops.map(|&word| number_in(word)), limit)
}

/// The model.
pub fn lifted(call: &LiftCall) -> Left {
    let mut left = Left {
        lot: Lot::Same(0),
        tree: Vec::new(),
        again: Vec::new(),
        messages: Vec::new(),
        output: Vec::new(),
    };
    if let Some(refused) = call.refused() {
        left.lot = refused;
        return left;
    }
    match read(&call.reading(call.from, call.tree_len)) {
        Expected::Tree(words) => left.tree = words,
        Expected::Messages(records) => {
            left.lot = Lot::Messages(records.len());
            left.messages = records.concat();
            return left;
        }
        other => panic!("the table lets it pass: {other:?}"),
    }
    if let Some(token) = above(&call.list, call.to.limit) {
        left.lot = Lot::Behind(18, token);
        return left;
    }
    match read(&call.reading(call.to, call.again_len)) {
        Expected::Tree(words) => left.again = words,
        Expected::Messages(records) => left.messages = records.concat(),
        other => panic!("the table lets it pass: {other:?}"),
    }
    if left.tree == left.again {
        left.lot = Lot::Same(left.tree.len() / NODE_WORDS);
        return left;
    }
    let (answer, list) = write(&left.tree, call.output_len as usize);
    left.output = list;
    left.lot = match (answer, above(&left.output, call.to.limit)) {
        (Written::Refused(number, place), _) => Lot::Unwritten(number, place),
        (Written::Tokens(_), Some(token)) => Lot::Unwritten(18, token),
        (Written::Tokens(count), None) => Lot::Lifted(count),
    };
    left
}

/// What a call has to leave, by the Rust; by the library's own reading, which others compare, where the Rust is not at hand.
fn read(call: &Call) -> Expected {
    let by_the_rust = expected(call);
    if by_the_rust != Expected::Something {
        return by_the_rust;
    }
    let [mut tree, mut messages, mut work] =
        [call.tree_len, call.messages_len, call.work_len].map(|len| vec![0; len as usize]);
    let given = Given {
        source_len: call.source_len,
        version: call.version,
        used: call.used,
        limit: call.limit,
    };
    match library::parse(&call.list, &mut tree, &mut messages, &mut work, given) {
        Read::Tree(nodes) => Expected::Tree(tree[..NODE_WORDS * nodes].to_vec()),
        Read::Messages(count) => {
            let records = messages[..8 * count].chunks_exact(8);
            let records = records.map(|record| record.try_into().expect("eight words"));
            Expected::Messages(records.collect())
        }
        Read::Refused(number, place) => Expected::Refused(number, place),
    }
}

/// How many calls ended in each way: same, lifted, messages, refused, behind, unwritten.
pub type Tally = [u64; 6];

/// The library's lift, one call after the other.
#[derive(Default)]
pub struct Lifts {
    noise: Vec<u32>,
    zeros: Vec<u32>,
    moved: usize,
    lents: [Lent<u32>; 5],
    pub tally: Tally,
}

impl Lifts {
    /// Makes the call, and says how what it left differs from the model.
    pub fn call(&mut self, call: &LiftCall) -> Result<(), String> {
        let wanted = lifted(call);
        let lens = [
            call.tree_len,
            call.again_len,
            call.messages_len,
            call.work_len,
            call.output_len,
        ]
        .map(|len| len as usize);
        self.stretch(*lens.iter().max().expect("there are five"));
        self.moved = (self.moved + 1) % MOVES;
        let noise = &self.noise[self.moved..];
        for (lent, len) in self.lents.iter_mut().zip(lens) {
            lent.fill(noise, len);
        }
        let [tree, again, messages, work, output] = &mut self.lents;
        let lent = LentToLift {
            list: &call.list,
            tree: tree.slice(),
            again: again.slice(),
            messages: messages.slice(),
            work: work.slice(),
            output: output.slice(),
        };
        let lot = sorbrudder_sys::lift(lent, call.from, call.to);
        if lot != wanted.lot {
            return Err(format!("{lot:?} and not {:?} to {call:?}", wanted.lot));
        }
        let cleared = match lot {
            Lot::Refused(..) => 0,
            _ => call.work_len as usize,
        };
        let fronts = [
            ("tree", &wanted.tree[..]),
            ("second tree", &wanted.again),
            ("message", &wanted.messages),
            ("work", &self.zeros[..cleared]),
            ("output", &wanted.output),
        ];
        for (lent, (name, front)) in self.lents.iter().zip(fronts) {
            let judged = lent.judge(name, noise, front);
            judged.map_err(|why| format!("{why}, of {call:?}"))?;
        }
        self.tally[way(lot)] += 1;
        Ok(())
    }

    /// Makes the noise long enough for a slice of `len` words, wherever it starts.
    fn stretch(&mut self, len: usize) {
        let mut rng = Rng::new(self.noise.len() as u64);
        while self.noise.len() < len + 2 * GUARD + MOVES {
            // Never 0, which the work buffer is cleared to.
            self.noise.push(rng.bits() as u32 | 1);
        }
        self.zeros.resize(self.zeros.len().max(len), 0);
    }

    /// Lifts the list of a call of the parse entry, and its buffers' lengths, between every two versions; the limits are drawn at random
    /// from list to list, and now and then a buffer is short.
    pub fn list(&mut self, call: &Call, rng: &mut Rng) -> Result<(), String> {
        for from in VERSIONS {
            for to in VERSIONS {
                let engine = |version, limit| Engine { version, limit };
                let (limit_from, limit_to) = (limit(rng), limit(rng));
                let call = LiftCall {
                    list: call.list.clone(),
                    tree_len: call.tree_len,
                    again_len: call.tree_len - u64::from(rng.chance(1)).min(call.tree_len),
                    messages_len: call.messages_len,
                    work_len: call.work_len,
                    output_len: LIST_BUFFER as u64 - u64::from(rng.chance(1)),
                    from: engine(from, limit_from),
                    to: engine(to, limit_to),
                };
                self.call(&call)?;
            }
        }
        Ok(())
    }
}

/// A limit: half of them the greatest.
fn limit(rng: &mut Rng) -> u32 {
    match rng.chance(50) {
        true => MOST_NESTING,
        false => *rng.pick(&LIMITS),
    }
}

/// Which way a call ended.
fn way(lot: Lot) -> usize {
    match lot {
        Lot::Same(_) => 0,
        Lot::Lifted(_) => 1,
        Lot::Messages(_) => 2,
        Lot::Refused(..) => 3,
        Lot::Behind(..) => 4,
        Lot::Unwritten(..) => 5,
    }
}

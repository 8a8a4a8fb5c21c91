//! Lifting beside the raw calls that it makes: reading at both versions, comparing, and writing where they differ. Rounds go over the four
//! in turn, and the least of each counts. The last line is `lift_words takes R of the raw calls' time`.
//!
//!     cargo bench --bench lift [-- ROUNDS]

use sorbrudder::{Lifter, Tokens, Used};
use sorbrudder_sys::{
    Answer, Engine, Given, LIST_BUFFER, Lent, LentToLift, Lot, MESSAGE_BUFFER, MOST_NESTING,
    tree_buffer, work_buffer,
};
use std::hint::black_box;
use std::time::Instant;

/// Some tokens of lists that versions 5 and 6 read alike, and of some that they do not.
fn lists() -> Vec<Tokens> {
    let alike = "math.clamp(query.1 * 2.5 - variable.3, 0, 1) + (temp.4 ? variable.5 : 7) / 3";
    let unlike = "query.1 > 0.5 && variable.2 == 3 || !query.4 && variable.5 < 10 ? 1 : 0";
    let text = |number: usize| {
        if number.is_multiple_of(4) {
            unlike
        } else {
            alike
        }
    };
    let lists = (0..200).map(|number| text(number).parse());
    lists.map(|list| list.expect("the notation")).collect()
}

/// The buffers of the raw calls, of exactly the lengths that are asked for.
struct Raw {
    old: Vec<u32>,
    new: Vec<u32>,
    messages: [u32; MESSAGE_BUFFER],
    work: Vec<u32>,
    list: Vec<u32>,
}

impl Raw {
    fn lift(&mut self, list: &[u32]) -> usize {
        let tokens = list.len() / sorbrudder_sys::TOKEN_WORDS;
        let used = Used::exact_words(list).halves();
        let ends = list.chunks_exact(5).map(|token| token[2] & 0x1FFF_FFFF);
        let source_len = u64::from(ends.max().unwrap_or(0));
        let (tree_len, work_len) = (tree_buffer(tokens), work_buffer(tokens));
        let mut nodes = [0; 2];
        let trees = [(&mut self.old, 5), (&mut self.new, 6)];
        for (count, (tree, version)) in nodes.iter_mut().zip(trees) {
            let lent = Lent {
                list,
                tree: &mut tree[..tree_len],
                messages: &mut self.messages,
                work: &mut self.work[..work_len],
            };
            let given = Given {
                source_len,
                version,
                used,
                limit: MOST_NESTING,
            };
            if let Answer::Filled(filled) = sorbrudder_sys::parse(lent, given) {
                *count = sorbrudder_sys::NODE_WORDS * filled;
            }
        }
        if self.old[..nodes[0]] == self.new[..nodes[1]] {
            return list.len();
        }
        match sorbrudder_sys::write(&self.old[..nodes[0]], &mut self.list) {
            Answer::Filled(tokens) => sorbrudder_sys::TOKEN_WORDS * tokens,
            other => panic!("a plain tree is written: {other:?}"),
        }
    }
}

impl Raw {
    /// The same by the entry of the library.
    fn lift_at_once(&mut self, list: &[u32]) -> usize {
        let tokens = list.len() / sorbrudder_sys::TOKEN_WORDS;
        let (tree_len, work_len) = (tree_buffer(tokens), work_buffer(tokens));
        let lent = LentToLift {
            list,
            tree: &mut self.old[..tree_len],
            again: &mut self.new[..tree_len],
            messages: &mut self.messages,
            work: &mut self.work[..work_len],
            output: &mut self.list,
        };
        let engine = |version| Engine {
            version,
            limit: MOST_NESTING,
        };
        match sorbrudder_sys::lift(lent, engine(5), engine(6)) {
            Lot::Same(_) => list.len(),
            Lot::Lifted(tokens) => sorbrudder_sys::TOKEN_WORDS * tokens,
            other => panic!("a plain list is lifted: {other:?}"),
        }
    }
}

/// Nanoseconds a token of one run over all lists, and what it came to.
fn timed(tokens: usize, mut run: impl FnMut() -> usize) -> (f64, usize) {
    let since = Instant::now();
    let sum = black_box(run());
    (since.elapsed().as_nanos() as f64 / tokens as f64, sum)
}

/// The lists, and what lifts them: the raw calls, a lifter of words, and a lifter of tokens.
struct Bench {
    lists: Vec<Tokens>,
    words: Vec<Vec<u32>>,
    tokens: usize,
    raw: Raw,
    by_words: Lifter,
    by_tokens: Lifter,
}

impl Bench {
    fn new() -> Self {
        let lists = lists();
        Self {
            words: lists.iter().map(Tokens::words).collect(),
            tokens: lists.iter().map(|list| list.len()).sum(),
            lists,
            raw: Raw {
                old: vec![0; tree_buffer(100)],
                new: vec![0; tree_buffer(100)],
                messages: [0; MESSAGE_BUFFER],
                work: vec![0; work_buffer(100)],
                list: vec![0; LIST_BUFFER],
            },
            by_words: Lifter::new(),
            by_tokens: Lifter::new(),
        }
    }

    fn by_raw_calls(&mut self) -> usize {
        let lists = self.words.iter();
        lists.map(|list| self.raw.lift(black_box(list))).sum()
    }

    fn by_the_entry(&mut self) -> usize {
        let lists = self.words.iter();
        lists
            .map(|list| self.raw.lift_at_once(black_box(list)))
            .sum()
    }

    fn by_words(&mut self) -> usize {
        let lifted = |list: &Vec<u32>| {
            let lifted = self.by_words.lift_words(black_box(list)).from(5).to(6);
            lifted.expect("a plain list").words.len()
        };
        self.words.iter().map(lifted).sum()
    }

    fn by_tokens(&mut self) -> usize {
        let lifted = |list: &Tokens| {
            let lifted = self.by_tokens.lift(black_box(list)).from(5).to(6);
            sorbrudder_sys::TOKEN_WORDS * lifted.expect("a plain list").tokens.len()
        };
        self.lists.iter().map(lifted).sum()
    }
}

fn main() {
    let rounds = std::env::args().skip(1).find_map(|word| word.parse().ok());
    let mut bench = Bench::new();
    let tokens = bench.tokens;
    let mut least = [f64::INFINITY; 4];
    for _ in 0..rounds.unwrap_or(2_000) {
        let runs = [
            timed(tokens, || bench.by_raw_calls()),
            timed(tokens, || bench.by_the_entry()),
            timed(tokens, || bench.by_words()),
            timed(tokens, || bench.by_tokens()),
        ];
        assert!(
            runs.iter().all(|(_, sum)| *sum == runs[0].1),
            "all lift alike"
        );
        for (least, (time, _)) in least.iter_mut().zip(runs) {
            *least = least.min(time);
        }
    }
    let [raw, entry, words, tokens] = least;
    println!(
        "raw calls {raw:.1} ns a token, the entry {entry:.1} ns, lift_words {words:.1} ns, lift {tokens:.1} ns"
    );
    println!("the entry takes {:.2} of the raw calls' time", entry / raw);
    println!("lift_words takes {:.2} of the raw calls' time", words / raw);
}

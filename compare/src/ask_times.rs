//! What asking an edit of an open list takes beside reading the list that it leads to (`make bench`): call by call in turn, each first in
//! every other turn, into buffers of exactly the lengths that are asked for. The edit puts the middle token in again, so the new list is
//! the held one. Asking finds the list's used set and source length. So does whoever reads a list of which nothing else is known: reading
//! is timed with a plain loop over the tokens that finds them, and alone.

use crate::workloads::{self, Workload};
use oracle::nesting::MOST_NESTING;
use oracle::words::{Case, LAST_OP, TOKEN_WORDS, bit, list_words, low, number_in};
use sorbrudder_sys::{
    Answer, Edit, Given, HELD_WORDS, Held, Lent, MESSAGE_BUFFER, MOST_TOKENS, Room, ask, parse,
    tree_buffer, work_buffer,
};
use std::hint::black_box;
use std::time::Instant;

/// A list that is read, and held with the same words.
struct Asking {
    name: &'static str,
    case: Case,
    list: Vec<u32>,
    slice: Vec<u32>,
    tree: Vec<u32>,
    messages: Vec<u32>,
    work: Vec<u32>,
    /// What single calls took, in nanoseconds: reading alone, reading with the used set found, and asking.
    took: [Vec<f64>; 3],
}

/// About how many tokens a round goes over.
const TOKENS: usize = 60_000;

impl Asking {
    fn new(workload: Workload) -> Self {
        let Workload { name, mut cases } = workload;
        let case = cases.swap_remove(0);
        let (list, tokens) = (list_words(&case.tokens), case.tokens.len());
        let mut slice = vec![0; HELD_WORDS];
        slice[..list.len()].copy_from_slice(&list);
        let mut asking = Self {
            name,
            case,
            list,
            slice,
            tree: vec![0; tree_buffer(tokens)],
            messages: vec![0; MESSAGE_BUFFER],
            work: vec![0; work_buffer(tokens)],
            took: Default::default(),
        };
        let read = asking.read(asking.case.used, asking.case.source_len.into());
        assert!(matches!(read, Answer::Filled(_)), "{name}: {read:?}");
        assert_eq!(found(&asking.list).0, asking.case.used, "{name}");
        assert_eq!(asking.ask(), read, "{name}");
        asking
    }

    fn read(&mut self, used: (u64, u64), source_len: u64) -> Answer {
        let lent = Lent {
            list: black_box(&self.list),
            tree: &mut self.tree,
            messages: &mut self.messages,
            work: &mut self.work,
        };
        let given = Given {
            source_len,
            version: self.case.version,
            used,
            limit: MOST_NESTING,
        };
        parse(lent, given)
    }

    fn call(&mut self, which: usize) -> Answer {
        match which {
            0 => self.read(self.case.used, self.case.source_len.into()),
            1 => {
                let (used, source_len) = found(black_box(&self.list));
                self.read(used, source_len)
            }
            _ => self.ask(),
        }
    }

    fn ask(&mut self) -> Answer {
        let held = Held {
            tokens: self.case.tokens.len(),
            version: self.case.version,
            edits: 0,
        };
        let place = held.tokens / 2;
        let at = TOKEN_WORDS * place;
        let edit = Edit {
            place,
            removed: 1,
            put: &self.list[at..at + TOKEN_WORDS],
        };
        let room = Room {
            tree: &mut self.tree,
            messages: &mut self.messages,
            work: &mut self.work,
            limit: MOST_NESTING,
        };
        ask(held, black_box(&self.slice), edit, room)
    }

    fn round(&mut self) {
        for turn in 0..TOKENS.div_ceil(self.case.tokens.len()) {
            for which in (0..3).map(|call| (turn + call) % 3) {
                let since = Instant::now();
                black_box(self.call(which));
                self.took[which].push(since.elapsed().as_nanos() as f64);
            }
        }
    }

    /// Prints what the calls in the middle took; how many nanoseconds asking takes more than reading with the used set found, and by how
    /// many hundredths it takes longer than that, and than reading alone.
    fn print(&mut self) -> [f64; 3] {
        let [alone, read, asked] = self.took.each_mut().map(|took| middle(took));
        let [more, longer, beside_alone] = [
            asked - read,
            100.0 * (asked / read - 1.0),
            100.0 * (asked / alone - 1.0),
        ];
        println!(
            "{:28} {:5} tokens  read {read:8.0} ns, alone {alone:8.0} ns  asked {asked:8.0} ns: {more:6.0} ns or {longer:4.1} % more",
            self.name,
            self.case.tokens.len(),
        );
        [more, longer, beside_alone]
    }
}

/// The used set and the source length of a list's words.
fn found(list: &[u32]) -> ((u64, u64), u64) {
    let (mut used, mut source_len) = ((0, 0), 0);
    for token in list.chunks_exact(TOKEN_WORDS) {
        let op = number_in(token[0]);
        if op <= LAST_OP {
            let op = bit(op);
            used = (used.0 | op.0, used.1 | op.1);
        }
        source_len = source_len.max(low(token[2]));
    }
    (used, source_len.into())
}

fn middle(took: &mut [f64]) -> f64 {
    took.sort_by(f64::total_cmp);
    took[took.len() / 2]
}

/// Times asking beside reading at 31 and at about 4,096 tokens.
pub fn asking(rounds: usize) {
    let times = |workloads: Vec<Workload>| -> Vec<Asking> {
        let mut asked: Vec<Asking> = workloads.into_iter().map(Asking::new).collect();
        for _ in 0..rounds {
            asked.iter_mut().for_each(Asking::round);
        }
        asked
    };
    println!("Asking beside reading:");
    let (mut few, mut many) = (
        times(workloads::of_31_tokens()),
        times(workloads::long(MOST_TOKENS)),
    );
    let greatest = |asked: &mut [Asking]| {
        let printed = asked.iter_mut().map(Asking::print);
        printed.fold([f64::NEG_INFINITY; 3], |greatest, one| {
            [0, 1, 2].map(|at| greatest[at].max(one[at]))
        })
    };
    let ([more, ..], [_, longer, beside_alone]) = (greatest(&mut few), greatest(&mut many));
    println!(
        "asking: at most {more:.0} ns more than reading 31 tokens, {longer:.1} % more than reading {MOST_TOKENS}, {beside_alone:.1} % more than reading them alone"
    );
}

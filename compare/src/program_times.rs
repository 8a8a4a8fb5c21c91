//! What the programs take (`make bench`), each where it is built: from a file, with what they print thrown away.

use crate::calls::EIGHTS;
use crate::everylist::{Asked, MOST_LENGTH};
use crate::listing::{bytes, version_word};
use crate::programs::Program;
use crate::workloads;
use oracle::words::{Case, list_words};
use std::hint::black_box;
use std::time::Instant;

/// The least of so many runs of a program over an input, in seconds, and by how much the middle one is above it.
fn least_and_noise(program: &Program, runs: usize, input: &[u8]) -> (f64, f64) {
    let mut seconds: Vec<f64> = (0..runs).map(|_| program.seconds(input)).collect();
    seconds.sort_by(f64::total_cmp);
    (seconds[0], seconds[runs / 2] / seconds[0] - 1.0)
}

/// Times `everylist` over each alphabet of eight.
pub fn everylist(runs: usize) {
    let Some(program) = Program::built("everylist", "timed") else {
        return;
    };
    for alphabet in &EIGHTS {
        let asked = Asked::new(6, MOST_LENGTH, alphabet.ops);
        let lists = asked.lists().len();
        let (least, noise) = least_and_noise(&program, runs, &asked.input());
        println!(
            "everylist, {}: {lists} lists in {least:.2} s, the middle run {:.0} % above",
            alphabet.name,
            100.0 * noise
        );
    }
}

/// The versions that lists are counted at, and lifted between.
const VERSIONS: [i16; 2] = [5, 6];

/// How many lists a program goes through in a run, and the Rust.
const COUNTED: usize = 50_000;
const READ: usize = 5_000;

/// An input with these words in front and these lists, each behind this opener.
fn archive<'c>(front: &[u32], opener: u32, lists: impl Iterator<Item = &'c Case>) -> Vec<u8> {
    let mut words = front.to_vec();
    for case in lists {
        words.push(opener);
        words.extend(list_words(&case.tokens));
    }
    bytes(&words)
}

/// The same lists, each at both versions.
fn at_both_versions<'c>(lists: impl Iterator<Item = &'c Case>) -> Vec<Case> {
    let at = |case: &Case, version| Case {
        version,
        ..case.clone()
    };
    let both = lists.flat_map(|case| VERSIONS.map(|version| at(case, version)));
    both.collect()
}

/// How many seconds the Rust takes to build, group and drop each.
fn seconds_of_the_rust(cases: &[Case]) -> f64 {
    let since = Instant::now();
    for case in black_box(cases) {
        black_box(oracle::grouped_if_at_hand(case));
    }
    since.elapsed().as_secs_f64()
}

/// Times `liftcount`.
pub fn liftcount(runs: usize) {
    over_31_tokens("liftcount", runs, &VERSIONS.map(version_word), 0);
}

/// Times `liftlists`.
pub fn liftlists(runs: usize) {
    let [from, to] = VERSIONS.map(version_word);
    over_31_tokens("liftlists", runs, &[to], from);
}

/// Times a program over lists of 31 tokens, and in the same rounds the Rust's own two readings of each.
fn over_31_tokens(program_name: &str, runs: usize, front: &[u32], opener: u32) {
    let Some(program) = Program::built(program_name, "timed") else {
        return;
    };
    for workload in workloads::of_31_tokens() {
        let lists = workload.cases.iter().cycle();
        let input = archive(front, opener, lists.clone().take(COUNTED));
        let cases = at_both_versions(lists.take(READ));
        let (mut ours, mut rust) = (f64::INFINITY, f64::INFINITY);
        for _ in 0..runs {
            ours = ours.min(program.seconds(&input));
            rust = rust.min(seconds_of_the_rust(&cases));
        }
        let (name, ours, rust) = (workload.name, COUNTED as f64 / ours, READ as f64 / rust);
        print!("{program_name}, {name}: {ours:.0} lists of 31 tokens a second");
        if oracle::COMPARED {
            let ratio = ours / rust;
            print!(", the Rust's two readings {rust:.0}, ratio {ratio:.2}");
        }
        println!();
    }
}

//! The program `cases`: what it prints can be read back, and covers what its help promises.

use oracle::hosts::has_hosts;
use oracle::rules::{LAST_RULE, of_node};
use oracle::words::{Answer, Case, FULL_SET, RustNode, Token, exact_set};
use std::collections::BTreeSet;
use std::process::Command;
use std::str::Lines;

fn printed(arguments: &[&str]) -> String {
    let output = Command::new(env!("CARGO_BIN_EXE_cases"))
        .args(arguments)
        .output()
        .expect("the program runs");
    assert!(output.status.success(), "{arguments:?}");
    String::from_utf8(output.stdout).expect("plain text")
}

/// The numbers of the next line, after its word if one is given.
fn numbers<N: std::str::FromStr>(lines: &mut Lines, word: &str) -> Vec<N> {
    let line = lines.next().expect("one more line");
    let numbers = line
        .strip_prefix(word)
        .unwrap_or_else(|| panic!("{line}, not {word}"));
    let number = |text: &str| text.parse().unwrap_or_else(|_| panic!("{line}"));
    numbers.split_whitespace().map(number).collect()
}

fn token(numbers: &[u32]) -> Token {
    Token {
        op: numbers[0] as u16,
        variant: numbers[1] as u8,
        value: numbers[2],
        start: numbers[3],
        end: numbers[4],
    }
}

fn read_case(lines: &mut Lines) -> (Case, Answer) {
    let version = numbers(lines, "version ")[0];
    let source_len = numbers(lines, "source ")[0];
    let used: Vec<u64> = numbers(lines, "used ");
    let count: u32 = numbers(lines, "tokens ")[0];
    let tokens = (0..count).map(|_| token(&numbers(lines, ""))).collect();
    let case = Case {
        tokens,
        used: (used[0], used[1]),
        source_len,
        version,
    };
    let answer = lines.next().expect("an answer");
    let (kind, count) = answer.split_once(' ').expect("a word and a count");
    let rows: Vec<Vec<u32>> = (0..count.parse().expect("a count"))
        .map(|_: u32| numbers(lines, ""))
        .collect();
    assert_eq!(lines.next(), Some("end"));
    let answer = match kind {
        "tree" => {
            let node = |row: &Vec<u32>| {
                let (token, children, rule) = (token(row), row[5], row[6]);
                let table = of_node(&token, children, version).map(u32::from);
                assert_eq!(table, Some(rule), "{row:?} at {version}");
                RustNode { token, children }
            };
            Answer::Tree(rows.iter().map(node).collect())
        }
        "messages" => {
            let record = |row: Vec<u32>| row.try_into().expect("eight numbers");
            Answer::Messages(rows.into_iter().map(record).collect())
        }
        other => panic!("{other} is no answer"),
    };
    (case, answer)
}

fn read(text: &str) -> Vec<(Case, Answer)> {
    let mut lines = text.lines();
    let mut cases = Vec::new();
    while let Some(head) = lines.next() {
        assert_eq!(head, format!("case {}", cases.len()));
        cases.push(read_case(&mut lines));
    }
    cases
}

fn covers_what_the_help_promises(cases: &[(Case, Answer)]) {
    let numbers: BTreeSet<u32> = cases
        .iter()
        .flat_map(|(_, answer)| answer.records().iter().map(|record| record[0]))
        .collect();
    assert_eq!(numbers, (1..=17).collect());
    let rules: BTreeSet<u8> = cases
        .iter()
        .flat_map(|(case, answer)| {
            let nodes = answer.nodes().iter();
            nodes.filter_map(|node| of_node(&node.token, node.children, case.version))
        })
        .collect();
    assert_eq!(rules, (0..=LAST_RULE).collect());
    for version in [i16::MIN, -1, 4, 5, 6, 13, 14, i16::MAX] {
        assert!(cases.iter().any(|(case, _)| case.version == version));
    }
    let any = |shown: fn(&Case) -> bool| cases.iter().any(|(case, _)| shown(case));
    assert!(any(|case| case.used == FULL_SET));
    assert!(any(|case| case.used == (0, 0) && !case.tokens.is_empty()));
    assert!(any(|case| case.used != exact_set(&case.tokens)));
    assert!(any(|case| case.tokens.iter().any(|t| t.start > t.end)));
    for is_tree in [true, false] {
        let shown = |(case, answer): &(Case, Answer)| {
            has_hosts(case) && answer.records().is_empty() == is_tree
        };
        assert!(cases.iter().any(shown));
    }
}

#[test]
fn short_cases_cover_what_the_help_promises() {
    for (most, arguments) in [
        (12, &["--count", "300"][..]),
        (12, &["--count", "300", "--seed", "9", "--stored"]),
        (6, &["--count", "0", "--most", "6", "--seed", "4"]),
        (6, &["--most", "6", "--stored"]),
    ] {
        let cases = read(&printed(arguments));
        assert!(cases.iter().all(|(case, _)| case.tokens.len() <= most));
        covers_what_the_help_promises(&cases);
    }
}

#[test]
fn as_many_cases_come_as_are_asked_for_and_seeds_differ() {
    let first = printed(&["--count", "500", "--seed", "1"]);
    assert_eq!(read(&first).len(), 500);
    assert_eq!(first, printed(&["--count", "500", "--seed", "1"]));
    assert_ne!(first, printed(&["--count", "500", "--seed", "2"]));
}

#[cfg(molangx)]
#[test]
fn the_printed_answers_are_the_rusts() {
    for arguments in [&["--count", "2000", "--most", "20"][..], &["--stored"]] {
        for (case, answer) in read(&printed(arguments)) {
            assert_eq!(oracle::answer_case(&case), answer);
        }
    }
}

//! The parse entry with a rule buffer through the C convention, beside the Rust whose passes mark the nodes; where the Rust is not at hand,
//! beside the table by operator. Without the static library nothing of this is built.
#![cfg(library)]

use compare::library::{Given, Read, parse_rules};
use compare::rule_calls::{self, with_rules};
use compare::ruling::{Ruling, Tally};
use compare::{calls, library};
use oracle::lines::case_of;
use oracle::refusal::{Call, RuleCall, rule_bytes};
use oracle::vectors::{Stored, stored};
use oracle::words::{Case, NODE_WORDS};

/// Compares all calls.
fn compared(calls: impl Iterator<Item = RuleCall>) -> Tally {
    let mut ruling = Ruling::default();
    if let Err(difference) = ruling.all(calls, || {}) {
        panic!("{difference}");
    }
    ruling.tally
}

#[test]
fn every_kept_call() {
    let calls = stored().into_iter().map(|record| match record {
        Stored::Answered { case, limit, .. } => Call::of(&case).at_limit(limit),
        Stored::Refused(call, _) => call,
    });
    let tally = compared(with_rules(1, calls));
    assert!(tally.calls > 20_000 && tally.short > 1_000, "{tally:?}");
    assert!(tally.rules.iter().all(|&nodes| nodes > 100), "{tally:?}");
}

#[test]
fn generated_lists() {
    let tally = compared(with_rules(2, calls::generated(21, 24).take(200_000)));
    assert!(tally.trees > 50_000 && tally.messages > 50_000, "{tally:?}");
    assert!(tally.rules.iter().all(|&nodes| nodes > 1_000), "{tally:?}");
    compared(with_rules(3, calls::generated(22, 300).take(5_000)));
    compared(with_rules(4, calls::generated(23, 4_096).take(200)));
}

#[test]
fn lists_of_brackets_and_hosts_and_shapes() {
    compared(with_rules(5, calls::bracketed(24, 24).take(50_000)));
    compared(with_rules(5, calls::hosted(26, 24).take(50_000)));
    for len in [4_096, 512, 33] {
        compared(with_rules(6, calls::shapes(len)));
    }
}

#[test]
fn used_sets_that_are_not_exact() {
    let tally = compared(with_rules(7, calls::used_sets(25, 300)));
    assert!(tally.trees > 5_000 && tally.messages > 5_000, "{tally:?}");
}

#[test]
fn every_version() {
    let tally = compared(rule_calls::every_version());
    assert_eq!((tally.calls, tally.trees), (4 << 16, 4 << 16));
    // From 6 to 32,767, in each the equalities of the four lists.
    assert_eq!(tally.rules[13], (32_768 - 6) * 5);
}

#[test]
fn a_short_rule_buffer_in_every_order_with_the_other_refusals() {
    let tally = compared(rule_calls::limits(3));
    assert!(tally.short > 10_000, "{tally:?}");
    assert!(tally.refused - tally.short > 10_000, "{tally:?}");
}

/// What the entry answers to a list, and its rules.
fn rules(case: &Case) -> (Read, Vec<u8>) {
    let call = Call::of(case);
    let buffer = |len: u64| vec![0; len as usize];
    let (mut tree, mut work) = (buffer(call.tree_len), buffer(call.work_len));
    let mut rules = vec![0; rule_bytes(call.list.len()) as usize];
    let given = Given {
        source_len: call.source_len,
        version: call.version,
        used: call.used,
        limit: call.limit,
    };
    let (list, messages) = (&call.list, &mut [0; 16]);
    let read = parse_rules(list, &mut tree, messages, &mut work, &mut rules, given);
    if let Read::Tree(nodes) = read {
        rules.truncate(nodes);
        let mut same = buffer(call.tree_len);
        let without = library::parse(list, &mut same, messages, &mut work, given);
        assert_eq!(without, read);
        let len = NODE_WORDS * nodes;
        assert_eq!(same[..len], tree[..len]);
    }
    (read, rules)
}

/// Some lists whose rules are known by themselves.
#[test]
fn known_rules() {
    let lists: [(&str, i16, &[u8]); 11] = [
        ("a", 6, &[0]),
        ("a - b", 6, &[11, 0, 8, 0]),
        ("36 ( )", 6, &[7, 0]),
        ("40 ( a , b )", 6, &[3, 2, 18, 0, 0]),
        ("41 [ b ]", 6, &[5, 0]),
        ("43 . -> 43", 6, &[6, 1, 0, 0]),
        ("43 = a ; return 43 ;", 6, &[4, 4, 19, 0, 0, 4, 20, 0]),
        ("a < b == c && d || e", 5, &[14, 12, 12, 0, 0, 0, 15, 0, 0]),
        ("a < b == c && d || e", 6, &[15, 14, 13, 12, 0, 0, 0, 0, 0]),
        ("a ? b : c ?? d", 4, &[17, 16, 0, 16, 0, 0, 0]),
        ("a / b * ! c", 14, &[10, 9, 0, 0, 8, 0]),
    ];
    for (list, version, known) in lists {
        let case = Case {
            version,
            ..case_of(list)
        };
        let read = Read::Tree(known.len());
        assert_eq!(rules(&case), (read, known.to_vec()), "{list} at {version}");
    }
    // Messages leave every byte as it was.
    assert_eq!(rules(&case_of("a b")), (Read::Messages(1), vec![0; 6]));
}

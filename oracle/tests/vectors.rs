//! The kept answers: the file decodes, each record holds together, nothing is missing.

use oracle::hosts::operators_in;
use oracle::lines::{Line, Says, findings, lines};
use oracle::nesting::{MOST_NESTING, least_limit};
use oracle::refusal::{Call, refusal};
use oracle::vectors::{Stored, decode, encode, path, stored};
use oracle::words::{
    Answer, Case, FIRST_HOST, FULL_SET, LAST_HOST, LAST_OP, LAST_VARIANT, decode_list, depth,
    exact_set, is_host, list_words,
};
use std::collections::BTreeSet;

fn answered() -> Vec<(Case, Answer)> {
    stored()
        .into_iter()
        .filter_map(|stored| match stored {
            Stored::Answered { case, answer, .. } => Some((case, answer)),
            Stored::Refused(..) => None,
        })
        .collect()
}

#[test]
fn the_file_is_the_bytes_of_its_records() {
    let bytes = std::fs::read(path()).expect("the file is in the repository");
    assert!(bytes.len() < 4 << 20, "a few megabytes");
    let records = decode(&bytes).expect("the file decodes");
    assert!(records.len() >= 20_000, "some tens of thousands");
    assert!(encode(&records) == bytes);
}

#[test]
fn the_readme_counts_the_records() {
    let readme = path().with_file_name("README.md");
    let text = std::fs::read_to_string(readme).expect("vectors/README.md");
    let bytes = std::fs::read(path()).expect("the file").len();
    let counted = format!("{} records, {bytes} bytes", stored().len());
    assert!(text.contains(&counted), "the README does not say {counted}");
    assert!(text.contains(&oracle::vectors::SEED.to_string()));
}

#[test]
fn a_cut_or_longer_file_is_not_taken() {
    let records = &stored()[..50];
    let bytes = encode(records);
    for len in 0..bytes.len() {
        assert!(decode(&bytes[..len]).is_err(), "cut to {len} bytes");
    }
    assert!(decode(&[&bytes[..], &[0]].concat()).is_err());
}

#[test]
fn every_case_is_a_call_that_is_not_turned_back() {
    for (case, _) in answered() {
        assert_eq!(refusal(&Call::of(&case)), None, "{case:?}");
        let words = list_words(&case.tokens);
        assert_eq!(decode_list(&words), Some(case.tokens));
    }
}

#[test]
fn every_third_case_is_kept_under_the_least_limit_that_it_is_within() {
    let mut at = [0; 3];
    for record in stored() {
        let Stored::Answered { case, limit, .. } = record else {
            continue;
        };
        assert_eq!(refusal(&Call::of(&case).at_limit(limit)), None, "{case:?}");
        let least = least_limit(&case.tokens);
        assert!(limit == least || limit == MOST_NESTING, "{case:?}");
        at[least.min(3) as usize - 1] += usize::from(limit == least);
    }
    assert!(at.iter().all(|&count| count > 50), "{at:?}");
}

#[test]
fn every_refused_call_has_the_answer_of_the_table() {
    let mut numbers = BTreeSet::new();
    for record in stored() {
        if let Stored::Refused(call, expected) = record {
            assert_eq!(refusal(&call), Some(expected), "{call:?}");
            numbers.insert(expected.number);
        }
    }
    assert_eq!(numbers, (1..=11).chain([17, 18]).collect());
}

#[test]
fn every_tree_holds_together() {
    for (case, answer) in answered() {
        let Answer::Tree(nodes) = &answer else {
            continue;
        };
        assert!(2 * nodes.len() <= 3 * case.tokens.len(), "{case:?}");
        let levels = depth(nodes).expect("the nodes are one tree");
        assert!(levels <= case.tokens.len() + 1, "{case:?}");
        let spans: BTreeSet<_> = case.tokens.iter().map(|t| (t.start, t.end)).collect();
        for node in nodes {
            let span = (node.token.start, node.token.end);
            assert!(spans.contains(&span), "a span that no token has: {case:?}");
            let payload = (node.token.variant, node.token.value);
            let known = case
                .tokens
                .iter()
                .any(|token| (token.variant, token.value) == payload);
            assert!(
                payload == (0, 0) || known,
                "a payload of no token: {case:?}"
            );
        }
    }
}

/// How many arguments a message has.
fn arguments(number: u32) -> usize {
    match number {
        4 => 5,
        6 => 3,
        5 | 8 | 9 => 2,
        1 | 7 | 12 | 15 | 16 | 17 => 1,
        _ => 0,
    }
}

#[test]
fn every_message_holds_together() {
    for (case, answer) in answered() {
        let Answer::Messages(records) = &answer else {
            continue;
        };
        let numbers: Vec<u32> = records.iter().map(|record| record[0]).collect();
        match numbers[..] {
            [4 | 6, 5] | [12, 1] => {}
            [4..=6] => panic!("{numbers:?} alone: {case:?}"),
            [number] => assert!((1..=17).contains(&number), "{case:?}"),
            _ => panic!("{numbers:?}: {case:?}"),
        }
        for record in records {
            let unused = &record[3 + arguments(record[0])..];
            assert!(unused.iter().all(|&number| number == 0), "{record:?}");
            match record[0] {
                1 => assert!(record[3] != 1 && record[3] as usize <= case.tokens.len()),
                5 => assert!(record[3] == record[4] + 1 && record[4] <= 4),
                7 => assert!(matches!(record[3], 40 | 67 | 68)),
                8 | 9 => assert!(matches!(record[3], 8 | 10..=39 | 78..=110)),
                15 => assert!(matches!(record[3], 70 | 77)),
                16 => assert_eq!(record[3], 74),
                17 => assert!(matches!(record[3], 59 | 60)),
                _ => {}
            }
        }
    }
}

fn kept(line: &Line, version: i16, records: &[(Case, Answer)]) -> bool {
    let case = line.at_version(version);
    records
        .iter()
        .any(|(kept, answer)| *kept == case && line.agrees(answer))
}

#[test]
fn every_line_of_document_01_and_every_finding_is_kept() {
    let records = answered();
    for line in lines().iter().chain(&findings()) {
        for version in line.kept_versions() {
            assert!(
                kept(line, version, &records),
                "{} at {version}: {:?} is not kept",
                line.story,
                line.says
            );
        }
    }
    let trees = |line: &Line| matches!(line.says, Says::Tree(_));
    assert!(lines().iter().any(trees) && !lines().iter().all(trees));
}

#[test]
fn every_message_operator_variant_and_version_is_kept() {
    let (mut numbers, mut versions) = (BTreeSet::new(), BTreeSet::new());
    let (mut ops, mut variants, mut made) = (BTreeSet::new(), BTreeSet::new(), BTreeSet::new());
    for (case, answer) in answered() {
        numbers.extend(answer.records().iter().map(|record| record[0]));
        versions.insert(case.version);
        ops.extend(case.tokens.iter().map(|token| token.op));
        variants.extend(case.tokens.iter().map(|token| token.variant));
        let parents = answer.nodes().iter().filter(|node| node.children > 0);
        made.extend(parents.map(|node| node.token.op));
    }
    assert_eq!(numbers, (1..=17).collect());
    let hosts = ops.split_off(&(LAST_OP + 1));
    assert_eq!(ops, (0..=LAST_OP).collect());
    assert!(hosts.iter().all(|&op| is_host(op)) && hosts.len() > 700);
    assert!(hosts.contains(&FIRST_HOST) && hosts.contains(&LAST_HOST));
    assert_eq!(variants, (0..=LAST_VARIANT).collect());
    for version in [i16::MIN, -1, 0, 3, 4, 5, 6, 7, 12, 13, 14, i16::MAX] {
        assert!(versions.contains(&version), "version {version}");
    }
    // Every pass made a tree: members, sections, calls, statements, arrays, pointer, math calls,
    // unary, each binary rank, conditionals, return.
    let passes = [
        45, 4, 2, 0, 40, 67, 68, 73, 63, 72, 36, 6, 7, 20, 31, 9, 50, 51, 52, 53, 54, 55, 56, 57,
        59, 60, 58, 75, 71, 74,
    ];
    for op in passes {
        assert!(made.contains(&op), "no tree has a {op} with children");
    }
}

#[test]
fn used_sets_that_are_not_exact_are_kept() {
    let records = answered();
    let kept = |set: fn(&Case) -> bool| records.iter().filter(|(case, _)| set(case)).count();
    assert!(kept(|case| case.used == exact_set(&case.tokens)) > 10_000);
    assert!(kept(|case| case.used == FULL_SET) > 500);
    assert!(kept(|case| case.used == (0, 0) && !case.tokens.is_empty()) > 300);
    let lacking = |case: &Case| {
        let exact = exact_set(&case.tokens);
        exact.0 & !case.used.0 != 0 || exact.1 & !case.used.1 != 0
    };
    assert!(kept(lacking) > 1_000);
}

#[test]
fn hosts_are_kept_in_trees_and_in_lists_with_messages() {
    let (mut trees, mut messages, mut kept) = (0, 0, 0);
    for (case, answer) in answered() {
        let given = case.tokens.iter().filter(|token| is_host(token.op)).count();
        if given == 0 {
            continue;
        }
        let nodes = answer.nodes().iter().filter(|node| is_host(node.token.op));
        assert!(nodes.clone().all(|node| node.children == 0), "{case:?}");
        if answer.records().is_empty() {
            trees += 1;
            kept += nodes.count();
        } else {
            messages += 1;
        }
        let named = answer.records().iter().flat_map(operators_in);
        assert!(named.into_iter().all(|&op| op <= u32::from(LAST_OP)));
    }
    assert!(trees > 1_000 && messages > 1_000, "{trees}, {messages}");
    assert!(kept > trees, "{kept} in {trees}");
}

#[test]
fn the_longest_lists_and_spans_that_run_backwards_are_kept() {
    let records = answered();
    for len in [0, 1, 4095, 4096] {
        let kept = records.iter().any(|(case, _)| case.tokens.len() == len);
        assert!(kept, "no list of {len} tokens");
    }
    let trees = |len| {
        records
            .iter()
            .any(|(case, answer)| case.tokens.len() == len && answer.records().is_empty())
    };
    assert!(trees(4095) && trees(4096));
    let backwards = |case: &Case| case.tokens.iter().any(|token| token.start > token.end);
    assert!(records.iter().filter(|(case, _)| backwards(case)).count() > 500);
    let signalling = |case: &Case| {
        let nan = |value: u32| f32::from_bits(value).is_nan() && value & 0x40_0000 == 0;
        case.tokens.iter().any(|t| t.variant == 1 && nan(t.value))
    };
    assert!(records.iter().any(|(case, _)| signalling(case)));
    let too_long =
        |stored: &Stored| matches!(stored, Stored::Refused(call, _) if call.list.len() == 5 * 4097);
    assert!(stored().iter().any(too_long));
}

#[cfg(molangx)]
#[test]
fn the_rust_still_answers_what_is_kept() {
    for (case, answer) in answered() {
        assert_eq!(oracle::answer_case(&case), answer, "{case:?}");
    }
}

#[cfg(molangx)]
#[test]
fn the_command_and_seed_of_the_readme_make_the_same_file() {
    let made = encode(&oracle::vectors::made(oracle::vectors::SEED));
    assert!(made == std::fs::read(path()).expect("the file"));
}

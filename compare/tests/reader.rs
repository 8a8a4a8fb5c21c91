//! The parse entry through the C convention, beside document 01's table and the Rust. Without the static library nothing
//! of this is built, and without the Rust what needs it is ignored; the build warns of both.
#![cfg(library)]

use compare::calls;
use compare::comparison::Comparison;
use compare::library::Read;
use compare::lifting_again::Lifting;
use compare::matching::Matching;
use compare::numbers::Numbers;
use compare::reading::{Buffers, Expected};
use compare::rereading::{self, Lists, Reread};
use oracle::generate::hosts::Hosted;
use oracle::generate::{Mixed, dress};
use oracle::hosts::{STAND_IN, hostless};
use oracle::nesting::{MOST_NESTING, least_limit};
use oracle::refusal::Call;
use oracle::vectors::{Stored, stored};
use oracle::words::{Case, decode_tree, is_host, tree_words, word};

/// Compares all calls; the counts of trees, messages and refusals.
fn compared(calls: impl Iterator<Item = Call>) -> (u64, u64, u64) {
    let mut comparison = Comparison::default();
    if let Err(difference) = comparison.all(calls, || {}) {
        panic!("{difference}");
    }
    let tally = comparison.tally;
    (tally.trees, tally.messages, tally.refused)
}

#[test]
fn every_kept_answer() {
    let mut comparison = Comparison::default();
    let mut buffers = Buffers::default();
    for record in stored() {
        let (call, expected) = match record {
            Stored::Answered {
                case,
                limit,
                answer,
            } => {
                let names = |numbered: &_| match buffers.names(numbered) {
                    Ok(names) => names,
                    Err(difference) => panic!("{difference}"),
                };
                let call = Call::of(&case).at_limit(limit);
                (call, Expected::answered(&case, answer, names))
            }
            Stored::Refused(call, refusal) => {
                let place = refusal.place as usize;
                (call, Expected::Refused(refusal.number, place))
            }
        };
        if let Err(difference) = comparison.call_expecting(&call, &expected) {
            panic!("{difference}");
        }
    }
    assert!(comparison.tally.calls > 20_000);
}

#[test]
fn every_refusal_at_its_limits() {
    let (_, _, refused) = compared(calls::limits());
    assert!(refused > 3_000, "only {refused} calls were turned back");
}

/// How many lists of so many brackets never have more than `limit` open, counted by how many are open at the end.
fn within(limit: usize, len: usize) -> u64 {
    let mut lists = vec![0; limit + 1];
    lists[0] = 1;
    for _ in 0..len {
        let mut longer = vec![0; limit + 1];
        for (open, count) in lists.iter().enumerate() {
            // Three openers and three closers.
            if open < limit {
                longer[open + 1] += 3 * count;
            }
            longer[open.saturating_sub(1)] += 3 * count;
        }
        lists = longer;
    }
    lists.iter().sum()
}

#[test]
fn every_list_of_up_to_six_brackets_at_limits_1_to_4() {
    let (trees, messages, refused) = compared(calls::over_brackets(6));
    let all: u64 = (0..=6).map(|len| 4 * 6u64.pow(len)).sum();
    let read: u64 = (0..=6)
        .flat_map(|len| (1..=4).map(move |limit| within(limit, len)))
        .sum();
    assert_eq!(refused, all - read);
    if oracle::COMPARED {
        assert_eq!(trees + messages, read);
    }
}

#[test]
fn nesting_limits_whatever_the_used_set_the_shape_and_the_damage() {
    let (_, _, refused) = compared(calls::nesting(5));
    assert!(refused > 10_000, "{refused}");
}

#[test]
fn a_bad_word_behind_an_excess_is_the_answer() {
    let mut buffers = Buffers::default();
    let deep = dress::plain(&[4, 4, 4, 61]);
    let call = Call::of(&Case::exact(deep, 6)).at_limit(1);
    let mut answer = |call: &Call, number, place| {
        let wanted = Expected::Refused(number, place);
        if let Err(difference) = buffers.call(call, &wanted) {
            panic!("{difference}");
        }
    };
    answer(&call, 18, 1);
    for (number, place, bad) in [
        (8, 19, word(4, 0)),
        (9, 15, word(1, 111)),
        (9, 15, word(1, 1 << 14)),
        (10, 15, word(1, 61 | 13 << 8)),
        (11, 15, word(1, 61 | 1 << 16)),
        (11, 19, word(5, 1 << 16)),
    ] {
        let mut bad_word = call.clone();
        bad_word.list[place] = bad;
        answer(&bad_word, number, place);
    }
}

#[test]
fn within_its_limit_a_list_reads_as_at_the_greatest() {
    let mut buffers = Buffers::default();
    let mut nested = 0;
    let lists = Mixed::new(9, 40).take(20_000);
    for case in lists.chain(Lists::new(9).take(5_000)) {
        let call = Call::of(&case);
        let read = buffers.call(&call, &Expected::Something);
        let Ok(read) = read else {
            panic!("{read:?}");
        };
        let expected = match read {
            Read::Tree(nodes) => Expected::Tree(buffers.tree(nodes).to_vec()),
            Read::Messages(count) => Expected::Messages(buffers.records(count)),
            Read::Refused(..) => unreachable!("a case is no call that is turned back"),
        };
        let least = least_limit(&case.tokens);
        nested += usize::from(least > 1);
        for limit in [least, least + 1] {
            let limited = call.clone().at_limit(limit.min(MOST_NESTING));
            if let Err(difference) = buffers.call(&limited, &expected) {
                panic!("{difference}");
            }
        }
    }
    assert!(nested > 5_000, "{nested}");
}

#[test]
#[cfg_attr(not(rust_source), ignore = "the Rust source is not at hand")]
fn generated_lists() {
    let (trees, messages, refused) = compared(calls::generated(1, 24).take(200_000));
    assert!(trees > 50_000 && messages > 50_000 && refused > 10_000);
}

#[test]
fn every_operator_number_with_every_variant_and_every_other_bit() {
    let mut numbers = Numbers::default();
    if let Err(difference) = numbers.all(|| {}) {
        panic!("{difference}");
    }
    assert_eq!(numbers.words, 4_096 * 16 * (8 + 13));
    assert_eq!(numbers.good, (111 + 768) * 13);
}

#[test]
#[cfg_attr(not(rust_source), ignore = "the Rust source is not at hand")]
fn lists_with_hosts_in_any_place() {
    let (trees, messages, refused) = compared(calls::hosted(11, 24).take(200_000));
    assert!(trees > 50_000 && messages > 50_000 && refused > 10_000);
    compared(calls::hosted(12, 300).take(5_000));
    compared(calls::hosted(13, 4_096).take(200));
}

#[test]
#[cfg_attr(not(rust_source), ignore = "the Rust source is not at hand")]
fn every_list_of_up_to_five_operators_beside_hosts() {
    let (trees, messages, _) = compared(calls::over_hosts(5));
    let all = 3 * 3 * (1 + 8 + 64 + 512 + 4_096 + 32_768);
    assert_eq!(trees + messages, all);
    assert!(trees > 20_000, "{trees}");
}

/// What a call leaves: its tree or its messages.
fn left(buffers: &mut Buffers, case: &Case) -> Expected {
    match buffers.call(&Call::of(case), &Expected::Something) {
        Ok(Read::Tree(nodes)) => Expected::Tree(buffers.tree(nodes).to_vec()),
        Ok(Read::Messages(count)) => Expected::Messages(buffers.records(count)),
        other => panic!("{other:?} to {case:?}"),
    }
}

/// By the library alone: the words are those with 76 in the hosts' stead, but for the hosts' numbers, which stand in the tree
/// in the order of the list.
#[test]
fn a_list_with_hosts_reads_as_with_76_in_their_stead() {
    let (mut buffers, mut trees) = (Buffers::default(), 0);
    for case in Hosted::new(14, 24).take(100_000) {
        let without = left(&mut buffers, &hostless(&case));
        let Expected::Tree(words) = left(&mut buffers, &case) else {
            assert_eq!(left(&mut buffers, &case), without, "{case:?}");
            continue;
        };
        trees += 1;
        let mut nodes = decode_tree(&words).expect("a tree");
        let mut found = Vec::new();
        for node in nodes.iter_mut().filter(|node| is_host(node.token.op)) {
            assert_eq!(node.children, 0, "{case:?}");
            found.push(node.token.op);
            node.token.op = STAND_IN;
        }
        assert_eq!(Expected::Tree(tree_words(&nodes)), without, "{case:?}");
        let given = case.tokens.iter().map(|token| token.op);
        assert!(given.filter(|&op| is_host(op)).eq(found), "{case:?}");
    }
    assert!(trees > 20_000, "{trees}");
}

#[test]
#[cfg_attr(not(rust_source), ignore = "the Rust source is not at hand")]
fn long_generated_lists() {
    compared(calls::generated(2, 300).take(10_000));
    compared(calls::generated(3, 4_096).take(300));
}

#[test]
#[cfg_attr(not(rust_source), ignore = "the Rust source is not at hand")]
fn lists_of_brackets() {
    let (trees, messages, _) = compared(calls::bracketed(7, 16).take(100_000));
    assert!(trees > 30_000 && messages > 20_000, "{trees}, {messages}");
    compared(calls::bracketed(8, 600).take(2_000));
}

/// Beside the Rust where it is at hand, and always beside the three sentences of card 13.
#[test]
fn nothing_is_lost_in_the_brackets_of_any_list_of_up_to_seven() {
    let mut matching = Matching::default();
    if let Err(difference) = matching.all(7, || {}) {
        panic!("{difference}");
    }
    assert_eq!(matching.lists, (0..=7).map(|len| 7u64.pow(len)).sum());
    // As counted length by length, by how many sections are open.
    assert_eq!((matching.matched, matching.lone), (67_211, 64_947));
}

#[test]
#[cfg_attr(not(rust_source), ignore = "the Rust source is not at hand")]
fn every_list_of_up_to_five_operators_of_eight() {
    let (trees, messages, _) = compared(calls::over_eights(5));
    assert_eq!(
        trees + messages,
        3 * 3 * (1 + 8 + 64 + 512 + 4_096 + 32_768)
    );
}

#[test]
#[cfg_attr(not(rust_source), ignore = "the Rust source is not at hand")]
fn every_shape_of_4096_tokens() {
    for len in [4_096, 4_095, 512, 33] {
        compared(calls::shapes(len));
    }
}

#[test]
#[cfg_attr(not(rust_source), ignore = "the Rust source is not at hand")]
fn used_sets_that_are_not_exact() {
    let (trees, messages, refused) = compared(calls::used_sets(4, 300));
    assert!(trees > 5_000 && messages > 5_000 && refused == 0);
}

/// How many of the lists were written, and what was written lifted three times more, without a difference.
fn read_again(lists: impl Iterator<Item = Case>) -> usize {
    let mut lifting = Lifting::new(5);
    let mut again = 0;
    for case in lists {
        match rereading::reread(&mut lifting, &case) {
            Ok(Reread::Again) => again += 1,
            Ok(_) => {}
            Err(difference) => panic!("{difference}\nof {case:?}"),
        }
    }
    again
}

#[test]
fn a_written_list_reads_as_the_same_tree_at_three_versions() {
    let again = read_again(Lists::new(5).take(60_000));
    assert!(again > 20_000, "only {again} lists were read again");
}

#[test]
fn a_written_list_with_hosts_reads_as_the_same_tree_at_three_versions() {
    let with_hosts = |case: &Case| case.tokens.iter().any(|token| is_host(token.op));
    let expressions = Lists::new(15).filter(with_hosts).take(60_000);
    let again = read_again(expressions);
    assert!(again > 20_000, "only {again} lists were read again");
    let again = read_again(Lists::scripts(16).filter(with_hosts).take(30_000));
    assert!(again > 10_000, "only {again} scripts were read again");
}

#[test]
fn a_written_script_reads_as_the_same_tree_at_three_versions() {
    let again = read_again(Lists::scripts(7).take(60_000));
    assert!(again > 20_000, "only {again} scripts were read again");
}

#[test]
fn every_short_script_reads_as_the_same_tree_at_three_versions() {
    let again = read_again(calls::over_scripts(6));
    assert!(again > 1_000, "only {again} lists were read again");
}

#[test]
fn a_reader_keeps_nothing_from_call_to_call() {
    // The same calls in another order, between calls that are turned back.
    let cases: Vec<Call> = calls::generated(6, 24).take(2_000).collect();
    let forward: Vec<_> = answers(cases.iter());
    let mut backward = answers(cases.iter().rev());
    backward.reverse();
    assert_eq!(forward, backward);
}

fn answers<'c>(calls: impl Iterator<Item = &'c Call>) -> Vec<String> {
    let mut buffers = Buffers::default();
    let answer = |call: &Call| {
        let refused = oracle::refusal::refusal(call);
        let expected = refused.map_or(Expected::Something, |refused| {
            Expected::Refused(refused.number, refused.place as usize)
        });
        match buffers.call(call, &expected) {
            Ok(read) => format!("{read:?}"),
            Err(difference) => panic!("{difference}"),
        }
    };
    calls.map(answer).collect()
}

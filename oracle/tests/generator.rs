//! The generator: what it promises to make, it makes.

use oracle::generate::alphabets::ALPHABETS;
use oracle::generate::damage::damaged;
use oracle::generate::shapes::SHAPES;
use oracle::generate::{Mixed, Rng, brackets, dress, hosts};
use oracle::hosts::has_hosts;
use oracle::nesting::too_deep;
use oracle::refusal::{Call, refusal};
use oracle::words::{
    Case, FULL_SET, Token, decode_list, exact_set, is_host, list_words, number_in,
};
use std::collections::BTreeSet;

#[test]
fn the_same_seed_gives_the_same_lists() {
    let lists = |seed| Mixed::new(seed, 30).take(500).collect::<Vec<_>>();
    assert_eq!(lists(7), lists(7));
    assert_ne!(lists(7), lists(8));
}

#[test]
fn an_alphabet_gives_each_list_once() {
    for alphabet in &ALPHABETS {
        let mut lists: Vec<_> = alphabet.every_list(4).collect();
        let count: usize = (0..=4).map(|len| alphabet.ops.len().pow(len)).sum();
        assert_eq!(lists.len(), count, "{}", alphabet.name);
        lists.sort_unstable();
        lists.dedup();
        assert_eq!(lists.len(), count, "{}", alphabet.name);
    }
}

#[test]
fn a_shape_has_exactly_the_length_that_is_asked_for() {
    for shape in &SHAPES {
        for len in (0..60).chain([4095, 4096, 4097]) {
            assert_eq!(shape.ops(len).len(), len, "{}", shape.name);
        }
    }
}

#[test]
fn lists_of_4095_and_4096_tokens_are_taken_and_of_4097_turned_back() {
    for shape in &SHAPES {
        for (len, number) in [(4095, None), (4096, None), (4097, Some(2))] {
            let call = Call::of(&Case::exact(dress::plain(&shape.ops(len)), 6));
            assert_eq!(refusal(&call).map(|refused| refused.number), number);
        }
    }
}

#[test]
fn no_list_is_longer_than_asked_and_none_is_turned_back() {
    for (most, count) in [
        (1, 2_000),
        (3, 2_000),
        (12, 2_000),
        (300, 2_000),
        (4096, 200),
    ] {
        for case in Mixed::new(most as u64, most).take(count) {
            assert!(case.tokens.len() <= most);
            assert_eq!(refusal(&Call::of(&case)), None, "{case:?}");
        }
    }
}

#[test]
fn the_mixed_lists_have_every_operator_payload_version_and_used_set() {
    let (mut ops, mut variants, mut values) = (BTreeSet::new(), BTreeSet::new(), BTreeSet::new());
    let mut versions = BTreeSet::new();
    let (mut exact, mut full, mut empty, mut other, mut backwards) = (0, 0, 0, 0, 0);
    for case in Mixed::new(11, 16).take(20_000) {
        for token in &case.tokens {
            ops.insert(token.op);
            variants.insert(token.variant);
            values.insert(token.value);
            backwards += usize::from(token.start > token.end);
        }
        versions.insert(case.version);
        match case.used {
            set if set == exact_set(&case.tokens) => exact += 1,
            FULL_SET => full += 1,
            (0, 0) => empty += 1,
            _ => other += 1,
        }
    }
    assert_eq!(ops, (0..=110).collect());
    assert_eq!(variants, (0..=12).collect());
    assert!(dress::VALUES.iter().all(|value| values.contains(value)));
    assert!(
        dress::VERSIONS
            .iter()
            .all(|version| versions.contains(version))
    );
    assert!(
        [exact, full, empty, other, backwards]
            .iter()
            .all(|&count| count > 1_000)
    );
}

#[test]
fn hosts_stand_in_every_place_and_in_the_stead_of_every_operator() {
    const MOST: usize = 10;
    let mut places = [[0; MOST]; MOST];
    let (mut numbers, mut steads) = (BTreeSet::new(), BTreeSet::new());
    let (mut exact, mut wider, mut all) = (0, 0, 0);
    let mut rng = Rng::new(17);
    for case in Mixed::new(18, MOST)
        .filter(|case| !case.tokens.is_empty())
        .take(40_000)
    {
        let hosted = hosts::put_in(&mut rng, case.clone());
        assert_eq!(refusal(&Call::of(&hosted)), None, "{hosted:?}");
        assert!(has_hosts(&hosted));
        for (place, (token, before)) in hosted.tokens.iter().zip(&case.tokens).enumerate() {
            if is_host(token.op) {
                places[hosted.tokens.len() - 1][place] += 1;
                numbers.insert(token.op);
                steads.insert(before.op);
            }
            let same = Token {
                op: before.op,
                ..*token
            };
            assert_eq!(same, *before);
        }
        let set = exact_set(&hosted.tokens);
        exact += usize::from(hosted.used == set);
        wider += usize::from(hosted.used != set && hosted.used == case.used);
        all += usize::from(hosted.tokens.iter().all(|token| is_host(token.op)));
    }
    for (last, row) in places.iter().enumerate() {
        assert!(row[..=last].iter().all(|&count| count > 100), "{row:?}");
    }
    assert_eq!(numbers, (256..=1023).collect());
    assert_eq!(steads, (0..=110).collect());
    assert!([exact, wider, all].iter().all(|&count| count > 1_000));
}

#[test]
fn damage_is_turned_back_where_it_was_done() {
    let mut rng = Rng::new(5);
    let (mut numbers, mut fields) = ([0; 19], BTreeSet::new());
    let (mut bad_and_deep, mut bad) = (0, BTreeSet::new());
    for case in Mixed::new(6, 10).take(6_000) {
        let (call, expected) = damaged(&mut rng, &case);
        assert_eq!(refusal(&call), Some(expected), "{call:?}");
        numbers[expected.number as usize] += 1;
        fields.insert((expected.number, expected.place % 5));
        if expected.number == 9 {
            bad.insert(number_in(call.list[expected.place as usize]));
        }
        let ops = call.list.iter().step_by(5).map(|&word| number_in(word));
        let deep = too_deep(ops, call.limit).is_some();
        bad_and_deep += usize::from(deep && matches!(expected.number, 8..=11));
    }
    let kinds = (0..5).map(|field| (8, field));
    let bits = [(9, 0), (10, 0), (11, 0), (11, 3), (11, 4)];
    assert!(kinds.chain(bits).all(|field| fields.contains(&field)));
    // Numbers between the operators and the hosts, and above the hosts.
    assert!(bad.iter().any(|op| (111..256).contains(op)) && bad.iter().any(|&op| op > 1023));
    let numbers = [&numbers[1..12], &numbers[17..]].concat();
    assert!(numbers.iter().all(|&count| count > 50), "{numbers:?}");
    // A bad word of a list that nests too deep.
    assert!(bad_and_deep > 50, "{bad_and_deep}");
}

/// How a list's brackets are: a closer that does not match, a section not closed, a closer with nothing open.
fn bracketing(tokens: &[Token]) -> [bool; 3] {
    let (mut open, mut lone) = (Vec::new(), false);
    for token in tokens {
        match token.op {
            0 | 2 | 4 => open.push(token.op),
            1 | 3 | 5 => match open.pop() {
                Some(opener) if opener + 1 != token.op => return [true, false, lone],
                Some(_) => {}
                None => lone = true,
            },
            _ => {}
        }
    }
    [false, !open.is_empty(), lone]
}

#[test]
fn the_lists_of_brackets_have_every_kind_span_and_used_set() {
    let mut rng = Rng::new(21);
    let (mut kinds, mut faults, mut spans, mut sets) = ([0; 6], [0; 4], [0; 4], [0; 4]);
    for _ in 0..20_000 {
        let case = brackets::case(&mut rng, 16);
        let tokens = &case.tokens;
        assert_eq!(refusal(&Call::of(&case)), None, "{case:?}");
        for token in tokens.iter().filter(|token| token.op <= 5) {
            kinds[usize::from(token.op)] += 1;
        }
        let found = bracketing(tokens);
        for (count, fault) in faults.iter_mut().zip(found) {
            *count += usize::from(fault);
        }
        faults[3] += usize::from(found == [false; 3]);
        let spans_of: BTreeSet<_> = tokens.iter().map(|t| (t.start, t.end)).collect();
        spans[0] += usize::from(tokens.iter().any(|t| t.start > t.end));
        spans[1] += usize::from(tokens.len() > 1 && spans_of.len() == 1);
        spans[2] += usize::from(spans_of.len() == tokens.len());
        // Two openers alike that close apart: only their places in the list tell them apart.
        let closes = oracle::closing::closes(tokens, case.used);
        let openers: BTreeSet<_> = tokens
            .iter()
            .zip(closes)
            .filter(|(token, _)| matches!(token.op, 0 | 2 | 4))
            .map(|(token, close)| ((token.op, token.start, token.end), close))
            .collect();
        let alike: BTreeSet<_> = openers.iter().map(|(token, _)| token).collect();
        spans[3] += usize::from(alike.len() < openers.len());
        let openers = |set: (u64, u64)| set.0 & 0b01_0101;
        let exact = exact_set(tokens);
        let set = match openers(case.used) {
            same if same == openers(exact) => 0,
            0 => 1,
            0b01_0101 => 2,
            _ => 3,
        };
        sets[set] += usize::from(openers(exact) != 0);
    }
    for counts in [&kinds[..], &faults, &spans, &sets] {
        assert!(counts.iter().all(|&count| count > 400), "{counts:?}");
    }
}

#[cfg(molangx)]
#[test]
fn the_lists_of_brackets_are_often_trees_with_sections_and_with_openers_as_leaves() {
    let (mut rng, mut sections, mut leaves) = (Rng::new(22), 0, 0);
    for _ in 0..20_000 {
        let case = brackets::case(&mut rng, 16);
        let answer = oracle::answer_case(&case);
        let opener = answer
            .nodes()
            .iter()
            .any(|node| matches!(node.token.op, 0 | 2 | 4));
        let run = case.used.0 & 0b01_0101 != 0;
        sections += usize::from(opener && run);
        leaves += usize::from(opener && !run);
    }
    assert!(sections > 4_000 && leaves > 100, "{sections}, {leaves}");
}

/// Every bit of a token's five words, turned over by itself.
#[test]
fn one_bit_turned_over_is_another_sound_token_or_turned_back() {
    let token = Token {
        op: 46,
        variant: 2,
        value: 0x8001_7FFE,
        start: 3,
        end: 1,
    };
    let sound = list_words(&[token]);
    for place in 0..sound.len() {
        for bit in 0..32 {
            let mut list = sound.clone();
            list[place] ^= 1 << bit;
            let call = Call {
                list: list.clone(),
                ..Call::of(&Case {
                    tokens: vec![token],
                    used: FULL_SET,
                    source_len: 0,
                    version: 0,
                })
            };
            match (refusal(&call), decode_list(&list)) {
                (None, Some(tokens)) => {
                    assert_eq!(list_words(&tokens), list);
                    assert_ne!(tokens, [token]);
                }
                // Without its variant the token has a value that it may not have.
                (Some(refused), None) if refused.number == 11 => {
                    assert!(refused.place as usize >= place);
                }
                (Some(refused), None) => assert_eq!(refused.place as usize, place),
                (refused, tokens) => panic!("{refused:?} but {tokens:?}"),
            }
        }
    }
}

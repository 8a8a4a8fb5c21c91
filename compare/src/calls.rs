//! The calls that the parse entry is compared over.

use oracle::generate::alphabets::{ALPHABETS, Alphabet};
use oracle::generate::hosts::Hosted;
use oracle::generate::shapes::SHAPES;
use oracle::generate::{Mixed, Rng, brackets, damage, dress};
use oracle::lines;
use oracle::nesting::{MOST_NESTING, least_limit};
use oracle::refusal::Call;
use oracle::words::{
    Case, FULL_SET, LAST_OP, LAST_PLACE, MOST_TOKENS, TOKEN_WORDS, Token, bit, exact_set, low,
    with_number, word,
};
use std::ops::Range;

/// Eight operators each, whose lists meet in the same passes.
pub static EIGHTS: [Alphabet; 3] = [
    eight(
        "sums, products, prefixes, brackets",
        &[61, 9, 6, 31, 20, 7, 4, 5],
    ),
    eight(
        "conditionals, logic, comparisons",
        &[61, 59, 60, 56, 57, 53, 54, 58],
    ),
    eight(
        "calls, statements, assignment, return",
        &[43, 73, 71, 74, 40, 36, 4, 5],
    ),
];

/// Operators whose lists are scripts, and what no plain script holds: 41, `:` and 69 under a statement, braces. Every list
/// ends with a semicolon.
pub static SCRIPTS: [Alphabet; 3] = [
    ended(
        "statements, assignments, returns, brackets",
        &[61, 73, 71, 74, 4, 5, 6],
    ),
    ended(
        "statements, conditionals, 41, 69",
        &[61, 73, 41, 60, 69, 59, 4, 5],
    ),
    ended(
        "statements, braces, commas, logic",
        &[61, 73, 71, 0, 1, 75, 56, 57],
    ),
];

/// Hosts whose lower eight bits are the operators that they stand beside.
pub static HOSTS: [Alphabet; 3] = [
    eight(
        "hosts beside sums, minuses, brackets",
        &[262, 265, 516, 773, 6, 9, 4, 5],
    ),
    eight(
        "hosts beside conditionals, logic, calls",
        &[315, 572, 825, 59, 60, 57, 36, 4],
    ),
    ended(
        "hosts beside statements, assignments, arrays",
        &[329, 583, 73, 71, 74, 41, 2, 3],
    ),
];

const fn ended(name: &'static str, ops: &'static [u16]) -> Alphabet {
    Alphabet {
        ending: &[73],
        ..eight(name, ops)
    }
}

const fn eight(name: &'static str, ops: &'static [u16]) -> Alphabet {
    Alphabet {
        name,
        ops,
        ending: &[],
        versions_differ: true,
    }
}

/// All brackets and nothing else.
static BRACKETS: Alphabet = eight("brackets", &[0, 1, 2, 3, 4, 5]);

/// A nesting limit: the greatest, or one that some lists are above.
fn limit(rng: &mut Rng) -> u32 {
    if rng.chance(70) {
        return MOST_NESTING;
    }
    *rng.pick(&[1, 1, 1, 2, 2, 3, 4, 5, 8, 16, 64, 1_024, MOST_NESTING - 1])
}

/// Generated lists of at most `most` tokens, one in twelve with a spoiled call, half with more room than asked for.
pub fn generated(seed: u64, most: usize) -> impl Iterator<Item = Call> {
    called(seed, Mixed::new(seed, most))
}

/// The same of lists with hosts in any place.
pub fn hosted(seed: u64, most: usize) -> impl Iterator<Item = Call> {
    called(seed, Hosted::new(seed, most))
}

fn called(seed: u64, cases: impl Iterator<Item = Case>) -> impl Iterator<Item = Call> {
    let mut rng = Rng::new(seed ^ 0x5EED);
    cases.map(move |case| {
        if rng.chance(8) {
            return damage::damaged(&mut rng, &case).0;
        }
        let mut call = Call::of(&case);
        if rng.chance(50) {
            call.tree_len += rng.below(20) as u64;
            call.messages_len += rng.below(20) as u64;
            call.work_len += rng.below(200) as u64;
        }
        call.at_limit(limit(&mut rng))
    })
}

/// Lists of brackets of about `most` tokens: what a node says of its closer.
pub fn bracketed(seed: u64, most: usize) -> impl Iterator<Item = Call> {
    let (mut rng, mut limits) = (Rng::new(seed ^ 0xB4AC), Rng::new(seed ^ 0xDEE9));
    std::iter::from_fn(move || {
        let call = Call::of(&brackets::case(&mut rng, most));
        Some(call.at_limit(limit(&mut limits)))
    })
}

fn exact(ops: &[u16], version: i16) -> Case {
    Case::exact(dress::plain(ops), version)
}

fn at_each_version(ops: &[u16]) -> [Call; 3] {
    [4, 5, 6].map(|version| Call::of(&exact(ops, version)))
}

/// Every list of up to `most` operators over each alphabet, at versions 4, 5 and 6.
fn over(alphabets: &'static [Alphabet], most: usize) -> impl Iterator<Item = Call> {
    alphabets
        .iter()
        .flat_map(move |alphabet| alphabet.every_list(most))
        .flat_map(|ops| at_each_version(&ops))
}

/// Every list of up to `most` operators over the alphabets of eight, at versions 4, 5 and 6.
pub fn over_eights(most: usize) -> impl Iterator<Item = Call> {
    over(&EIGHTS, most)
}

/// Every list of up to `most` operators and a semicolon over the alphabets of scripts, at versions 4, 5 and 6.
pub fn over_scripts(most: usize) -> impl Iterator<Item = Case> {
    let lists = SCRIPTS.iter().flat_map(move |all| all.every_list(most));
    lists.flat_map(|ops| [4, 5, 6].map(|version| exact(&ops, version)))
}

/// Every list of up to `most` operators over the generator's small alphabets, at versions 4, 5 and 6.
pub fn over_alphabets(most: usize) -> impl Iterator<Item = Call> {
    over(&ALPHABETS, most)
}

/// Every list of up to `most` operators over the alphabets with hosts, at versions 4, 5 and 6.
pub fn over_hosts(most: usize) -> impl Iterator<Item = Call> {
    over(&HOSTS, most)
}

/// Every list of up to `most` brackets at limits 1 to 4, under its exact used set.
pub fn over_brackets(most: usize) -> impl Iterator<Item = Call> {
    BRACKETS.every_list(most).flat_map(|ops| {
        (1..=4).map(move |limit| Call::of(&exact(&ops, 3 + limit as i16)).at_limit(limit))
    })
}

/// Every list of up to `most` brackets at limits 1 and 2 with none and with all operators in the used set.
fn over_brackets_unused(most: usize) -> impl Iterator<Item = Call> {
    let calls = [1, 2].map(|limit| [(0, 0), FULL_SET].map(|used| (limit, used)));
    BRACKETS.every_list(most).flat_map(move |ops| {
        calls.into_iter().flatten().map(move |(limit, used)| {
            let case = exact(&ops, 6);
            Call::of(&Case { used, ..case }).at_limit(limit)
        })
    })
}

/// Every shape of so many tokens under the least limit that it is within, and under the one below that.
fn shapes_at_their_limits(len: usize) -> impl Iterator<Item = Call> {
    SHAPES.iter().flat_map(move |shape| {
        let case = exact(&shape.ops(len), 5);
        let least = least_limit(&case.tokens);
        let limits = [least, least - 1].into_iter().filter(|limit| *limit > 0);
        limits.map(move |limit| Call::of(&case).at_limit(limit))
    })
}

/// Openers and operands, of which some limit lets only the first few pass, with each damage to each word: a bad word is
/// answered, wherever it stands.
fn deep_and_damaged() -> impl Iterator<Item = Call> {
    [1, 3].into_iter().flat_map(|limit| {
        let deep = Call::of(&exact(&[4, 61, 2, 0, 4, 43, 1, 4, 2, 4], 6)).at_limit(limit);
        (0..deep.list.len()).flat_map(move |place| with_damage(deep.clone(), place))
    })
}

/// Nesting limits: every list of up to `most` brackets at limits 1 to 4, and of two fewer under used sets without and with
/// all operators; every shape at the least limit that it is within and one below; lists that are too deep with each damage
/// to each word; as many openers as are read, at limits beside their number.
pub fn nesting(most: usize) -> impl Iterator<Item = Call> {
    let openers = [MOST_TOKENS, MOST_TOKENS - 1].into_iter().flat_map(|len| {
        let limits = [1, 2, 64, len as u32 - 1, len as u32, MOST_NESTING];
        let call = Call::of(&exact(&[0, 2, 4].repeat(len)[..len], 6));
        limits.map(|limit| call.clone().at_limit(limit))
    });
    let shapes = [MOST_TOKENS, 1_000, 100, 9];
    over_brackets(most)
        .chain(over_brackets_unused(most.saturating_sub(2)))
        .chain(shapes.into_iter().flat_map(shapes_at_their_limits))
        .chain(deep_and_damaged())
        .chain(openers)
}

/// Every shape of so many tokens at versions 4, 5 and 6, with the exact used set and with the full one.
pub fn shapes(len: usize) -> impl Iterator<Item = Call> {
    SHAPES.iter().flat_map(move |shape| {
        let cases = [4, 5, 6].map(|version| exact(&shape.ops(len), version));
        let full = cases.clone().map(|case| Case {
            used: FULL_SET,
            ..case
        });
        cases.into_iter().chain(full).map(|case| Call::of(&case))
    })
}

/// Lists with the full used set, the empty one, and the exact one with each of its operators taken out and each other one
/// put in: document 01's lines and findings, and `count` generated lists.
pub fn used_sets(seed: u64, count: usize) -> impl Iterator<Item = Call> {
    let stored = lines::lines().into_iter().chain(lines::findings());
    let cases = stored.map(|line| line.case);
    cases
        .chain(Mixed::new(seed, 12).take(count))
        .flat_map(|case| {
            let exact = exact_set(&case.tokens);
            let flipped = (0..=LAST_OP).map(move |op| (exact.0 ^ bit(op).0, exact.1 ^ bit(op).1));
            let sets = flipped.chain([FULL_SET, (0, 0), exact]);
            sets.map(move |used| {
                Call::of(&Case {
                    used,
                    ..case.clone()
                })
            })
        })
}

/// A sound call of so many tokens, with a payload under each variant.
fn sound(tokens: usize) -> Call {
    let token = |place: usize| Token {
        op: 61,
        variant: (place % 13) as u8,
        value: if place.is_multiple_of(13) {
            0
        } else {
            0xFFFF_FFFF
        },
        start: LAST_PLACE,
        end: 0,
    };
    let tokens: Vec<Token> = (0..tokens).map(token).collect();
    Call::of(&Case {
        used: exact_set(&tokens),
        source_len: LAST_PLACE,
        version: 6,
        tokens,
    })
}

/// What is changed of a sound call.
type Change = Box<dyn Fn(&mut Call)>;

/// Answers 1 to 7 and 17, each on both sides of its limit.
fn at_limits() -> Vec<Change> {
    let mut changes: Vec<Change> = vec![Box::new(|_| {})];
    changes.push(Box::new(|call| call.list.push(word(1, 61))));
    changes.push(Box::new(|call| {
        call.list.pop();
    }));
    for more in [-1, 0, 1] {
        let moved = move |len: u64| len.saturating_add_signed(more);
        changes.push(Box::new(move |call| call.tree_len = moved(call.tree_len)));
        changes.push(Box::new(move |call| {
            call.messages_len = moved(call.messages_len)
        }));
        changes.push(Box::new(move |call| call.work_len = moved(call.work_len)));
        changes.push(Box::new(move |call| {
            call.source_len = moved(call.source_len)
        }));
    }
    // The tree buffer at 18 and at 20 words a token, too short by a word a node and by a word a token.
    for words in [18, 20] {
        changes.push(Box::new(move |call| {
            call.tree_len = words * (call.list.len() / TOKEN_WORDS) as u64
        }));
    }
    for zero in 0..3 {
        changes.push(Box::new(move |call| {
            *[
                &mut call.tree_len,
                &mut call.messages_len,
                &mut call.work_len,
            ][zero] = 0;
        }));
    }
    changes.push(Box::new(|call| call.source_len = u64::MAX));
    for bit in 44..64 {
        changes.push(Box::new(move |call| call.used.1 |= 1 << bit));
    }
    for limit in [0, 1, MOST_NESTING, MOST_NESTING + 1, u32::MAX] {
        changes.push(Box::new(move |call| call.limit = limit));
    }
    changes
}

/// Each way to damage the word at index `place`: every other kind, every other bit, operators and variants at their limits.
fn damages(call: &Call, place: usize) -> Vec<u32> {
    let given = call.list[place];
    let mut words: Vec<u32> = (0..32).map(|bit| given ^ 1 << bit).collect();
    words.extend((0..8).map(|kind| word(kind, low(given))));
    if place.is_multiple_of(TOKEN_WORDS) {
        let numbers = [110, 111, 127, 128, 255, 256, 262, 1_023, 1_024, 4_095];
        words.extend(numbers.map(|op| with_number(given, op)));
        words.extend([0, 12, 13, 14, 15].map(|variant| given & !0xF00 | variant << 8));
    }
    words.extend([0, !0]);
    words
}

/// A sound call of so many tokens with each change, and a short one with each two.
fn changed(tokens: usize) -> Vec<Call> {
    let changes = at_limits();
    let mut calls = Vec::new();
    for (place, change) in changes.iter().enumerate() {
        let mut changed = sound(tokens);
        change(&mut changed);
        let others = if tokens <= 14 {
            &changes[place + 1..]
        } else {
            &[]
        };
        for other in others {
            let mut both = changed.clone();
            other(&mut both);
            calls.push(both);
        }
        calls.push(changed);
    }
    calls
}

/// A call with each damage to the word at index `place`.
fn with_damage(call: Call, place: usize) -> impl Iterator<Item = Call> {
    damages(&call, place).into_iter().map(move |word| {
        let mut call = call.clone();
        call.list[place] = word;
        call
    })
}

/// A sound call of so many tokens with each damage to each word at these indices.
fn damaged(tokens: usize, places: Range<usize>) -> impl Iterator<Item = Call> {
    let sound = sound(tokens);
    places.flat_map(move |place| with_damage(sound.clone(), place))
}

/// Every refusal at its limits: the whole call's for lists of several lengths, each alone and each two together; each
/// field of every word of a short list, and of the first and last words of the longest.
pub fn limits() -> impl Iterator<Item = Call> {
    let most = MOST_TOKENS;
    let lengths = [0, 1, 2, 13, 14, most - 1, most, most + 1];
    let last = TOKEN_WORDS * (most - 1)..TOKEN_WORDS * most;
    let words = [(14, 0..70), (most, 0..TOKEN_WORDS), (most, last)];
    let damaged = words
        .into_iter()
        .flat_map(|(tokens, places)| damaged(tokens, places));
    lengths.into_iter().flat_map(changed).chain(damaged)
}

//! What is kept: chosen lists first, then lists from the seed, then calls that are turned back.

use super::Stored;
use crate::generate::alphabets::ALPHABETS;
use crate::generate::damage::damaged;
use crate::generate::hosts::Hosted;
use crate::generate::shapes::SHAPES;
use crate::generate::{Mixed, Rng, case, dress, grammar, patterns, random};
use crate::lines::{findings, lines};
use crate::nesting::{MOST_NESTING, least_limit};
use crate::refusal::{Call, Refusal};
use crate::words::{Case, FIRST_HOST, LAST_HOST, LAST_OP, TOKEN_WORDS, word};

/// The records that a seed gives.
pub fn made(seed: u64) -> Vec<Stored> {
    let cases = [
        documented(),
        short_lists(),
        single_operators(),
        shaped(),
        longest(),
        long(seed),
        Mixed::new(seed, 9).take(12_000).collect(),
        Mixed::new(seed + 1, 24).take(6_000).collect(),
        single_hosts(),
        Hosted::new(seed + 3, 16).take(4_000).collect(),
    ];
    let cases = cases.into_iter().flatten().enumerate();
    let answered = cases.map(|(place, case)| Stored::Answered {
        // Every third list is given the least limit that it is within; the Rust knows of none.
        limit: match place % 3 {
            2 => least_limit(&case.tokens),
            _ => MOST_NESTING,
        },
        answer: crate::answer_case(&case),
        case,
    });
    answered.chain(turned_back(seed + 2)).collect()
}

/// The list with usual payloads and spans, its exact used set and its length as source length.
fn plain(ops: &[u16], version: i16) -> Case {
    Case::exact(dress::plain(ops), version)
}

/// The lines of document 01 and what was found.
fn documented() -> Vec<Case> {
    let mut cases = Vec::new();
    for line in lines().iter().chain(&findings()) {
        let versions = line.kept_versions();
        cases.extend(versions.map(|version| line.at_version(version)));
    }
    cases
}

/// Every list of up to three operators over each alphabet.
fn short_lists() -> Vec<Case> {
    let mut cases = Vec::new();
    for alphabet in &ALPHABETS {
        for (place, ops) in alphabet.every_list(3).enumerate() {
            if alphabet.versions_differ {
                cases.extend((4..=6).map(|version| plain(&ops, version)));
            } else {
                cases.push(plain(&ops, [4, 5, 6, -1, 13][place % 5]));
            }
        }
    }
    cases
}

/// Every operator in certain places, and every two between operands.
fn single_operators() -> Vec<Case> {
    let mut cases = Vec::new();
    for op in 0..=LAST_OP {
        for (place, ops) in patterns::around(op).enumerate() {
            cases.push(plain(&ops, 4 + (place + op as usize) as i16 % 3));
        }
    }
    for ops in patterns::pairs() {
        cases.extend((4..=6).map(|version| plain(&ops, version)));
    }
    cases
}

/// Hosts in the same places: for each operator one whose lower eight bits it is, of all three upper
/// parts in turn, and the last.
fn single_hosts() -> Vec<Case> {
    let mut cases = Vec::new();
    let hosts = (0..=LAST_OP).map(|op| FIRST_HOST + 256 * (op % 3) + op);
    for host in hosts.chain([LAST_HOST]) {
        for (place, ops) in patterns::around(host).enumerate() {
            cases.push(plain(&ops, 4 + (place + host as usize) as i16 % 3));
        }
    }
    cases
}

/// Every shape at a few small lengths.
fn shaped() -> Vec<Case> {
    let lengths = [1, 2, 3, 4, 5, 6, 7, 8, 9, 11, 17, 40];
    let mut cases = Vec::new();
    for shape in &SHAPES {
        for (place, &len) in lengths.iter().enumerate() {
            cases.push(plain(&shape.ops(len), 4 + place as i16 % 3));
        }
    }
    cases
}

/// Some shapes at the most tokens that are read, and one fewer.
fn longest() -> Vec<Case> {
    let chosen = [
        ("flat sum", 4095, 6),
        ("nested brackets", 4096, 5),
        ("conditional ladder", 4095, 4),
        ("conditional ladder", 4096, 5),
        ("not run", 4096, 6),
        ("nested loops", 4095, 6),
        ("statements", 4096, 6),
        ("openers", 4096, 5),
    ];
    let case = |(name, len, version)| {
        let shape = SHAPES.iter().find(|shape| shape.name == name);
        plain(&shape.expect("a shape has this name").ops(len), version)
    };
    chosen.map(case).into()
}

/// Expressions, scripts and weighted lists of one to four hundred tokens.
fn long(seed: u64) -> Vec<Case> {
    let mut rng = Rng::new(seed);
    let mut cases = Vec::new();
    for size in (100..400).step_by(10) {
        for make in [grammar::expression, grammar::script, random::weighted] {
            let ops = make(&mut rng, size);
            cases.push(case(&mut rng, &ops));
        }
    }
    cases
}

/// A call of two tokens whose second has these bits in its word of kind 1.
fn of_operator(bits: u32, number: u32) -> Stored {
    let mut call = Call::of(&plain(&[61, 61], 6));
    call.list[TOKEN_WORDS] = word(1, bits);
    let place = TOKEN_WORDS as u32;
    Stored::Refused(call, Refusal { number, place })
}

/// The lines of document 01 that are turned back, operators and nesting limits at their ends, and
/// two and a half thousand damaged calls.
fn turned_back(seed: u64) -> Vec<Stored> {
    let two_words = Call {
        list: vec![0; 2],
        ..Call::of(&plain(&[], 6))
    };
    let too_long = Call::of(&plain(&SHAPES[0].ops(4097), 6));
    let refused = |call, number| Stored::Refused(call, Refusal { number, place: 0 });
    let mut records = vec![refused(two_words, 1), refused(too_long, 2)];
    for limit in [0, 4097] {
        records.push(refused(Call::of(&plain(&[61], 6)).at_limit(limit), 17));
    }
    for (openers, limit) in [(2, 1), (4096, 4095)] {
        let call = Call::of(&plain(&vec![4; openers], 6)).at_limit(limit);
        let refusal = Refusal {
            number: 18,
            place: limit,
        };
        records.push(Stored::Refused(call, refusal));
    }
    // Numbers that are none, and 256 and 1,023 with a variant above 12 or a bit from 16 on.
    for bits in [0x6F, 0xFF, 0x4000, 0x4101, 0xFFFF, 0x1_406F] {
        records.push(of_operator(bits, 9));
    }
    for (bits, number) in [
        (0x1D00, 10),
        (0x3FFF, 10),
        (0x1_1000, 11),
        (0x1000_3CFF, 11),
    ] {
        records.push(of_operator(bits, number));
    }
    let mut rng = Rng::new(seed);
    let mut too_long = 0;
    let mixed = Mixed::new(seed, 12).take(2_000);
    for case in mixed.chain(Hosted::new(seed, 12).take(500)) {
        let (call, refusal) = damaged(&mut rng, &case);
        too_long += usize::from(refusal.number == 2);
        // A list of 4,097 tokens is as large as a thousand others.
        if refusal.number != 2 || too_long <= 4 {
            records.push(Stored::Refused(call, refusal));
        }
    }
    records
}

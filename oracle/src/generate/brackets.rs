//! Lists of brackets: sections of all three kinds in and beside each other, now and then with one
//! that does not match, is not closed or is not opened; spans that tell nothing, and used sets with
//! some, all or none of the openers. They are for what a node says of its closer.

use super::{Rng, dress};
use crate::words::{Case, Token, bit};

const OPENERS: [u16; 3] = [0, 2, 4];
const LEAVES: [u16; 6] = [61, 61, 61, 62, 43, 41];

/// A case of about `most` tokens.
pub fn case(rng: &mut Rng, most: usize) -> Case {
    let mut ops = Vec::new();
    let room = 1 + rng.below(most);
    put_parts(rng, &mut ops, room);
    if rng.chance(20) {
        spoil(rng, &mut ops);
    }
    if rng.chance(15) {
        ops.push(73);
    }
    let mut tokens = if rng.chance(20) {
        dress::plain(&ops)
    } else {
        dress::wild(rng, &ops)
    };
    if rng.chance(35) {
        // One span for all openers, wherever they close.
        for token in &mut tokens {
            let ends = if OPENERS.contains(&token.op) { 1 } else { 9 };
            (token.start, token.end) = (2, rng.below(ends) as u32);
        }
    }
    Case {
        used: used_set(rng, &tokens),
        source_len: dress::source_len(rng, &tokens),
        version: dress::version(rng),
        tokens,
    }
}

/// Operands with operators between them; in a list of roots there is none.
fn put_parts(rng: &mut Rng, ops: &mut Vec<u16>, room: usize) {
    let parts = 1 + rng.below(room.min(3));
    for part in 0..parts {
        if part > 0 && !rng.chance(4) {
            ops.push(*rng.pick(&[9, 9, 6, 6, 31, 31, 75, 57, 58, 59, 60, 73]));
        }
        put_operand(rng, ops, room / parts);
    }
}

/// A leaf, or a section alone or under what takes sections.
fn put_operand(rng: &mut Rng, ops: &mut Vec<u16>, room: usize) {
    if rng.chance(8) {
        ops.push(*rng.pick(&[6, 7, 74]));
    }
    if room < 3 {
        // A bracket by itself is an operand where the pass does not run.
        let lone = rng.chance(6);
        ops.push(*rng.pick(if lone { &[0, 1, 2, 3, 4, 5] } else { &LEAVES }));
        return;
    }
    let opener = match rng.below(9) {
        0 => {
            ops.push(40);
            4
        }
        1 => {
            ops.push(36);
            4
        }
        2 | 3 => {
            ops.push(41);
            2
        }
        _ => *rng.pick(&OPENERS),
    };
    ops.push(opener);
    if !rng.chance(10) {
        put_parts(rng, ops, room - 2);
    }
    ops.push(opener + 1);
}

/// One bracket taken out, put in or made another.
fn spoil(rng: &mut Rng, ops: &mut Vec<u16>) {
    let brackets: Vec<usize> = (0..ops.len()).filter(|&place| ops[place] <= 5).collect();
    let other = rng.below(6) as u16;
    match (rng.below(3), brackets.is_empty()) {
        (0, false) => {
            ops.remove(*rng.pick(&brackets));
        }
        (1, false) => ops[*rng.pick(&brackets)] = other,
        _ => ops.insert(rng.below(ops.len() + 1), other),
    }
}

/// The exact set half of the time; else each opener is in it or not, or it is any.
fn used_set(rng: &mut Rng, tokens: &[Token]) -> (u64, u64) {
    let mut used = crate::words::exact_set(tokens);
    match rng.below(10) {
        0..5 => used,
        5..8 => {
            for op in OPENERS.into_iter().filter(|_| rng.chance(50)) {
                used.0 ^= bit(op).0;
            }
            used
        }
        8 => (used.0 & !0b01_0101, used.1),
        _ => dress::used_set(rng, tokens),
    }
}

//! Spoiled calls, each with the answer that its damage has by document 01's table and cards 7 and 8.
//! The answer comes from where the damage was done; [`crate::refusal`] is not asked.

use super::{Rng, dress};
use crate::nesting::MOST_NESTING;
use crate::refusal::{Call, Refusal};
use crate::words::{
    Case, FIRST_HOST, LAST_HOST, LAST_OP, LAST_PLACE, MOST_TOKENS, TOKEN_WORDS, TREE_WORDS, kind,
    list_words, low, with_number, word,
};

/// What can be spoiled, by the number of its answer.
const NUMBERS: [u32; 20] = [
    1, 1, 2, 3, 4, 5, 6, 7, 17, 8, 8, 8, 9, 10, 11, 11, 11, 18, 18, 18,
];

/// What a number's check looks at, in the order of the checks: the whole call, the list's words,
/// how deep they nest.
#[derive(Copy, Clone, PartialEq, Eq, PartialOrd, Ord)]
enum Part {
    Whole,
    Word,
    Nesting,
}

/// When a number's check is made.
fn turn(number: u32) -> (Part, u32) {
    let part = match number {
        8..=11 => Part::Word,
        18 => Part::Nesting,
        _ => Part::Whole,
    };
    (part, number)
}

/// The case's call with one or two things spoiled, and the answer to it.
pub fn damaged(rng: &mut Rng, case: &Case) -> (Call, Refusal) {
    let mut call = Call::of(case);
    // More than is asked for, so that a list made longer by damage is the only fault.
    call.tree_len += 100;
    call.work_len += 400;
    let mut first: Option<Refusal> = None;
    let mut numbers = vec![*rng.pick(&NUMBERS)];
    if rng.chance(30) {
        numbers.push(*rng.pick(&NUMBERS));
    }
    // A part is spoiled once, what is checked last first: a word before the list is cut or made
    // longer, and after what it nests was put in.
    numbers.sort_unstable_by_key(|&number| std::cmp::Reverse(turn(number)));
    numbers.dedup_by_key(|number| turn(*number).0);
    for number in numbers {
        let done = match turn(number).0 {
            Part::Nesting => spoil_nesting(rng, &mut call),
            Part::Word if !call.list.is_empty() => spoil_word(rng, &mut call, number),
            Part::Word => spoil_call(rng, &mut call, 4),
            Part::Whole => spoil_call(rng, &mut call, number),
        };
        first = match first {
            Some(before) if turn(before.number) < turn(done.number) => Some(before),
            _ => Some(done),
        };
    }
    (call, first.expect("something was spoiled"))
}

fn spoil_call(rng: &mut Rng, call: &mut Call, number: u32) -> Refusal {
    let tokens = (call.list.len() / TOKEN_WORDS) as u64;
    match number {
        1 => {
            let words = 1 + rng.below(TOKEN_WORDS - 1);
            if rng.chance(50) && call.list.len() > words {
                call.list.truncate(call.list.len() - words);
            } else {
                let more: Vec<u32> = (0..words).map(|_| rng.bits() as u32).collect();
                call.list.extend(more);
            }
        }
        2 => {
            let token = match call.list.get(..TOKEN_WORDS) {
                Some(token) => token.to_vec(),
                None => vec![word(1, 61), word(2, 0), word(3, 1), word(4, 0), word(5, 0)],
            };
            while call.list.len() <= MOST_TOKENS * TOKEN_WORDS {
                call.list.extend(&token);
            }
            call.tree_len = (TREE_WORDS * (MOST_TOKENS + 1)) as u64;
            call.work_len = 64 * MOST_TOKENS as u64 + 128;
        }
        3 if tokens > 0 => call.tree_len = rng.below(TREE_WORDS * tokens as usize) as u64,
        5 => call.work_len = rng.below(64 * tokens as usize + 64) as u64,
        6 => call.used.1 |= 1 << (47 + rng.below(17)),
        7 => call.source_len = u64::from(LAST_PLACE) + 1 + (rng.bits() >> (8 + rng.below(50))),
        17 => {
            let above = MOST_NESTING + 1 + rng.below(60_000) as u32;
            call.limit = *rng.pick(&[0, MOST_NESTING + 1, above, u32::MAX]);
        }
        _ => {
            call.messages_len = rng.below(16) as u64;
            return Refusal {
                number: 4,
                place: 0,
            };
        }
    }
    Refusal { number, place: 0 }
}

/// Puts one opener more in front of the list than the limit allows, after and among others that are
/// closed again.
fn spoil_nesting(rng: &mut Rng, call: &mut Call) -> Refusal {
    const BEFORE: [&[u16]; 6] = [&[5], &[1], &[61], &[4, 5], &[2, 1], &[0, 61, 5]];
    let mut ops = Vec::new();
    for _ in 0..rng.below(4) {
        ops.extend(*rng.pick(&BEFORE));
    }
    let limit = 1 + rng.below(4);
    for open in 0..=limit {
        if rng.chance(20) {
            ops.push(61);
        }
        // A pair that goes up to the limit and no further.
        if open < limit && rng.chance(30) {
            ops.extend([4, *rng.pick(&[1, 3, 5])]);
        }
        ops.push(*rng.pick(&[0, 2, 4]));
    }
    let place = ops.len() - 1;
    let tokens = list_words(&dress::plain(&ops));
    call.list.splice(..0, tokens);
    call.tree_len += (TREE_WORDS * ops.len()) as u64;
    call.work_len += 64 * ops.len() as u64;
    call.limit = limit as u32;
    Refusal {
        number: 18,
        place: place as u32,
    }
}

fn spoil_word(rng: &mut Rng, call: &mut Call, number: u32) -> Refusal {
    let head = rng.below(call.list.len() / TOKEN_WORDS) * TOKEN_WORDS;
    let mut place = head;
    match number {
        8 => {
            place += rng.below(TOKEN_WORDS);
            let other = (kind(call.list[place]) + 1 + rng.below(7) as u32) % 8;
            call.list[place] = word(other, low(call.list[place]));
        }
        9 => {
            let below = usize::from(FIRST_HOST - LAST_OP - 1);
            let op = match rng.below(2) {
                0 => LAST_OP + 1 + rng.below(below) as u16,
                _ => LAST_HOST + 1 + rng.below(usize::from(0xFFF - LAST_HOST)) as u16,
            };
            call.list[place] = with_number(call.list[place], op);
        }
        10 => {
            let variant = 13 + rng.below(3) as u32;
            call.list[place] = call.list[place] & !0xF00 | variant << 8;
        }
        _ => {
            let variant = call.list[head] >> 8 & 0xF;
            place += *rng.pick(&[0, 3, 4]);
            let bit = match place - head {
                0 => 16 + rng.below(13),
                _ if variant == 0 => rng.below(29),
                _ => 16 + rng.below(13),
            };
            call.list[place] |= 1 << bit;
        }
    }
    Refusal {
        number,
        place: place as u32,
    }
}

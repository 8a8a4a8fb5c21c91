//! What stands around the operators of a list: payloads, spans, used set, source length, version.

use super::Rng;
use crate::words::{FULL_SET, LAST_OP, LAST_PLACE, LAST_VARIANT, Token, bit, exact_set};

/// The versions around which rules change, and the ends.
pub const VERSIONS: [i16; 16] = [
    i16::MIN,
    i16::MIN + 1,
    -2,
    -1,
    0,
    3,
    4,
    5,
    6,
    7,
    12,
    13,
    14,
    15,
    i16::MAX - 1,
    i16::MAX,
];

/// Values that a reader could spoil: signed zeros, infinities, quiet and signalling NaNs, ends.
pub const VALUES: [u32; 14] = [
    0,
    1,
    0xFFFF,
    0x1_0000,
    0x3F80_0000,
    0x7F80_0000,
    0x7F80_0001,
    0x7FC0_0000,
    0x7FFF_FFFF,
    0x8000_0000,
    0xFF80_0000,
    0xFF80_0001,
    0xFFC0_0001,
    0xFFFF_FFFF,
];

/// The payload variant that the lexer gives an operator's token.
pub fn usual_variant(op: u16) -> u8 {
    match op {
        61 => 1,
        46 => 2,
        42 => 3,
        43 => 4,
        44 => 5,
        45 => 6,
        41 => 7,
        47 => 8,
        48 => 9,
        49 => 10,
        40 => 11,
        109 | 110 => 12,
        _ => 0,
    }
}

/// The usual payloads, numbered from the left, and spans one after the other.
pub fn plain(ops: &[u16]) -> Vec<Token> {
    let token = |(place, &op): (usize, &u16)| {
        let variant = usual_variant(op);
        Token {
            op,
            variant,
            value: if variant == 0 { 0 } else { place as u32 + 1 },
            start: place as u32,
            end: place as u32 + 1,
        }
    };
    ops.iter().enumerate().map(token).collect()
}

/// How the spans of a list lie.
#[derive(Copy, Clone)]
enum Spans {
    WithGaps,
    Backwards,
    Reversed,
    Alike,
    Anywhere,
    AtTheEnd,
}

impl Spans {
    /// The span of one of so many tokens, by its index; the one before it ended at `at`.
    fn next(self, rng: &mut Rng, (place, count): (usize, usize), at: u32) -> (u32, u32) {
        let (place, length) = (place as u32, 1 + rng.below(5) as u32);
        match self {
            Self::WithGaps => {
                let start = at + rng.below(3) as u32;
                (start, start + length)
            }
            Self::Backwards => {
                let start = 3 * (count as u32 - place);
                (start, start + length)
            }
            Self::Reversed => (place + length, place),
            Self::Alike => (7, 7),
            Self::Anywhere => {
                let bound = LAST_PLACE as usize + 1;
                (rng.below(bound) as u32, rng.below(bound) as u32)
            }
            Self::AtTheEnd => (LAST_PLACE - length, LAST_PLACE),
        }
    }
}

/// Any payload and any span.
pub fn wild(rng: &mut Rng, ops: &[u16]) -> Vec<Token> {
    let spans = *rng.pick(&[
        Spans::WithGaps,
        Spans::Backwards,
        Spans::Reversed,
        Spans::Alike,
        Spans::Anywhere,
        Spans::AtTheEnd,
    ]);
    let any_variant = rng.chance(50);
    let mut at = 0;
    let mut tokens = Vec::with_capacity(ops.len());
    for (place, &op) in ops.iter().enumerate() {
        let variant = if any_variant {
            rng.below(LAST_VARIANT as usize + 1) as u8
        } else {
            usual_variant(op)
        };
        let value = match rng.below(3) {
            _ if variant == 0 => 0,
            0 => rng.bits() as u32,
            1 => *rng.pick(&VALUES),
            _ => place as u32,
        };
        let (start, end) = spans.next(rng, (place, ops.len()), at);
        at = end;
        tokens.push(Token {
            op,
            variant,
            value,
            start,
            end,
        });
    }
    tokens
}

/// The exact set half of the time, else one that is full, empty, random, or off by a few.
///
/// A set with `=` or `;` asks for a semicolon at the end of any list, so half of the full and
/// random ones come without both.
pub fn used_set(rng: &mut Rng, tokens: &[Token]) -> (u64, u64) {
    let exact = exact_set(tokens);
    let no_statements = (u64::MAX, !(bit(71).1 | bit(73).1));
    match rng.below(14) {
        0 => FULL_SET,
        1 => FULL_SET.and(no_statements),
        2 => (0, 0),
        3 => (rng.bits(), rng.bits()).and(FULL_SET),
        4 => (rng.bits(), rng.bits()).and(FULL_SET).and(no_statements),
        5 | 6 if !tokens.is_empty() => {
            let gone = bit(rng.pick(tokens).op);
            exact.and((!gone.0, !gone.1))
        }
        7 => {
            let more = bit(rng.below(LAST_OP as usize + 1) as u16);
            (exact.0 | more.0, exact.1 | more.1)
        }
        _ => exact,
    }
}

trait And {
    fn and(self, other: Self) -> Self;
}

impl And for (u64, u64) {
    fn and(self, other: Self) -> Self {
        (self.0 & other.0, self.1 & other.1)
    }
}

/// The last span end mostly, else an end of the range or anything.
pub fn source_len(rng: &mut Rng, tokens: &[Token]) -> u32 {
    match rng.below(8) {
        0 => 0,
        1 => LAST_PLACE,
        2 => rng.below(LAST_PLACE as usize + 1) as u32,
        _ => tokens.iter().map(|token| token.end).max().unwrap_or(0),
    }
}

/// 4, 5 and 6 mostly, else one of [`VERSIONS`] or any.
pub fn version(rng: &mut Rng) -> i16 {
    match rng.below(10) {
        0..=6 => 4 + rng.below(3) as i16,
        7 | 8 => *rng.pick(&VERSIONS),
        _ => rng.bits() as i16,
    }
}

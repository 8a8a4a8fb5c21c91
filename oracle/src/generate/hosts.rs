//! Hosts' own names (card 7) put into lists, in the place of any of their tokens.

use super::random::ATOMS;
use super::{Mixed, Rng};
use crate::words::{Case, FIRST_HOST, LAST_HOST, LAST_OP, exact_set};

/// The numbers beside those that no operator has, and beside a change of the upper four bits.
const ENDS: [u16; 8] = [256, 257, 511, 512, 767, 768, 1022, 1023];

/// A host's number in the stead of an operator: mostly one whose lower eight bits are that operator,
/// or another, so that a reader which looks at eight bits takes it for one.
pub fn number(rng: &mut Rng, op: u16) -> u16 {
    let upper = 256 * (1 + rng.below(3) as u16);
    match rng.below(8) {
        0..3 => upper + rng.below(LAST_OP as usize + 1) as u16,
        3 | 4 => upper + (op & 0xFF),
        5 => *rng.pick(&ENDS),
        _ => FIRST_HOST + rng.below(usize::from(LAST_HOST - FIRST_HOST) + 1) as u16,
    }
}

/// Which tokens become hosts.
#[derive(Copy, Clone)]
enum Places {
    All,
    One(usize),
    /// Each of the operands, so many times in a hundred.
    Operands(usize),
    /// Each of the tokens, so many times in a hundred.
    Any(usize),
}

impl Places {
    fn has(self, rng: &mut Rng, place: usize, op: u16) -> bool {
        match self {
            Self::All => true,
            Self::One(one) => place == one,
            Self::Operands(percent) => ATOMS.contains(&op) && rng.chance(percent),
            Self::Any(percent) => rng.chance(percent),
        }
    }
}

/// The case, which is not empty, with one host at least. Half of the used sets are made exact anew;
/// the others stay, and so have operators that the list has no more.
pub fn put_in(rng: &mut Rng, mut case: Case) -> Case {
    let one = rng.below(case.tokens.len());
    let places = match rng.below(12) {
        0 => Places::All,
        1..4 => Places::One(one),
        4..7 => Places::Operands(100),
        7..10 => Places::Operands(50),
        _ => Places::Any(25),
    };
    let mut some = false;
    for (place, token) in case.tokens.iter_mut().enumerate() {
        if places.has(rng, place, token.op) {
            token.op = number(rng, token.op);
            some = true;
        }
    }
    if !some {
        case.tokens[one].op = number(rng, case.tokens[one].op);
    }
    if rng.chance(50) {
        case.used = exact_set(&case.tokens);
    }
    case
}

/// Mixed cases without end, each with a host at least; the same for the same seed.
pub struct Hosted {
    rng: Rng,
    mixed: Mixed,
}

impl Hosted {
    /// Cases of at most `most` tokens.
    pub fn new(seed: u64, most: usize) -> Self {
        Self {
            rng: Rng::new(seed ^ 0x4057),
            mixed: Mixed::new(seed, most),
        }
    }
}

impl Iterator for Hosted {
    type Item = Case;

    fn next(&mut self) -> Option<Case> {
        let mut some = self.mixed.by_ref().filter(|case| !case.tokens.is_empty());
        let case = some.next()?;
        Some(put_in(&mut self.rng, case))
    }
}

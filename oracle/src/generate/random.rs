//! Random lists, weighted to what readers get wrong: brackets, minus runs, conditionals,
//! semicolons, arrays, members, calls.

use super::Rng;

/// What a list may go on with.
#[derive(Copy, Clone)]
enum Next {
    Atom,
    Open,
    Close,
    Minus,
    Not,
    Binary,
    Conditional,
    Semicolon,
    Array,
    Member,
    Call,
    Pointer,
    Word,
}

/// Each with its weight in every list; a list's theme counts eightfold.
const NEXT: [(Next, usize); 13] = [
    (Next::Atom, 12),
    (Next::Open, 5),
    (Next::Close, 6),
    (Next::Minus, 3),
    (Next::Not, 1),
    (Next::Binary, 6),
    (Next::Conditional, 3),
    (Next::Semicolon, 2),
    (Next::Array, 1),
    (Next::Member, 1),
    (Next::Call, 2),
    (Next::Pointer, 1),
    (Next::Word, 1),
];

pub(super) const ATOMS: [u16; 13] = [61, 61, 61, 61, 61, 43, 43, 44, 42, 46, 47, 62, 76];
const RARE_ATOMS: [u16; 9] = [48, 49, 63, 64, 65, 66, 69, 70, 77];
pub(super) const BINARY: [u16; 15] = [9, 31, 20, 50, 51, 52, 53, 54, 55, 56, 57, 58, 75, 71, 9];
pub(super) const MATHS: [u16; 8] = [8, 10, 36, 30, 39, 78, 109, 110];
const OPENERS: [u16; 6] = [4, 4, 4, 2, 0, 0];
const CLOSERS: [u16; 3] = [5, 3, 1];

fn atom(rng: &mut Rng) -> u16 {
    if rng.chance(90) {
        *rng.pick(&ATOMS)
    } else {
        *rng.pick(&RARE_ATOMS)
    }
}

/// A list in the making, and the sections that are open in it.
struct Open {
    ops: Vec<u16>,
    open: Vec<u16>,
}

impl Open {
    fn push(&mut self, op: u16) {
        self.ops.push(op);
    }

    fn open(&mut self, opener: u16) {
        self.open.push(opener);
        self.push(opener);
    }

    fn close(&mut self, rng: &mut Rng) {
        let closer = match self.open.pop() {
            Some(opener) if rng.chance(93) => opener + 1,
            _ => *rng.pick(&CLOSERS),
        };
        self.push(closer);
    }

    fn go_on(&mut self, rng: &mut Rng, next: Next) {
        match next {
            Next::Atom => self.push(atom(rng)),
            Next::Open => self.open(*rng.pick(&OPENERS)),
            Next::Close => self.close(rng),
            Next::Minus => self.ops.extend(vec![6; 1 + rng.below(3)]),
            Next::Not => self.push(7),
            Next::Binary => self.push(*rng.pick(&BINARY)),
            Next::Conditional => {
                self.push(*rng.pick(&[59, 60]));
                if rng.chance(60) {
                    self.push(atom(rng));
                }
            }
            Next::Semicolon => self.push(73),
            Next::Array => self.with_section(rng, 41, 2),
            Next::Member => {
                if rng.chance(70) {
                    self.push(*rng.pick(&[40, 42, 43, 44]));
                }
                self.ops.extend(vec![45; 1 + rng.below(2)]);
            }
            Next::Call => {
                let math = *rng.pick(&MATHS);
                let called = *rng.pick(&[40, 40, 67, 68, math]);
                self.with_section(rng, called, 4);
            }
            Next::Pointer => self.push(72),
            Next::Word => self.push(*rng.pick(&[74, 69, 70, 77, 75])),
        }
    }

    /// An operator, mostly with a section opened after it.
    fn with_section(&mut self, rng: &mut Rng, op: u16, opener: u16) {
        self.push(op);
        if rng.chance(80) {
            self.open(opener);
        }
    }
}

/// A list of about `len` operators.
pub fn weighted(rng: &mut Rng, len: usize) -> Vec<u16> {
    let mut weights = NEXT.map(|(_, weight)| weight);
    weights[rng.below(NEXT.len())] *= 8;
    let mut list = Open {
        ops: Vec::with_capacity(len + 4),
        open: Vec::new(),
    };
    while list.ops.len() < len {
        let next = NEXT[rng.weighted(&weights)].0;
        list.go_on(rng, next);
    }
    let Open { mut ops, open } = list;
    if rng.chance(75) {
        ops.extend(open.iter().rev().map(|opener| opener + 1));
    }
    if rng.chance(90) && (ops.contains(&73) || ops.contains(&71)) {
        ops.push(73);
    }
    ops
}

/// The list with one to three places changed: an operator lost, repeated, moved, replaced or new.
pub fn mutated(rng: &mut Rng, mut ops: Vec<u16>) -> Vec<u16> {
    for _ in 0..1 + rng.below(3) {
        if ops.is_empty() {
            return ops;
        }
        let place = rng.below(ops.len());
        match rng.below(5) {
            0 => {
                ops.remove(place);
            }
            1 => {
                let doubled = ops[place];
                for _ in 0..1 + rng.below(2) {
                    ops.insert(place, doubled);
                }
            }
            2 => {
                let other = rng.below(ops.len());
                ops.swap(place, other);
            }
            3 => ops[place] = any(rng),
            _ => ops.insert(place, any(rng)),
        }
    }
    ops
}

fn any(rng: &mut Rng) -> u16 {
    match rng.below(6) {
        0 => *rng.pick(&BINARY),
        1 => *rng.pick(&OPENERS),
        2 => *rng.pick(&CLOSERS),
        3 => *rng.pick(&[6, 7, 59, 60, 72, 73, 74, 45, 41, 40, 67, 36]),
        4 => atom(rng),
        _ => rng.below(111) as u16,
    }
}

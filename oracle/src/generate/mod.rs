//! Lists from a seed, of every kind that tells readers apart.
//!
//! The parts make operator lists: [`alphabets`] every list over a few operators, [`random`] lists
//! weighted to what goes wrong, [`grammar`] expressions and scripts, [`patterns`] every operator in
//! a certain place, [`shapes`] flat, deep and ladder lists of a given length. [`case`] dresses one
//! with payloads, spans, a used set, a source length and a version; [`damage`] spoils the words of a
//! case. [`Mixed`] goes through them all. [`brackets`] makes cases of its own, and [`hosts`] puts
//! hosts' own names into mixed ones.

pub mod alphabets;
pub mod brackets;
pub mod damage;
pub mod dress;
pub mod grammar;
pub mod hosts;
pub mod patterns;
pub mod random;
pub mod shapes;

use crate::words::Case;

/// A small generator of numbers (splitmix64): the same seed gives the same numbers everywhere.
#[derive(Clone, Debug)]
pub struct Rng(u64);

impl Rng {
    pub fn new(seed: u64) -> Self {
        Self(seed)
    }

    /// The next 64 bits.
    pub fn bits(&mut self) -> u64 {
        self.0 = self.0.wrapping_add(0x9E37_79B9_7F4A_7C15);
        let mut mixed = self.0;
        mixed = (mixed ^ mixed >> 30).wrapping_mul(0xBF58_476D_1CE4_E5B9);
        mixed = (mixed ^ mixed >> 27).wrapping_mul(0x94D0_49BB_1331_11EB);
        mixed ^ mixed >> 31
    }

    /// A number below `bound`, which is not 0.
    pub fn below(&mut self, bound: usize) -> usize {
        (self.bits() % bound as u64) as usize
    }

    /// True `percent` times in a hundred.
    pub fn chance(&mut self, percent: usize) -> bool {
        self.below(100) < percent
    }

    /// One of `items`, which are not none.
    pub fn pick<'a, T>(&mut self, items: &'a [T]) -> &'a T {
        &items[self.below(items.len())]
    }

    /// The index of one of `weights`, each as often as its share.
    pub fn weighted(&mut self, weights: &[usize]) -> usize {
        let mut left = self.below(weights.iter().sum());
        weights
            .iter()
            .position(|&weight| match left.checked_sub(weight) {
                Some(rest) => {
                    left = rest;
                    false
                }
                None => true,
            })
            .expect("the number is below the sum")
    }
}

/// The kinds of list that [`Mixed`] goes through, and how often of a hundred.
const KINDS: [(Kind, usize); 7] = [
    (Kind::Alphabet, 16),
    (Kind::Weighted, 18),
    (Kind::Expression, 20),
    (Kind::Script, 22),
    (Kind::Mutated, 16),
    (Kind::Shape, 6),
    (Kind::Anything, 2),
];

#[derive(Copy, Clone)]
enum Kind {
    Alphabet,
    Weighted,
    Expression,
    Script,
    Mutated,
    Shape,
    Anything,
}

/// An operator list of one of the kinds, of at most `most` tokens (at least 1).
pub fn ops(rng: &mut Rng, most: usize) -> Vec<u16> {
    let kind = KINDS[rng.weighted(&KINDS.map(|(_, weight)| weight))].0;
    let mut len = 1 + rng.below(most);
    loop {
        let mut ops = ops_of(rng, kind, len);
        if ops.len() <= most {
            return ops;
        }
        if len == 1 {
            ops.truncate(most);
            return ops;
        }
        // Shorter rather than cut off, which would leave brackets open.
        len = len.div_ceil(2);
    }
}

/// An operator list of this kind, of about `len` tokens.
fn ops_of(rng: &mut Rng, kind: Kind, len: usize) -> Vec<u16> {
    match kind {
        Kind::Alphabet => {
            let alphabet = rng.pick(&alphabets::ALPHABETS);
            let len = rng.below(len.min(9) + 1);
            let drawn = (0..len).map(|_| *rng.pick(alphabet.ops));
            let mut ops: Vec<u16> = drawn.collect();
            ops.extend(alphabet.ending);
            ops
        }
        Kind::Weighted => random::weighted(rng, len),
        Kind::Expression => grammar::expression(rng, len),
        Kind::Script => grammar::script(rng, len),
        Kind::Mutated => {
            let ops = if rng.chance(50) {
                grammar::expression(rng, len)
            } else {
                grammar::script(rng, len)
            };
            random::mutated(rng, ops)
        }
        Kind::Shape => rng.pick(&shapes::SHAPES).ops(len),
        Kind::Anything => (0..len).map(|_| rng.below(111) as u16).collect(),
    }
}

/// The case of an operator list: mostly plain payloads and spans and an exact used set, now and
/// then any of the others.
pub fn case(rng: &mut Rng, ops: &[u16]) -> Case {
    let tokens = if rng.chance(70) {
        dress::plain(ops)
    } else {
        dress::wild(rng, ops)
    };
    Case {
        used: dress::used_set(rng, &tokens),
        source_len: dress::source_len(rng, &tokens),
        version: dress::version(rng),
        tokens,
    }
}

/// Cases of all kinds without end, the same for the same seed.
pub struct Mixed {
    rng: Rng,
    most: usize,
}

impl Mixed {
    /// Cases of at most `most` tokens.
    pub fn new(seed: u64, most: usize) -> Self {
        Self {
            rng: Rng::new(seed),
            most,
        }
    }
}

impl Iterator for Mixed {
    type Item = Case;

    fn next(&mut self) -> Option<Case> {
        let ops = ops(&mut self.rng, self.most);
        Some(case(&mut self.rng, &ops))
    }
}

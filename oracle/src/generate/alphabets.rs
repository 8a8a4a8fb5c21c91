//! Every list up to a length over a few operators.

/// A few operators whose lists meet in the same passes.
pub struct Alphabet {
    pub name: &'static str,
    pub ops: &'static [u16],
    /// What every list ends with: a semicolon where the first check would turn most lists away.
    pub ending: &'static [u16],
    /// Whether what is read depends on the version.
    pub versions_differ: bool,
}

const fn alphabet(name: &'static str, ops: &'static [u16]) -> Alphabet {
    Alphabet {
        name,
        ops,
        ending: &[],
        versions_differ: false,
    }
}

const fn versioned(name: &'static str, ops: &'static [u16]) -> Alphabet {
    Alphabet {
        versions_differ: true,
        ..alphabet(name, ops)
    }
}

const fn ended(name: &'static str, ops: &'static [u16]) -> Alphabet {
    Alphabet {
        ending: &[73],
        ..alphabet(name, ops)
    }
}

pub static ALPHABETS: [Alphabet; 16] = [
    alphabet("brackets", &[61, 0, 1, 2, 3, 4, 5]),
    alphabet("minus runs", &[61, 6, 9, 7, 31]),
    alphabet("minus after anything", &[61, 6, 4, 5, 0, 1, 70, 77, 67]),
    alphabet("ranks", &[61, 20, 31, 9, 6]),
    alphabet("pointer", &[43, 72, 9, 4, 5, 36]),
    alphabet("unfolded", &[61, 9, 31, 4, 5]),
    versioned("conditionals", &[61, 59, 60, 58]),
    versioned("conditionals in brackets", &[61, 59, 60, 4, 5]),
    versioned("comparisons", &[61, 50, 51, 52, 53, 54, 55]),
    versioned("logic", &[61, 56, 57, 58, 59, 60]),
    ended("statements", &[61, 73, 71, 74, 0, 1]),
    ended("statements in calls", &[61, 73, 40, 67, 4, 5]),
    alphabet("statements without an end", &[61, 73, 71, 4, 5]),
    alphabet("calls", &[61, 40, 67, 36, 110, 4, 5, 75]),
    alphabet("arrays", &[61, 41, 2, 3, 9]),
    alphabet("members", &[61, 43, 45, 40, 4, 5]),
];

/// One operator of each kind that some pass tells from the others: for short lists of anything.
pub static ONE_OF_EACH: Alphabet = alphabet(
    "one of each",
    &[
        0, 1, 2, 3, 4, 5, 6, 7, 9, 20, 31, 36, 40, 41, 43, 45, 50, 54, 56, 57, 58, 59, 60, 61, 67,
        70, 71, 72, 73, 74, 75,
    ],
);

impl Alphabet {
    /// Every list of up to `most` operators before the ending, short ones first.
    pub fn every_list(&self, most: usize) -> impl Iterator<Item = Vec<u16>> {
        (0..=most).flat_map(|len| self.every_list_of(len))
    }

    /// Every list of `len` operators before the ending.
    pub fn every_list_of(&self, len: usize) -> impl Iterator<Item = Vec<u16>> {
        let count = self.ops.len().pow(len as u32);
        (0..count).map(move |number| {
            let mut left = number;
            let mut ops = Vec::with_capacity(len + self.ending.len());
            for _ in 0..len {
                ops.push(self.ops[left % self.ops.len()]);
                left /= self.ops.len();
            }
            ops.extend(self.ending);
            ops
        })
    }
}

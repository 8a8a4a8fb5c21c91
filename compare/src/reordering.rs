//! Export and import by the library, beside the model; and each undone by the other.

use crate::library;
use crate::stack_model::{self, Reordered};
use oracle::generate::Rng;

/// Which of the two is called.
#[derive(Copy, Clone, Debug, PartialEq, Eq)]
pub enum Way {
    Export,
    Import,
}

impl Way {
    pub const BOTH: [Self; 2] = [Self::Export, Self::Import];

    fn back(self) -> Self {
        match self {
            Self::Export => Self::Import,
            Self::Import => Self::Export,
        }
    }

    /// The library's entry.
    pub fn library(self, words: &[u32], output: &mut [u32]) -> Reordered {
        match self {
            Self::Export => library::export(words, output),
            Self::Import => library::import(words, output),
        }
    }

    /// What the model answers, and the words that come into the front of an output of `room` words.
    pub fn model(self, words: &[u32], room: usize) -> (Reordered, Vec<u32>) {
        match self {
            Self::Export => stack_model::export(words, room),
            Self::Import => stack_model::import(words, room),
        }
    }
}

/// Calls the library with an output of `room` words that stands among others; the answer, and the words that came into its front.
/// Every word of the output, and of what stands around it, is as the model says.
fn called(
    rng: &mut Rng,
    way: Way,
    words: &[u32],
    room: usize,
) -> Result<(Reordered, Vec<u32>), String> {
    let before: Vec<u32> = (0..room + 8).map(|_| rng.bits() as u32).collect();
    let (mut around, given) = (before.clone(), words.to_vec());
    let answer = way.library(&given, &mut around[4..room + 4]);
    let (wanted, front) = way.model(words, room);
    if answer != wanted {
        return Err(format!(
            "{way:?}: {answer:?} and not {wanted:?} to {words:x?}"
        ));
    }
    let after = [&before[..4], &front, &before[4 + front.len()..]].concat();
    if around != after || given != words {
        return Err(format!("{way:?}: other words after {words:x?}"));
    }
    Ok((answer, front))
}

/// Calls the library beside the model, and where words came has the other call take them back.
pub fn reorder(rng: &mut Rng, way: Way, words: &[u32], room: usize) -> Result<Reordered, String> {
    let (answer, front) = called(rng, way, words, room)?;
    if let Reordered::Nodes(_) = answer {
        let room = front.len() + rng.below(9);
        let undone = called(rng, way.back(), &front, room)?;
        if undone != (answer, words.to_vec()) {
            return Err(format!("{way:?} is not undone: {words:x?}"));
        }
    }
    Ok(answer)
}

//! A call of the write entry beside the second writer: the answer, the written words, and all others as they were, those around the lent
//! list too.

use crate::library;
use crate::writer_model::{self, Written};
use oracle::generate::Rng;

/// Writes a tree by the library and by the model, into a list of `room` words; the answer and the written tokens' words.
pub fn write(rng: &mut Rng, words: &[u32], room: usize) -> Result<(Written, Vec<u32>), String> {
    let before: Vec<u32> = (0..room + 8).map(|_| rng.bits() as u32).collect();
    let mut list = before.clone();
    let given = words.to_vec();
    let answer = library::write(&given, &mut list[4..room + 4]);
    let (wanted, front) = writer_model::write(words, room);
    let after = [&before[..4], &front, &before[4 + front.len()..]].concat();
    if answer != wanted {
        return Err(format!("{answer:?} and not {wanted:?} to write {words:x?}"));
    }
    if list != after || given != words {
        return Err(format!("other words after writing {words:x?}"));
    }
    Ok((answer, front))
}

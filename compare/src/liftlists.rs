//! What the program `liftlists` writes, from what was asked of it: the new version, and behind it a plain file of words. Each list that
//! stays as it is or is written comes out under the new version, and every other one as it stood, under its own; words before the first
//! list and bytes behind the last whole word go through. What becomes of a list is for the model of the lift to say.

use crate::lifting::{LiftCall, lifted};
use crate::listing::{bytes, refused};
use oracle::nesting::MOST_NESTING;
use oracle::words::kind;
use sorbrudder_sys::{
    Engine, LIST_BUFFER, Lot, MESSAGE_BUFFER, MOST_TOKENS, tree_buffer, work_buffer,
};

/// A list of a file: its opener, and its words.
#[derive(Clone, Debug, PartialEq, Eq)]
pub struct Opened {
    pub opener: u32,
    pub words: Vec<u32>,
}

/// What stands in an input: the word of the new version, words before the first list, the lists, and the bytes behind the last whole word.
#[derive(Clone, Debug, PartialEq, Eq)]
pub struct Input {
    pub to: u32,
    pub before: Vec<u32>,
    pub lists: Vec<Opened>,
    pub tail: Vec<u8>,
}

impl Input {
    /// Of an input's bytes; nothing if the first word is missing or is no version.
    pub fn of(input: &[u8]) -> Option<Self> {
        let (words, tail) = input.as_chunks();
        let words: Vec<u32> = words.iter().map(|word| u32::from_le_bytes(*word)).collect();
        let (&to, words) = words.split_first()?;
        version(to)?;
        let first = words.iter().position(|&word| kind(word) == 0);
        let (before, lists) = words.split_at(first.unwrap_or(words.len()));
        let lists = lists.chunk_by(|_, &next| kind(next) != 0);
        Some(Self {
            to,
            before: before.to_vec(),
            lists: lists
                .map(|list| Opened {
                    opener: list[0],
                    words: list[1..].to_vec(),
                })
                .collect(),
            tail: tail.to_vec(),
        })
    }

    /// What becomes of it.
    pub fn lifted(&self) -> Self {
        Self {
            lists: self
                .lists
                .iter()
                .map(|list| carried(self.to, list))
                .collect(),
            ..self.clone()
        }
    }

    /// The bytes of its plain file, without the new version in front.
    pub fn file(&self) -> Vec<u8> {
        let mut words = self.before.clone();
        for list in &self.lists {
            words.push(list.opener);
            words.extend(&list.words);
        }
        [bytes(&words), self.tail.clone()].concat()
    }
}

/// The version of a word of kind 0 with no bit above the lowest sixteen.
fn version(word: u32) -> Option<i16> {
    u16::try_from(word).ok().map(|version| version as i16)
}

/// What becomes of a list.
pub fn carried(to: u32, list: &Opened) -> Opened {
    let (Some(from), Some(new)) = (version(list.opener), version(to)) else {
        return list.clone();
    };
    let engine = |version| Engine {
        version,
        limit: MOST_NESTING,
    };
    // Room for every list that is not too long.
    let left = lifted(&LiftCall {
        list: list.words.clone(),
        tree_len: tree_buffer(MOST_TOKENS) as u64,
        again_len: tree_buffer(MOST_TOKENS) as u64,
        messages_len: MESSAGE_BUFFER as u64,
        work_len: work_buffer(MOST_TOKENS) as u64,
        output_len: LIST_BUFFER as u64,
        from: engine(from),
        to: engine(new),
    });
    let words = match left.lot {
        Lot::Same(_) => list.words.clone(),
        Lot::Lifted(_) => left.output,
        Lot::Messages(_) | Lot::Refused(..) | Lot::Behind(..) | Lot::Unwritten(..) => {
            return list.clone();
        }
    };
    Opened { opener: to, words }
}

/// What is written for an input.
pub fn written(input: &[u8]) -> Vec<u8> {
    match Input::of(input) {
        Some(input) => input.lifted().file(),
        None => refused(8, 0).into_bytes(),
    }
}

//! What several tests use: numbers from a seed, and the lists that the generator left in vectors/.
#![allow(dead_code)] // Each test uses its part.

pub mod command;

use std::path::Path;

/// Numbers from a seed (splitmix64).
pub struct Rng(pub u64);

impl Rng {
    pub fn bits(&mut self) -> u64 {
        self.0 = self.0.wrapping_add(0x9E37_79B9_7F4A_7C15);
        let mut mixed = self.0;
        mixed = (mixed ^ (mixed >> 30)).wrapping_mul(0xBF58_476D_1CE4_E5B9);
        mixed = (mixed ^ (mixed >> 27)).wrapping_mul(0x94D0_49BB_1331_11EB);
        mixed ^ (mixed >> 31)
    }

    pub fn below(&mut self, bound: usize) -> usize {
        (self.bits() % bound as u64) as usize
    }
}

/// The numbers of vectors/vectors.bin, as vectors/README.md describes them.
pub struct Bytes<'b>(pub &'b [u8]);

impl Bytes<'_> {
    pub fn byte(&mut self) -> u8 {
        let (first, rest) = self.0.split_first().expect("the file is whole");
        self.0 = rest;
        *first
    }

    pub fn number(&mut self) -> u64 {
        let (mut number, mut shift) = (0, 0);
        loop {
            let byte = self.byte();
            number |= u64::from(byte & 0x7F) << shift;
            shift += 7;
            if byte < 0x80 {
                return number;
            }
        }
    }

    pub fn words(&mut self, len: u64, kinds: u64) -> Vec<u32> {
        let word = |place| self.number() as u32 ^ ((place % kinds + 1) << 29) as u32;
        (0..len).map(word).collect()
    }
}

/// The bytes of vectors/vectors.bin after its head.
pub fn vectors() -> Vec<u8> {
    let path = Path::new(env!("CARGO_MANIFEST_DIR")).join("../vectors/vectors.bin");
    std::fs::read(path).expect("vectors/vectors.bin")[12..].to_vec()
}

/// The bit of a record's first byte that says that a nesting limit is kept.
pub const LIMITED: u8 = 1 << 6;

/// The bits of it that say which used set there is; 0 where it is kept.
pub const USED: u8 = 3 << 4;

/// The words of a kept tree's node, which are those of the Rust's answer.
pub const KEPT_NODE_WORDS: u64 = 6;

/// The list's words of every kept call.
pub fn kept_lists() -> Vec<Vec<u32>> {
    let file = vectors();
    let mut bytes = Bytes(&file);
    let mut lists = Vec::new();
    while !bytes.0.is_empty() {
        let head = bytes.byte();
        let len = bytes.number();
        lists.push(bytes.words(len, 5));
        // The used set where it is kept, the source length, the version, and the limit where it is kept.
        let numbers = if head & USED == 0 { 3 } else { 1 };
        (0..numbers).for_each(|_| _ = bytes.number());
        (0..2).for_each(|_| _ = bytes.byte());
        (0..u8::from(head & LIMITED != 0)).for_each(|_| _ = bytes.number());
        let rest = match head & 3 {
            0 => KEPT_NODE_WORDS * bytes.number(),
            1 => 8 * bytes.number(),
            _ => 5,
        };
        (0..rest).for_each(|_| _ = bytes.number());
    }
    lists
}

//! Random inputs of `liftcount`: lists of every kind that tells versions apart, some of them spoiled, behind openers with any low bits; now
//! and then without whole versions, or with bytes over.

use crate::liftcount::MOST_TOKENS;
use crate::listing::{bytes, version_word};
use oracle::generate::hosts::Hosted;
use oracle::generate::{Mixed, Rng, brackets, dress, grammar};
use oracle::words::{TOKEN_WORDS, list_words, word};

/// Inputs without end, the same for the same seed.
pub struct Archives {
    rng: Rng,
    mixed: Mixed,
    long: Mixed,
    hosted: Hosted,
}

impl Archives {
    pub fn new(seed: u64) -> Self {
        Self {
            rng: Rng::new(seed ^ 0x11F7),
            mixed: Mixed::new(seed, 24),
            long: Mixed::new(seed, MOST_TOKENS),
            hosted: Hosted::new(seed, 24),
        }
    }

    /// The words of a list that is not refused.
    fn list(&mut self) -> Vec<u32> {
        let case = match self.rng.below(40) {
            0 => return Vec::new(),
            1 => self.long.next(),
            2..10 => self.mixed.next(),
            10..14 => self.hosted.next(),
            14..17 => Some(brackets::case(&mut self.rng, 16)),
            17..25 => return self.between_operands(),
            _ => return self.expression(),
        };
        let mut tokens = case.expect("cases without end").tokens;
        tokens.truncate(MOST_TOKENS);
        list_words(&tokens)
    }

    /// The words of an expression, which is mostly a tree.
    fn expression(&mut self) -> Vec<u32> {
        let rng = &mut self.rng;
        let size = 1 + rng.below(30);
        let ops = grammar::expression(rng, size);
        let tokens = match rng.chance(80) {
            true => dress::plain(&ops),
            false => dress::wild(rng, &ops),
        };
        list_words(&tokens)
    }

    /// The words of operands with an operator between every two, mostly one whose rank depends on the version.
    fn between_operands(&mut self) -> Vec<u32> {
        let rng = &mut self.rng;
        let mut ops = vec![61];
        for _ in 0..rng.below(8) {
            let between = match rng.chance(60) {
                true => *rng.pick(&[59, 60, 59, 60, 56, 57, 53, 54]),
                false => *rng.pick(&[50, 51, 52, 55, 58, 9, 31, 75]),
            };
            ops.extend([between, *rng.pick(&[61, 43, 300])]);
        }
        list_words(&dress::plain(&ops))
    }

    /// Two versions, mostly two of 4, 5 and 6.
    fn versions(&mut self) -> [u32; 2] {
        let rng = &mut self.rng;
        let versions = match rng.chance(70) {
            true => *rng.pick(&[[4, 5], [4, 6], [5, 6], [5, 4], [6, 4], [6, 5]]),
            false => [dress::version(rng), dress::version(rng)],
        };
        versions.map(version_word)
    }

    /// A word of kind 0, mostly with any low bits.
    fn opener(&mut self) -> u32 {
        let low = self.rng.bits() as u32 >> 3;
        match self.rng.below(10) {
            0 => 0,
            1 => low & 0xFFFF,
            2 => 0x1FFF_FFFF,
            _ => low,
        }
    }

    fn words(&mut self) -> Vec<u32> {
        let mut words = self.versions().to_vec();
        let lists = match self.rng.below(100) {
            0..4 => 0,
            4..20 => 1,
            20..99 => 1 + self.rng.below(14),
            _ => 200 + self.rng.below(300),
        };
        let spoiled = match self.rng.below(10) {
            0 | 1 => 1,
            2 => 2,
            _ => 0,
        };
        let spoiled: Vec<usize> = (0..spoiled).map(|_| self.rng.below(lists.max(1))).collect();
        for number in 0..lists {
            let mut list = self.list();
            if spoiled.contains(&number) {
                spoil(&mut self.rng, &mut list);
            }
            words.push(self.opener());
            words.extend(list);
        }
        words
    }
}

/// Something wrong with a list: a word, its length, or a word of kind 0, which makes two of it.
fn spoil(rng: &mut Rng, list: &mut Vec<u32>) {
    let any = |rng: &mut Rng| rng.bits() as u32;
    if list.is_empty() {
        list.extend([word(1, 61), word(2, 0), word(3, 1), word(4, 0), word(5, 0)]);
    }
    let place = rng.below(list.len());
    let head = place - place % TOKEN_WORDS;
    match rng.below(9) {
        0 => list[place] = any(rng),
        1 => list[place] ^= word(1 + rng.below(7) as u32, 0),
        2 => list[place] = any(rng) >> 3,
        3 => list[place] ^= 1 << rng.below(29),
        4 => list[head] = word(1, any(rng) & 0xFFFF),
        5 => list.truncate(place),
        6 => list.extend((0..1 + rng.below(9)).map(|_| word(1, 61))),
        7 => {
            let token = list[..TOKEN_WORDS].to_vec();
            let tokens = MOST_TOKENS + 1 + rng.below(4);
            list.extend(token.repeat(tokens - list.len() / TOKEN_WORDS));
        }
        _ => list.insert(place, any(rng) >> 3),
    }
}

impl Iterator for Archives {
    type Item = Vec<u8>;

    fn next(&mut self) -> Option<Vec<u8>> {
        let mut words = self.words();
        let rng = &mut self.rng;
        match rng.below(50) {
            0 => words.truncate(rng.below(3)),
            1 => words[rng.below(2)] |= 1 << (16 + rng.below(16)),
            2 if words.len() > 2 => words[2] |= word(1 + rng.below(7) as u32, 0),
            _ => {}
        }
        let mut bytes = bytes(&words);
        if rng.chance(6) {
            let over = rng.bits().to_le_bytes();
            bytes.extend(&over[..1 + rng.below(3)]);
        }
        Some(bytes)
    }
}

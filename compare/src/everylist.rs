//! What the program `everylist` prints (card 9), written from the card alone: what an input asks, where it is turned back, and every list of
//! an alphabet with what the Rust answers to it.

use crate::listing::{by_the_rust, bytes, refused, text, tokens, version_word, words_in};
use oracle::words::{LAST_OP, is_host};

/// The most letters of an alphabet, and the greatest length.
pub const MOST_LETTERS: usize = 8;
pub const MOST_LENGTH: u16 = 6;

/// What an input asks, whether it is turned back or not.
#[derive(Clone, Debug, PartialEq, Eq)]
pub struct Asked {
    pub version: i16,
    pub length: u16,
    pub letters: Vec<u16>,
}

impl Asked {
    pub fn new(version: i16, length: u16, letters: &[u16]) -> Self {
        let letters = letters.to_vec();
        Self {
            version,
            length,
            letters,
        }
    }

    /// What the bytes of an input ask, or the number of the refusal where they are no words of kind 0 with bits 0-15 used, or too few.
    pub fn of(input: &[u8]) -> Result<Self, u32> {
        let words = words_in(input).ok_or(1_u32)?;
        let numbers = words.into_iter().map(u16::try_from);
        let numbers: Vec<u16> = numbers.collect::<Result<_, _>>().map_err(|_| 8_u32)?;
        match &numbers[..] {
            [version, length, letters @ ..] => Ok(Self::new(*version as i16, *length, letters)),
            _ => Err(8),
        }
    }

    /// The words of the input.
    pub fn words(&self) -> Vec<u32> {
        let mut words = vec![version_word(self.version), u32::from(self.length)];
        words.extend(self.letters.iter().copied().map(u32::from));
        words
    }

    /// The bytes of the input.
    pub fn input(&self) -> Vec<u8> {
        bytes(&self.words())
    }

    /// Answer 19 or 20.
    pub fn refusal(&self) -> Option<u32> {
        let letters = &self.letters;
        let some = (1..=MOST_LETTERS).contains(&letters.len());
        let legal = letters.iter().all(|&op| op <= LAST_OP || is_host(op));
        if !some || !legal || repeats(letters) {
            return Some(19);
        }
        (self.length > MOST_LENGTH).then_some(20)
    }

    /// The lists that it asks for.
    pub fn lists(&self) -> Vec<Vec<u16>> {
        every_list(&self.letters, self.length)
    }

    /// What is printed where it is not turned back.
    pub fn printed(&self) -> String {
        let lists = self.lists();
        let texts = lists.iter().map(|list| list_text(list, self.version));
        texts.collect()
    }
}

/// Whether a letter occurs twice.
fn repeats(letters: &[u16]) -> bool {
    let mut before = letters.iter().enumerate();
    before.any(|(place, letter)| letters[..place].contains(letter))
}

/// Every list of up to `most` letters, short ones first, then by the letters' places from the left: each list of one letter fewer with each
/// letter behind it.
pub fn every_list(letters: &[u16], most: u16) -> Vec<Vec<u16>> {
    let mut lists = vec![Vec::new()];
    let mut shorter = 0..1;
    for _ in 0..most {
        let from = lists.len();
        for list in shorter {
            for letter in letters {
                let longer = [&lists[list][..], &[*letter]].concat();
                lists.push(longer);
            }
        }
        shorter = from..lists.len();
    }
    lists
}

/// The line of a list.
pub fn head(list: &[u16]) -> String {
    let letters: String = list.iter().map(|op| format!(" {op}")).collect();
    format!("list{letters}\n")
}

/// What is printed of a list at a version.
pub fn list_text(list: &[u16], version: i16) -> String {
    head(list) + &text(&by_the_rust(tokens(list), version))
}

/// What is printed for an input.
pub fn printed(input: &[u8]) -> String {
    match Asked::of(input) {
        Err(number) => refused(number, 0),
        Ok(asked) => match asked.refusal() {
            Some(number) => refused(number, 0),
            None => asked.printed(),
        },
    }
}

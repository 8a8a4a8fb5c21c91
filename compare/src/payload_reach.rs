//! How far one name can reach (card 6), over the words alone: what a reading or a writing leaves of two lists or two trees that differ in
//! one payload and in nothing else. Nothing here reads or writes, and no token is followed to its node: buffers are laid beside each other.

use crate::writer_model::Written;
use oracle::generate::{Rng, dress};
use oracle::words::{LAST_VARIANT, NODE_WORDS, TOKEN_WORDS, Token, kind};

/// Words of a message record: number, span start, span end, and then its arguments.
const RECORD_WORDS: usize = 8;
const FIRST_ARGUMENT: usize = 3;

/// What a token or a node carries: a variant and a value, which is 0 under variant 0.
#[derive(Copy, Clone, Debug, PartialEq, Eq)]
pub struct Payload {
    variant: u8,
    value: u32,
}

impl Payload {
    /// No payload: a name that is blanked.
    pub const BLANK: Self = Self {
        variant: 0,
        value: 0,
    };

    /// The variant with the value, or without it under variant 0.
    pub fn new(variant: u8, value: u32) -> Self {
        let value = if variant == 0 { 0 } else { value };
        Self { variant, value }
    }

    pub fn of(token: &Token) -> Self {
        Self::new(token.variant, token.value)
    }

    /// Another payload: blanked, with another value or one bit of it changed, of another variant, or all of it another.
    pub fn other(self, rng: &mut Rng) -> Self {
        loop {
            let variant = match rng.below(5) {
                0 => 0,
                1 => self.variant,
                2 | 3 => LAST_VARIANT,
                _ => rng.below(usize::from(LAST_VARIANT) + 1) as u8,
            };
            let value = match rng.below(4) {
                0 => self.value,
                1 => self.value ^ 1 << rng.below(32),
                2 => *rng.pick(&dress::VALUES),
                _ => rng.bits() as u32,
            };
            let other = Self::new(variant, value);
            if other != self {
                return other;
            }
        }
    }

    /// The payload of the token or node `item`, each of `width` words.
    pub fn in_words(width: usize, words: &[u32], item: usize) -> Self {
        Self::of(&token_in(width, words, item))
    }

    /// Puts the payload into the token or node `item`, each of `width` words.
    pub fn put(self, width: usize, words: &mut [u32], item: usize) {
        let token = Token {
            variant: self.variant,
            value: self.value,
            ..token_in(width, words, item)
        };
        words[width * item..][..TOKEN_WORDS].copy_from_slice(&token.words());
    }
}

/// The token in the words of accepted tokens or nodes.
pub fn token_in(width: usize, words: &[u32], item: usize) -> Token {
    Token::of_words(&words[width * item..][..TOKEN_WORDS]).expect("the words are accepted")
}

/// The bits of a word that hold a payload: its variant in a word of kind 1, a half of its value in words of kinds 4 and 5.
fn payload_bits(word: u32) -> u32 {
    match kind(word) {
        1 => 0xF00,
        4 | 5 => 0xFFFF,
        _ => 0,
    }
}

/// The places at which two buffers of one length differ.
fn places(one: &[u32], other: &[u32]) -> Result<Vec<usize>, String> {
    if one.len() != other.len() {
        return Err(format!("{} words and {}", one.len(), other.len()));
    }
    let pairs = one.iter().zip(other).enumerate();
    let differ = pairs.filter(|(_, (one, other))| one != other);
    Ok(differ.map(|(place, _)| place).collect())
}

/// The one token or node in which two word lists differ, of `width` words each and among the first `items`, or none where all words are
/// equal. It differs in payload bits only, and what it carries is a payload in both.
pub fn payload_apart(
    width: usize,
    items: usize,
    one: &[u32],
    other: &[u32],
) -> Result<Option<usize>, String> {
    let mut apart = None;
    for place in places(one, other)? {
        let item = place / width;
        let (is, was) = (other[place], one[place]);
        if item >= items {
            return Err(format!("word {place} differs behind the {items} filled"));
        }
        if (is ^ was) & !payload_bits(was) != 0 {
            return Err(format!(
                "word {place} is {was:#x} and {is:#x}, other than in its payload"
            ));
        }
        if let Some(first) = apart.replace(item).filter(|first| *first != item) {
            return Err(format!("payloads {first} and {item} differ"));
        }
    }
    for words in [one, other] {
        let token = apart.map(|item| &words[width * item..][..TOKEN_WORDS]);
        if let Some(token) = token.filter(|token| Token::of_words(token).is_none()) {
            return Err(format!("{token:x?} carry no payload"));
        }
    }
    Ok(apart)
}

/// The one word in which two message buffers differ, an argument in one of the first `records`, or none where all words are equal.
pub fn argument_apart(records: usize, one: &[u32], other: &[u32]) -> Result<Option<usize>, String> {
    let places = places(one, other)?;
    let is_argument =
        |place: usize| place < RECORD_WORDS * records && place % RECORD_WORDS >= FIRST_ARGUMENT;
    match places[..] {
        [] => Ok(None),
        [place] if is_argument(place) => Ok(Some(place)),
        [place] => Err(format!("word {place} differs and is no argument")),
        _ => Err(format!("the words {places:?} differ")),
    }
}

/// What a reading of an accepted list leaves: the nodes of a tree that it tells of, or the message records, and all that it was lent.
#[derive(Clone, Debug, PartialEq, Eq)]
pub struct Left {
    pub nodes: usize,
    pub records: usize,
    pub tree: Vec<u32>,
    pub messages: Vec<u32>,
    pub work: Vec<u32>,
    /// None where no rule buffer was lent.
    pub rules: Vec<u8>,
}

/// What a payload reached: the node of the tree, or the word of the messages, that differs, if one does.
#[derive(Copy, Clone, Debug, PartialEq, Eq)]
pub enum Reach {
    Tree(Option<usize>),
    Messages(Option<usize>),
}

/// What the payload reached in which the lists of two readings differ, or how it reached too far.
pub fn reach(one: &Left, other: &Left) -> Result<Reach, String> {
    let answers = [one, other].map(|left| (left.nodes, left.records));
    if answers[0] != answers[1] {
        let [one, other] =
            answers.map(|(nodes, records)| format!("{nodes} nodes, {records} messages"));
        return Err(format!("{one}; with the other payload {other}"));
    }
    let of = |part: &'static str| move |why: String| format!("{part}: {why}");
    let node = payload_apart(NODE_WORDS, one.nodes, &one.tree, &other.tree).map_err(of("tree"))?;
    let argument =
        argument_apart(one.records, &one.messages, &other.messages).map_err(of("messages"))?;
    if one.work != other.work {
        return Err("the work buffers differ".to_string());
    }
    if one.rules != other.rules {
        return Err("the rule bytes differ".to_string());
    }
    Ok(match one.records {
        0 => Reach::Tree(node),
        _ => Reach::Messages(argument),
    })
}

/// What a writing leaves: the answer, and all words of the lent list.
#[derive(Clone, Debug, PartialEq, Eq)]
pub struct WriteLeft {
    pub answer: Written,
    pub list: Vec<u32>,
}

/// The token that the payload reached in which the trees of two writings differ, if one, or how it reached too far. A call that is turned
/// back leaves the same words.
pub fn write_reach(one: &WriteLeft, other: &WriteLeft) -> Result<Option<usize>, String> {
    if one.answer != other.answer {
        let (one, other) = (one.answer, other.answer);
        return Err(format!("{one:?}; with the other payload {other:?}"));
    }
    let tokens = match one.answer {
        Written::Tokens(tokens) => tokens,
        Written::Refused(..) => 0,
    };
    let apart = payload_apart(TOKEN_WORDS, tokens, &one.list, &other.list);
    apart.map_err(|why| format!("written list: {why}"))
}

#[cfg(test)]
mod tests {
    use super::*;
    use crate::plain_trees::bare;
    use oracle::words::{TreeNode, list_words, tree_words, word};

    const NAME: Payload = Payload {
        variant: 4,
        value: 0x0001_0002,
    };

    /// What a reading leaves of a tree, with two words behind it.
    fn tree(nodes: &[TreeNode]) -> Left {
        Left {
            nodes: nodes.len(),
            records: 0,
            tree: [tree_words(nodes), vec![7, word(1, 61)]].concat(),
            messages: vec![5; 16],
            work: vec![0; 64],
            rules: vec![11, 0, 8, 0, 99],
        }
    }

    /// What a reading leaves of two messages.
    fn messages() -> Left {
        let mut left = tree(&[]);
        left.records = 2;
        left
    }

    /// Puts the name into nodes of the tree.
    fn name(left: &mut Left, nodes: [usize; 2]) {
        for node in nodes {
            NAME.put(NODE_WORDS, &mut left.tree, node);
        }
    }

    /// What is found where the second reading is changed.
    fn changed(left: Left, change: impl FnOnce(&mut Left)) -> Result<Reach, String> {
        let mut other = left.clone();
        change(&mut other);
        reach(&left, &other)
    }

    #[test]
    fn payload_bits_are_the_variant_and_both_halves_of_the_value() {
        let words = |payload: Payload| {
            let mut words = list_words(&[bare(61, 0).token]);
            payload.put(TOKEN_WORDS, &mut words, 0);
            words
        };
        let full = words(Payload::new(12, u32::MAX));
        for (place, given) in full.iter().enumerate() {
            for bit in 0..32 {
                let mut other = full.clone();
                other[place] = given ^ 1 << bit;
                // Of the variants a bit from 12, only 8 and 4 are legal ones.
                let is_payload = match place {
                    0 => matches!(bit, 10 | 11),
                    3 | 4 => bit < 16,
                    _ => false,
                };
                let apart = payload_apart(TOKEN_WORDS, 1, &full, &other);
                assert_eq!(apart.ok(), is_payload.then_some(Some(0)), "{place}, {bit}");
            }
        }
        // Under variant 0 the value is 0.
        let blank = words(Payload::BLANK);
        assert_eq!(payload_apart(TOKEN_WORDS, 1, &full, &blank), Ok(Some(0)));
        let mut kept = blank.clone();
        kept[4] = full[4];
        assert!(payload_apart(TOKEN_WORDS, 1, &full, &kept).is_err());
        assert!(payload_apart(TOKEN_WORDS, 1, &full, &full[..4]).is_err());
    }

    #[test]
    fn one_node_and_there_the_payload_only() {
        let sum = [bare(9, 2), bare(61, 0), bare(6, 1), bare(61, 0)];
        assert_eq!(changed(tree(&sum), |_| {}), Ok(Reach::Tree(None)));
        for place in 0..4 {
            let reached = changed(tree(&sum), |left| name(left, [place; 2]));
            assert_eq!(reached, Ok(Reach::Tree(Some(place))));
        }
        let slips: [fn(&mut Left); 10] = [
            // The node that is made keeps the payload.
            |left| name(left, [0, 2]),
            // The root has the payload of the first token, which is its first operand.
            |left| name(left, [0, 1]),
            // Another operator, span, child count or closing place.
            |left| left.tree[0] ^= 1,
            |left| left.tree[8] ^= 4,
            |left| left.tree[5] ^= 1,
            |left| left.tree[6] ^= 1,
            // A word behind the tree, a message word, a work word, a rule.
            |left| left.tree[28] ^= 1,
            |left| left.messages[4] ^= 1,
            |left| left.work[3] = 1,
            |left| left.rules[2] = 0,
        ];
        for (number, slip) in slips.into_iter().enumerate() {
            assert!(changed(tree(&sum), slip).is_err(), "slip {number}");
        }
        // Words behind the nodes hold no payload, even where they look like a token's.
        let mut behind = tree(&sum);
        behind.tree.extend(bare(61, 0).token.words());
        assert!(changed(behind, |left| left.tree[30] ^= 0x400).is_err());
        // A tree of other length, and messages in its place.
        assert!(changed(tree(&sum), |left| left.nodes = 3).is_err());
        assert!(changed(tree(&sum), |left| (left.nodes, left.records) = (0, 1)).is_err());
    }

    #[test]
    fn one_argument_of_the_records_that_are_told() {
        assert_eq!(changed(messages(), |_| {}), Ok(Reach::Messages(None)));
        for place in 0..16 {
            let reached = changed(messages(), |left| left.messages[place] ^= 9);
            let is_argument = !matches!(place, 0..3 | 8..11);
            let wanted = is_argument.then_some(Reach::Messages(Some(place)));
            assert_eq!(reached.ok(), wanted, "{place}");
        }
        // The value told twice, in one record and in both.
        for second in [5, 12] {
            let twice = |left: &mut Left| {
                left.messages[4] ^= 9;
                left.messages[second] ^= 9;
            };
            assert!(changed(messages(), twice).is_err());
        }
        let mut one = messages();
        one.records = 1;
        assert!(changed(one, |left| left.messages[12] ^= 9).is_err());
    }

    #[test]
    fn one_token_of_the_written_list() {
        let tokens: Vec<Token> = [4, 61, 5].map(|op| bare(op, 0).token).into();
        let left = |answer| WriteLeft {
            answer,
            list: [list_words(&tokens), vec![3; 5]].concat(),
        };
        let (written, refused) = (left(Written::Tokens(3)), left(Written::Refused(13, 0)));
        let with = |left: &WriteLeft, tokens: &[usize]| {
            let mut other = left.clone();
            for &token in tokens {
                NAME.put(TOKEN_WORDS, &mut other.list, token);
            }
            write_reach(left, &other)
        };
        assert_eq!(with(&written, &[]), Ok(None));
        assert_eq!(with(&refused, &[]), Ok(None));
        assert_eq!(with(&written, &[1]), Ok(Some(1)));
        // The closer keeps its opener's payload; a call that is turned back writes.
        assert!(with(&written, &[0, 2]).is_err());
        assert!(with(&refused, &[0]).is_err());
        assert!(write_reach(&written, &refused).is_err());
        assert!(write_reach(&refused, &left(Written::Refused(13, 1))).is_err());
    }

    #[test]
    fn another_payload_is_another_and_sound() {
        let mut rng = Rng::new(6);
        let (mut blank, mut same_variant, mut same_value) = (0, 0, 0);
        for _ in 0..10_000 {
            let given = Payload::new(rng.below(13) as u8, rng.bits() as u32);
            let other = given.other(&mut rng);
            assert_ne!(given, other);
            let mut words = list_words(&[bare(61, 0).token]);
            other.put(TOKEN_WORDS, &mut words, 0);
            assert_eq!(Payload::in_words(TOKEN_WORDS, &words, 0), other);
            blank += u32::from(other == Payload::BLANK);
            same_variant += u32::from(other.variant == given.variant);
            same_value += u32::from(other.value == given.value);
        }
        assert!(blank > 1_000 && same_variant > 1_000 && same_value > 1_000);
    }
}

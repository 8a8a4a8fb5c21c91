//! The word format of document 01: tokens, tree nodes and message records.
//!
//! A word has 32 bits, the top three its kind. A token is five words, of kinds 1 to 5: operator
//! and payload variant, span start, span end, and the two halves of the payload value. A tree node
//! is a token, a word of kind 6 with the number of its children, and a word of kind 7 with where it
//! closes (card 2). The Rust has no such word: its nodes are [`RustNode`]s, and `closing` finds it.
//!
//! In the word of kind 1 bits 0-7 are the operator number's lower eight bits, bits 8-11 the payload
//! variant, bits 12-15 the number's upper four (card 7). The Rust has no numbers for the hosts' own
//! names; `hosts` puts 76 in their stead.

/// Words of a token.
pub const TOKEN_WORDS: usize = 5;
/// Words of a tree node.
pub const NODE_WORDS: usize = 7;
/// Words of the tree buffer for each token of the list: three nodes.
pub const TREE_WORDS: usize = 3 * NODE_WORDS;
/// The largest operator number of op.rs.
pub const LAST_OP: u16 = 110;
/// The smallest and the largest number that a host's own name has (card 7).
pub const FIRST_HOST: u16 = 256;
pub const LAST_HOST: u16 = 1023;
/// The largest payload variant.
pub const LAST_VARIANT: u8 = 12;
/// The largest span bound and source length.
pub const LAST_PLACE: u32 = (1 << 29) - 1;
/// The most tokens of a list.
pub const MOST_TOKENS: usize = 4096;

const KIND: u32 = 29;
const LOW: u32 = (1 << KIND) - 1;

/// A token: what a list is made of, and a node's own part.
#[derive(Copy, Clone, Debug, Default, PartialEq, Eq, Hash)]
pub struct Token {
    /// Operator number of op.rs, 0 to 110, or a host's own, 256 to 1,023.
    pub op: u16,
    /// Payload variant in the order of `Payload` in ast.rs, 0 to 12.
    pub variant: u8,
    /// Float bits, or an index into the caller's names; 0 under variant 0.
    pub value: u32,
    /// Span start, below 2^29.
    pub start: u32,
    /// Span end, below 2^29; may be less than the start.
    pub end: u32,
}

/// A node of a tree in preorder, as the Rust has it.
#[derive(Copy, Clone, Debug, PartialEq, Eq, Hash)]
pub struct RustNode {
    pub token: Token,
    /// How many children follow.
    pub children: u32,
}

/// A node of a tree in preorder.
#[derive(Copy, Clone, Debug, PartialEq, Eq, Hash)]
pub struct TreeNode {
    pub token: Token,
    /// How many children follow.
    pub children: u32,
    /// Where it closes, below 2^29: the end of a section's closer, else its own end.
    pub close: u32,
}

/// A message: number, span start, span end and five arguments.
pub type Record = [u32; 8];

/// What is asked: a list, a used set in two halves, a source length and a raw version.
#[derive(Clone, Debug, PartialEq, Eq, Hash)]
pub struct Case {
    pub tokens: Vec<Token>,
    /// Operator 0 is the lowest bit of the first half.
    pub used: (u64, u64),
    pub source_len: u32,
    pub version: i16,
}

impl Case {
    /// The list with its exact used set, and a source of one byte a token.
    pub fn exact(tokens: Vec<Token>, version: i16) -> Self {
        Self {
            used: exact_set(&tokens),
            source_len: tokens.len() as u32,
            version,
            tokens,
        }
    }
}

/// What the Rust answers.
#[derive(Clone, Debug, PartialEq, Eq, Hash)]
pub enum Answer {
    /// The tree's nodes in preorder.
    Tree(Vec<RustNode>),
    /// One or two records.
    Messages(Vec<Record>),
}

impl Answer {
    /// The tree's nodes in preorder; none for messages.
    pub fn nodes(&self) -> &[RustNode] {
        match self {
            Self::Tree(nodes) => nodes,
            Self::Messages(_) => &[],
        }
    }

    /// The message records; none for a tree.
    pub fn records(&self) -> &[Record] {
        match self {
            Self::Tree(_) => &[],
            Self::Messages(records) => records,
        }
    }
}

/// A word of this kind.
pub const fn word(kind: u32, low: u32) -> u32 {
    kind << KIND | low
}

/// A word's kind.
pub const fn kind(word: u32) -> u32 {
    word >> KIND
}

/// A word's bits below its kind.
pub const fn low(word: u32) -> u32 {
    word & LOW
}

/// Whether a number is a host's own.
pub const fn is_host(op: u16) -> bool {
    FIRST_HOST <= op && op <= LAST_HOST
}

/// The operator number in a word of kind 1, whether it is one's or not: twelve bits.
pub const fn number_in(word: u32) -> u16 {
    (word & 0xFF | word >> 4 & 0xF00) as u16
}

/// A word of kind 1 with another operator number, of twelve bits.
pub const fn with_number(word: u32, op: u16) -> u32 {
    let (lower, upper) = (op as u32 & 0xFF, op as u32 >> 8);
    word & !0xF0FF | lower | upper << 12
}

impl Token {
    /// The token's five words.
    pub fn words(&self) -> [u32; TOKEN_WORDS] {
        [
            with_number(word(1, u32::from(self.variant) << 8), self.op),
            word(2, self.start),
            word(3, self.end),
            word(4, self.value >> 16),
            word(5, self.value & 0xFFFF),
        ]
    }

    /// The token of these words; `None` where one of answers 8 to 11 would be given.
    pub fn of_words(words: &[u32]) -> Option<Self> {
        let &[head, start, end, upper, lower] = words else {
            return None;
        };
        let token = Self {
            op: number_in(head),
            variant: (low(head) >> 8 & 0xF) as u8,
            value: low(upper) << 16 | low(lower),
            start: low(start),
            end: low(end),
        };
        let known = token.op <= LAST_OP || is_host(token.op);
        let carries = token.variant <= LAST_VARIANT && (token.variant != 0 || token.value == 0);
        (known && carries && token.words() == words).then_some(token)
    }
}

/// The words of a list.
pub fn list_words(tokens: &[Token]) -> Vec<u32> {
    tokens.iter().flat_map(Token::words).collect()
}

/// The tokens of a list's words.
pub fn decode_list(words: &[u32]) -> Option<Vec<Token>> {
    words.chunks(TOKEN_WORDS).map(Token::of_words).collect()
}

/// The words of a tree.
pub fn tree_words(nodes: &[TreeNode]) -> Vec<u32> {
    let mut words = Vec::with_capacity(nodes.len() * NODE_WORDS);
    for node in nodes {
        words.extend(node.token.words());
        words.push(word(6, node.children));
        words.push(word(7, node.close));
    }
    words
}

/// The nodes of words that are exactly one tree, parent first.
pub fn decode_tree(words: &[u32]) -> Option<Vec<TreeNode>> {
    let mut nodes = Vec::with_capacity(words.len() / NODE_WORDS);
    let mut awaited = 1;
    for words in words.chunks(NODE_WORDS) {
        let (token, &[count, close]) = words.split_at_checked(TOKEN_WORDS)? else {
            return None;
        };
        let token = Token::of_words(token)?;
        let sound = kind(count) == 6 && low(count) < 1 << 14 && kind(close) == 7;
        if !sound || awaited == 0 {
            return None;
        }
        awaited = awaited - 1 + low(count);
        nodes.push(TreeNode {
            token,
            children: low(count),
            close: low(close),
        });
    }
    (awaited == 0).then_some(nodes)
}

/// How many levels a tree has, 1 for a leaf; none where the nodes are not exactly one tree.
pub fn depth(nodes: &[RustNode]) -> Option<usize> {
    let mut awaited: Vec<u32> = Vec::new();
    let mut deepest = 0;
    for (place, node) in nodes.iter().enumerate() {
        if awaited.is_empty() && place > 0 {
            return None;
        }
        deepest = deepest.max(awaited.len() + 1);
        awaited.push(node.children);
        while awaited.last() == Some(&0) {
            awaited.pop();
            if let Some(parent) = awaited.last_mut() {
                *parent -= 1;
            }
        }
    }
    (deepest > 0 && awaited.is_empty()).then_some(deepest)
}

/// The bit of an operator in a used set; a host's number has none.
pub fn bit(op: u16) -> (u64, u64) {
    match op {
        0..64 => (1 << op, 0),
        64..=LAST_OP => (0, 1 << (op - 64)),
        _ => (0, 0),
    }
}

/// Whether a used set has an operator.
pub fn has(used: (u64, u64), op: u16) -> bool {
    let bit = bit(op);
    used.0 & bit.0 != 0 || used.1 & bit.1 != 0
}

/// The used set with each operator of the tokens and no other; hosts are passed over.
pub fn exact_set(tokens: &[Token]) -> (u64, u64) {
    tokens.iter().fold((0, 0), |used, token| {
        let bit = bit(token.op);
        (used.0 | bit.0, used.1 | bit.1)
    })
}

/// The used set of all 111 operators.
pub const FULL_SET: (u64, u64) = (u64::MAX, (1 << 47) - 1);

#[cfg(test)]
mod tests {
    use super::*;

    fn node(op: u16, children: u32) -> TreeNode {
        let token = Token {
            op,
            variant: 12,
            value: 0xFFFE_0001,
            start: LAST_PLACE,
            end: 0,
        };
        TreeNode {
            token,
            children,
            close: LAST_PLACE,
        }
    }

    #[test]
    fn a_token_is_its_five_words() {
        let token = node(110, 0).token;
        let words = [
            0x2000_0C6E,
            0x5FFF_FFFF,
            0x6000_0000,
            0x8000_FFFE,
            0xA000_0001,
        ];
        assert_eq!(token.words(), words);
        assert_eq!(Token::of_words(&words), Some(token));
        assert_eq!(Token::of_words(&words[..4]), None);
    }

    #[test]
    fn a_number_stands_in_two_parts_round_the_variant() {
        let of = |op| node(op, 0).token.words()[0];
        assert_eq!(of(256), 0x2000_1C00);
        assert_eq!(of(0x3A5), 0x2000_3CA5);
        assert_eq!(of(1023), 0x2000_3CFF);
        for op in 0..=0xFFF {
            let token = node(op, 0).token;
            assert_eq!(number_in(token.words()[0]), op);
            assert_eq!(with_number(of(61), op), of(op));
            assert_eq!(with_number(of(op), 61), of(61));
            let legal = matches!(op, 0..=110 | 256..=1023);
            assert_eq!(Token::of_words(&token.words()), legal.then_some(token));
        }
    }

    #[test]
    fn a_tree_is_exactly_as_many_nodes_as_its_counts_say() {
        let nodes = [node(9, 2), node(61, 0), node(6, 1), node(61, 0)];
        let words = tree_words(&nodes);
        assert_eq!(words[5..NODE_WORDS], [0xC000_0002, 0xFFFF_FFFF]);
        assert_eq!(decode_tree(&words), Some(nodes.to_vec()));
        for len in 0..words.len() {
            assert_eq!(decode_tree(&words[..len]), None, "cut to {len} words");
        }
        let two = [&words[..], &words[..]].concat();
        assert_eq!(decode_tree(&two), None);
    }

    #[test]
    fn a_seventh_word_is_of_kind_7_and_holds_any_value() {
        let sound = tree_words(&[node(61, 0)]);
        for bit in 0..32 {
            let mut words = sound.clone();
            words[6] ^= 1 << bit;
            let close = decode_tree(&words).map(|nodes| nodes[0].close);
            let wanted = (bit < KIND).then_some(LAST_PLACE ^ (1 << bit));
            assert_eq!(close, wanted, "bit {bit}");
        }
    }

    #[test]
    fn a_used_set_has_operator_0_lowest_and_110_highest() {
        assert_eq!(bit(0), (1, 0));
        assert_eq!(bit(63), (1 << 63, 0));
        assert_eq!(bit(64), (0, 1));
        assert!((0..=LAST_OP).all(|op| has(FULL_SET, op) && has(bit(op), op)));
        let all: Vec<Token> = (0..=LAST_OP).map(|op| node(op, 0).token).collect();
        assert_eq!(exact_set(&all), FULL_SET);
        let hosts: Vec<Token> = (FIRST_HOST..=LAST_HOST)
            .map(|op| node(op, 0).token)
            .collect();
        assert_eq!(exact_set(&hosts), (0, 0));
        assert!((FIRST_HOST..=LAST_HOST).all(|op| !has(FULL_SET, op)));
    }
}

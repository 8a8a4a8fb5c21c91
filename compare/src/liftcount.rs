//! What the program `liftcount` prints (card 10), written from the card alone: where an input is turned back, and what each of its lists
//! comes to at the two versions, by the Rust.

use crate::listing::{own_case, refused, words_in};
use oracle::nesting::MOST_NESTING;
use oracle::refusal::{Call, refusal};
use oracle::words::{TOKEN_WORDS, TreeNode, decode_list, kind};

/// The most tokens of a list, as of one of `treelist`.
pub const MOST_TOKENS: usize = 128;

/// The number and the place of a refusal.
pub type Refusal = (u32, usize);

/// What a list comes to at two versions.
#[derive(Copy, Clone, Debug, PartialEq, Eq)]
pub enum Verdict {
    /// The same tree, every word equal.
    Same,
    /// Different trees.
    Different,
    /// A message at one version only.
    One,
    /// A message at both.
    Both,
}

/// The five counts.
#[derive(Copy, Clone, Debug, Default, PartialEq, Eq)]
pub struct Counts {
    pub read: u64,
    pub same: u64,
    pub different: u64,
    pub one: u64,
    pub both: u64,
}

impl Counts {
    pub fn of(verdicts: impl IntoIterator<Item = Verdict>) -> Self {
        let mut counts = Self::default();
        for verdict in verdicts {
            counts.read += 1;
            *match verdict {
                Verdict::Same => &mut counts.same,
                Verdict::Different => &mut counts.different,
                Verdict::One => &mut counts.one,
                Verdict::Both => &mut counts.both,
            } += 1;
        }
        counts
    }

    /// Both together.
    pub fn plus(&self, other: &Self) -> Self {
        Self {
            read: self.read + other.read,
            same: self.same + other.same,
            different: self.different + other.different,
            one: self.one + other.one,
            both: self.both + other.both,
        }
    }

    /// One number a line.
    pub fn lines(&self) -> String {
        let Self {
            read,
            same,
            different,
            one,
            both,
        } = self;
        format!("{read}\n{same}\n{different}\n{one}\n{both}\n")
    }
}

/// What stands in an input: two versions, and the words of each list.
#[derive(Clone, Debug, PartialEq, Eq)]
pub struct Lists {
    pub from: i16,
    pub to: i16,
    pub lists: Vec<Vec<u32>>,
}

impl Lists {
    /// The lists of an input's bytes, whether they are refused or not; or a refusal that the bytes and the first three words bring.
    pub fn of(input: &[u8]) -> Result<Self, Refusal> {
        let words = words_in(input).ok_or((1, 0))?;
        let [from, to, words @ ..] = &words[..] else {
            return Err((8, 0));
        };
        let (Ok(from), Ok(to)) = (u16::try_from(*from), u16::try_from(*to)) else {
            return Err((8, 0));
        };
        // Before the first opener there is no word.
        let mut lists = words.split(|word| kind(*word) == 0);
        match lists.next() {
            Some([]) => Ok(Self {
                from: from as i16,
                to: to as i16,
                lists: lists.map(<[u32]>::to_vec).collect(),
            }),
            _ => Err((8, 0)),
        }
    }

    /// The refusal of the first list that is refused, or what each list comes to.
    pub fn verdicts(&self) -> Result<Vec<Verdict>, Refusal> {
        if let Some(refused) = self.lists.iter().find_map(|list| list_refusal(list)) {
            return Err(refused);
        }
        let verdicts = self.lists.iter();
        let verdicts = verdicts.map(|list| verdict(list, self.from, self.to));
        Ok(verdicts.collect())
    }
}

/// What turns a list back, as `treelist` says it: places count from the word after the opener.
pub fn list_refusal(list: &[u32]) -> Option<Refusal> {
    let whole = list.len().is_multiple_of(TOKEN_WORDS);
    if whole && list.len() > MOST_TOKENS * TOKEN_WORDS {
        return Some((2, 0));
    }
    let refused = refusal(&Call {
        list: list.to_vec(),
        tree_len: u64::MAX,
        messages_len: 16,
        work_len: u64::MAX,
        used: (0, 0),
        source_len: 0,
        version: 0,
        limit: MOST_NESTING,
    });
    refused.map(|refused| (refused.number, refused.place as usize))
}

/// The tree that a version makes of a list that is not refused, or none where it has messages.
pub fn tree(list: &[u32], version: i16) -> Option<Vec<TreeNode>> {
    let tokens = decode_list(list).expect("the list is not refused");
    let tree = oracle::tree_if_at_hand(&own_case(tokens, version));
    tree.expect("the Rust is at hand")
}

/// What a list that is not refused comes to.
pub fn verdict(list: &[u32], from: i16, to: i16) -> Verdict {
    judged(tree(list, from), tree(list, to), |one, other| one == other)
}

/// What two readings come to, by when two trees are the same.
pub fn judged(
    one: Option<Vec<TreeNode>>,
    other: Option<Vec<TreeNode>>,
    are_same: impl Fn(&[TreeNode], &[TreeNode]) -> bool,
) -> Verdict {
    match (one, other) {
        (Some(one), Some(other)) if are_same(&one, &other) => Verdict::Same,
        (Some(_), Some(_)) => Verdict::Different,
        (None, None) => Verdict::Both,
        _ => Verdict::One,
    }
}

/// What is printed for an input.
pub fn printed(input: &[u8]) -> String {
    match Lists::of(input).and_then(|lists| lists.verdicts()) {
        Ok(verdicts) => Counts::of(verdicts).lines(),
        Err((number, place)) => refused(number, place),
    }
}

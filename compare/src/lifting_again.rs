//! Written lists lifted further (card 12): a list is read at any version with each operator of its tokens and no other, and its tree is
//! written again. After every lift the words are the same; and under a limit that the list is above it is turned back, where card 8's
//! count says so.

use crate::library::Read;
use crate::reading::{Buffers, Expected};
use crate::writer_model::{Tree, Written};
use crate::writing;
use oracle::generate::Rng;
use oracle::nesting::{MOST_NESTING, least_limit, too_deep};
use oracle::refusal::Call;
use oracle::words::{Case, Token, TreeNode, decode_list, decode_tree, exact_set};

/// How often a written list is lifted further.
pub const LIFTS: usize = 3;

/// What reads lists and writes trees, as the library does.
pub trait Studio {
    /// Reads a list, and holds what that leaves to what is expected; the words of its tree, or none where it has none.
    fn read(&mut self, call: &Call, expected: &Expected) -> Result<Option<Vec<u32>>, String>;
    /// Writes a tree into a list of `room` words; the answer, and the words of the tokens that are written.
    fn write(&mut self, tree: &[u32], room: usize) -> Result<(Written, Vec<u32>), String>;
}

/// The library, which is judged in each call; it writes beside the second writer.
pub struct Library {
    buffers: Buffers,
    rng: Rng,
}

impl Studio for Library {
    fn read(&mut self, call: &Call, expected: &Expected) -> Result<Option<Vec<u32>>, String> {
        match self.buffers.call(call, expected)? {
            Read::Tree(nodes) => Ok(Some(self.buffers.tree(nodes).to_vec())),
            _ => Ok(None),
        }
    }

    fn write(&mut self, tree: &[u32], room: usize) -> Result<(Written, Vec<u32>), String> {
        writing::write(&mut self.rng, tree, room)
    }
}

impl Library {
    /// Buffers with words from a seed.
    pub fn new(seed: u64) -> Self {
        Self {
            buffers: Buffers::default(),
            rng: Rng::new(seed),
        }
    }
}

/// How many lists were lifted further, and what became of them.
#[derive(Copy, Clone, Debug, Default)]
pub struct Tally {
    /// Written lists, each of which was lifted three times more.
    pub lists: u64,
    /// Those of trees in which a node closes elsewhere than at its end that is no bracket.
    pub unsettled: u64,
    /// How often one was turned back under a limit that it is above.
    pub too_deep: u64,
}

/// A studio whose lists are lifted further, at versions and limits from a seed.
pub struct Lifting<S> {
    pub studio: S,
    rng: Rng,
    pub tally: Tally,
}

impl Lifting<Library> {
    /// The library's.
    pub fn new(seed: u64) -> Self {
        Self::by(Library::new(seed), seed ^ 0x11F7)
    }
}

impl<S: Studio> Lifting<S> {
    /// Any studio's.
    pub fn by(studio: S, seed: u64) -> Self {
        Self {
            studio,
            rng: Rng::new(seed),
            tally: Tally::default(),
        }
    }

    /// Writes a tree into a list of `room` words, and lifts what is written three times more; the first answer, or a difference.
    pub fn tree(&mut self, words: &[u32], room: usize) -> Result<Written, String> {
        let (answer, list) = self.studio.write(words, room)?;
        if let Written::Refused(..) = answer {
            return Ok(answer);
        }
        let nodes = decode_tree(words).ok_or("the tree's words are no tree")?;
        let settled = settled(&nodes);
        self.tally.lists += 1;
        self.tally.unsettled += u64::from(settled != nodes);
        let compared = Tree::of(&settled).compared();
        let tokens = decode_list(&list).ok_or("the written words are no list")?;
        // Each lift gives the list again, so the next one begins with what the one before wrote.
        for _ in 0..LIFTS {
            let case = self.case(&tokens);
            let second = self.read(&case, &compared)?;
            if self.studio.write(&second, list.len())? != (answer, list.clone()) {
                return Err(format!("another list after the written {case:?}"));
            }
        }
        Ok(answer)
    }

    /// A written list as it is read again, at any version and with any source length.
    fn case(&mut self, tokens: &[Token]) -> Case {
        let rng = &mut self.rng;
        Case {
            used: exact_set(tokens),
            source_len: rng.below(1 << 29) as u32,
            version: if rng.chance(20) {
                rng.bits() as i16
            } else {
                rng.below(12) as i16
            },
            tokens: tokens.to_vec(),
        }
    }

    /// The words of the tree that a written list is read as under a limit that it is within, which agrees with the first tree.
    /// Under a limit that it is above, the greatest of these or any, it is turned back.
    fn read(&mut self, case: &Case, first: &[TreeNode]) -> Result<Vec<u32>, String> {
        let least = least_limit(&case.tokens);
        if least > 1 {
            let any = 1 + self.rng.below(least as usize - 1) as u32;
            let limit = *self.rng.pick(&[least - 1, any]);
            let ops = case.tokens.iter().map(|token| token.op);
            let token = too_deep(ops, limit).ok_or("no list is above its least limit")?;
            let call = Call::of(case).at_limit(limit);
            self.studio.read(&call, &Expected::Refused(18, token))?;
            self.tally.too_deep += 1;
        }
        let limit = *self.rng.pick(&[least, least, MOST_NESTING]);
        let call = Call::of(case).at_limit(limit);
        let words = self.studio.read(&call, &Expected::Something)?;
        let words = words.ok_or_else(|| format!("messages to the written {case:?}"))?;
        let nodes = decode_tree(&words).ok_or("the second tree's words are no tree")?;
        if Tree::of(&nodes).compared() != first {
            return Err(format!("another tree of the written {case:?}"));
        }
        Ok(words)
    }
}

/// The tree in which every node that is no bracket closes at its own end, as in every tree that is read.
fn settled(nodes: &[TreeNode]) -> Vec<TreeNode> {
    let settle = |node: &TreeNode| match node.token.op {
        4 => *node,
        _ => TreeNode {
            close: node.token.end,
            ..*node
        },
    };
    nodes.iter().map(settle).collect()
}

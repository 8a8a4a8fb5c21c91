//! Texts of the grammar read by the Rust and by the library, each held to the tree that the grammar gives: six words of a node by the
//! Rust, which has no seventh, and all seven by the library.

use crate::grammar::{Spelled, drawn};
use crate::reading::{Buffers, Expected};
use crate::smallest::shown;
use oracle::generate::Rng;
use oracle::refusal::Call;
use oracle::words::{Answer, LAST_OP, RustNode, TreeNode, tree_words};

/// The versions around which the grammar changes, where a million texts each are drawn.
pub const VERSIONS: [i16; 3] = [4, 5, 6];
/// Versions around them and at the ends.
pub const OTHERS: [i16; 9] = [i16::MIN, -1, 0, 3, 7, 12, 13, 14, i16::MAX];

/// Texts drawn one after the other, and what they were made of.
pub struct Texts {
    rng: Rng,
    buffers: Buffers,
    pub texts: u64,
    pub nodes: u64,
    /// How many texts have a node of each operator.
    pub with: [u64; LAST_OP as usize + 1],
}

impl Texts {
    pub fn new(seed: u64) -> Self {
        Self {
            rng: Rng::new(seed ^ 0x6EA3),
            buffers: Buffers::default(),
            texts: 0,
            nodes: 0,
            with: [0; LAST_OP as usize + 1],
        }
    }

    /// Draws a text at a version and has it read; the smallest text found that is read otherwise, if this one is.
    pub fn one(&mut self, version: i16) -> Result<(), String> {
        let size = match self.rng.below(1_000) {
            0 => 1 + self.rng.below(2_000),
            1..20 => 1 + self.rng.below(200),
            _ => 1 + self.rng.below(24),
        };
        let spelled = drawn(&mut self.rng, version, size);
        self.count(&spelled);
        held(&mut self.buffers, &spelled).map_err(|why| self.least(version, why))
    }

    fn count(&mut self, spelled: &Spelled) {
        self.texts += 1;
        self.nodes += spelled.tree.len() as u64;
        let mut met = [false; LAST_OP as usize + 1];
        for node in &spelled.tree {
            if let Some(met) = met.get_mut(node.token.op as usize) {
                *met = true;
            }
        }
        for (count, met) in self.with.iter_mut().zip(met) {
            *count += u64::from(met);
        }
    }

    /// What differs on the smallest text among many that are drawn small, else on the one at hand.
    fn least(&mut self, version: i16, why: String) -> String {
        let mut least: Option<(usize, String)> = None;
        for _ in 0..200_000 {
            let size = 1 + self.rng.below(8);
            let spelled = drawn(&mut self.rng, version, size);
            let len = spelled.case.tokens.len();
            if least.as_ref().is_some_and(|(least, _)| *least <= len) {
                continue;
            }
            if let Err(why) = held(&mut self.buffers, &spelled) {
                least = Some((len, why));
            }
        }
        least.map_or(why, |(_, why)| why)
    }
}

/// Has the Rust and the library read a text; how one of them reads it otherwise.
pub fn held(buffers: &mut Buffers, spelled: &Spelled) -> Result<(), String> {
    let Spelled { case, tree } = spelled;
    let call = Call::of(case);
    if let Some(answer) = oracle::answer_if_at_hand(case) {
        let wanted = Answer::Tree(tree.iter().map(without_close).collect());
        if answer != wanted {
            return Err(format!(
                "the Rust answers {answer:?} and the grammar says {wanted:?}\n{}",
                shown(&call)
            ));
        }
    }
    let wanted = Expected::Tree(tree_words(tree));
    let read = buffers.call(&call, &wanted);
    read.map(drop)
        .map_err(|why| format!("the library: {why}\n{}", shown(&call)))
}

fn without_close(node: &TreeNode) -> RustNode {
    RustNode {
        token: node.token,
        children: node.children,
    }
}

//! A list read, written, and the written list lifted further at three versions, all by the library, beside the second writer.

use crate::lifting_again::{Lifting, Studio};
use crate::plain_trees;
use crate::reading::Expected;
use crate::writer_model::{self, Tree, Written};
use oracle::generate::hosts::Hosted;
use oracle::generate::{Mixed, Rng};
use oracle::refusal::Call;
use oracle::words::{Case, NODE_WORDS, Token, TreeNode, bit, exact_set};

/// What became of a list.
#[derive(Copy, Clone, Debug, PartialEq, Eq)]
pub enum Reread {
    /// It is no tree.
    Messages,
    /// Its tree is turned back by the writer.
    Refused,
    /// It was written, and what was written lifted further.
    Again,
}

/// Lists whose trees are often plain: one in five generated, half of these with hosts; the others written from a plain tree
/// and without some of its brackets, so that the versions read them differently.
pub struct Lists {
    rng: Rng,
    mixed: Mixed,
    hosted: Hosted,
    /// Whether the trees are scripts, and not expressions.
    scripts: bool,
}

impl Lists {
    /// Lists of expressions.
    pub fn new(seed: u64) -> Self {
        Self {
            rng: Rng::new(seed),
            mixed: Mixed::new(seed, 24),
            hosted: Hosted::new(seed, 24),
            scripts: false,
        }
    }

    /// Lists of statements.
    pub fn scripts(seed: u64) -> Self {
        Self {
            scripts: true,
            ..Self::new(seed)
        }
    }

    fn nodes(&mut self) -> Vec<TreeNode> {
        let long = self.rng.chance(2);
        if self.scripts {
            let statements = 1 + self.rng.below(if long { 60 } else { 4 });
            return plain_trees::script(&mut self.rng, statements, 10);
        }
        let size = 1 + self.rng.below(if long { 300 } else { 20 });
        plain_trees::plain(&mut self.rng, size)
    }

    /// The tokens of a plain tree, written, without some of its brackets.
    fn unbracketed(&mut self) -> Vec<Token> {
        let nodes = self.nodes();
        let lost = self.rng.below(100);
        let list = Tree::of(&nodes).written();
        let mut stays = vec![true; list.len()];
        let mut open = Vec::new();
        for (place, token) in list.iter().enumerate() {
            match token.op {
                4 => open.push(place),
                5 => {
                    let opener = open.pop().expect("written brackets match");
                    let called = opener > 0 && writer_model::is_call(list[opener - 1].op);
                    let stay = called || !self.rng.chance(lost);
                    (stays[opener], stays[place]) = (stay, stay);
                }
                _ => {}
            }
        }
        let kept = list.into_iter().zip(stays).filter(|(_, stays)| *stays);
        kept.map(|(token, _)| token).collect()
    }
}

impl Iterator for Lists {
    type Item = Case;

    fn next(&mut self) -> Option<Case> {
        if self.rng.chance(10) {
            return self.mixed.next();
        }
        if self.rng.chance(11) {
            return self.hosted.next();
        }
        let tokens = self.unbracketed();
        let mut used = exact_set(&tokens);
        if self.rng.chance(5) {
            let other = bit(self.rng.below(111) as u16);
            used = (used.0 ^ other.0, used.1 ^ other.1);
        }
        Some(Case {
            used,
            source_len: 9,
            version: self.rng.below(18) as i16 - 2,
            tokens,
        })
    }
}

/// Reads, writes, and lifts what is written further; what became of the list, or a difference.
pub fn reread(lifting: &mut Lifting<impl Studio>, case: &Case) -> Result<Reread, String> {
    let call = Call::of(case);
    let Some(words) = lifting.studio.read(&call, &Expected::Something)? else {
        return Ok(Reread::Messages);
    };
    let room = 5 * (4 * words.len() / NODE_WORDS).min(writer_model::MOST_TOKENS);
    match lifting.tree(&words, room)? {
        Written::Tokens(_) => Ok(Reread::Again),
        Written::Refused(..) => Ok(Reread::Refused),
    }
}

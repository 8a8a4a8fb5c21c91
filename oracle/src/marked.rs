//! The Rust with a mark in each node (card 5), for `rules`. `build.rs` changes copies of the tree and
//! pass files: a node has one more field, and behind each pass [`mark`] is called with the pass's
//! number. The passes carry the marks along and do not look at them.

use crate::words::{Case, RustNode};
use compile::ast::Node;

pub(crate) mod compile {
    include!(concat!(env!("OUT_DIR"), "/marked/compile.rs"));
    pub(crate) use cx::{Cx, Failed, Pass, preorder, root};
}

/// Each node that has children and no mark yet gets this one.
pub(crate) fn mark(list: &mut [Node], rule: u8) {
    let mut left: Vec<&mut Node> = list.iter_mut().collect();
    while let Some(node) = left.pop() {
        if node.rule == 0 && !node.children.is_empty() {
            node.rule = rule;
        }
        left.extend(node.children.iter_mut());
    }
}

/// The marks of a tree in tree order, 0 for a leaf.
fn marks(root: &Node) -> Vec<u8> {
    let mut marks = Vec::new();
    let mut left = vec![root];
    while let Some(node) = left.pop() {
        marks.push(if node.children.is_empty() {
            0
        } else {
            node.rule
        });
        left.extend(node.children.iter().rev());
    }
    marks
}

/// The nodes of the tree that the Rust makes of a case, and their marks; none where it has messages.
pub(crate) fn tree(case: &Case) -> Option<(Vec<RustNode>, Vec<u8>)> {
    let root = compile::root(case).ok()?;
    Some((compile::preorder(&root), marks(&root)))
}

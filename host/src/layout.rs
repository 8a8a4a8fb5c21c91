//! Where things stand in a tree's words, and the walks over them that need no more than the words.

use crate::token::{LOW, number_in};
use crate::{Op, Token};
use sorbrudder_sys::{MOST_NODES, NODE_WORDS};

/// The words of a node: its token's, the word of kind 6 with the number of its children, and the word of kind 7 with where it closes.
pub(crate) fn node_words(token: Token, children: usize, close: u32) -> [u32; NODE_WORDS] {
    let mut words = [0; NODE_WORDS];
    words[..Token::WORDS].copy_from_slice(&token.words());
    // A count that has no room in its word is too many for any tree.
    words[Token::WORDS] = 6 << 29 | children.min(LOW as usize) as u32;
    // A word of kind 0 stands for a close that has no room in its word; no tree has it.
    words[Token::WORDS + 1] = if close <= LOW { 7 << 29 | close } else { 0 };
    words
}

/// How many children a node's words say it has.
pub(crate) fn children(node: &[u32]) -> usize {
    (node[Token::WORDS] & LOW) as usize
}

/// Where a node's words say it closes.
pub(crate) fn close(node: &[u32]) -> u32 {
    node[Token::WORDS + 1] & LOW
}

/// The operator that a node's words name; of a tree's words it is one.
pub(crate) fn op(node: &[u32]) -> Option<Op> {
    Op::new(number_in(node[0]))
}

/// The nodes of a tree's words.
pub(crate) fn nodes(words: &[u32]) -> std::slice::ChunksExact<'_, u32> {
    words.chunks_exact(NODE_WORDS)
}

/// The number after the last descendant of this node.
pub(crate) fn end_of(words: &[u32], number: usize) -> usize {
    let mut end = number;
    let mut missing = 1;
    for node in nodes(&words[number * NODE_WORDS..]) {
        end += 1;
        missing += children(node);
        missing -= 1;
        if missing == 0 {
            break;
        }
    }
    end
}

/// What a node and all nodes below it cover of the source, and the number after the last of them.
#[derive(Copy, Clone)]
pub(crate) struct Extent {
    pub start: u32,
    pub end: u32,
    pub last: usize,
}

/// The extents of all nodes of a tree's words.
pub(crate) fn extents(words: &[u32]) -> Vec<Extent> {
    let mut extents: Vec<Extent> = nodes(words)
        .enumerate()
        .map(|(number, node)| Extent {
            start: node[1] & LOW,
            end: (node[2] & LOW).max(close(node)),
            last: number + 1,
        })
        .collect();
    // The children of a node come after it, so from the back they are complete when it is met.
    for (number, node) in nodes(words).enumerate().rev() {
        let mut whole = extents[number];
        for _ in 0..children(node) {
            let child = extents[whole.last];
            whole.start = whole.start.min(child.start);
            whole.end = whole.end.max(child.end);
            whole.last = child.last;
        }
        extents[number] = whole;
    }
    extents
}

/// The number of the node above this one; none above the root.
pub(crate) fn parent_of(words: &[u32], number: usize) -> Option<usize> {
    // Going back, a node takes up as many of the nodes that have no parent yet as it has children.
    let mut orphans = 1;
    for above in (0..number).rev() {
        let children = children(&words[above * NODE_WORDS..]);
        if children >= orphans {
            return Some(above);
        }
        orphans = orphans - children + 1;
    }
    None
}

/// How many levels the nodes of a tree's words have; of other words some number, found in their first 12,288 nodes. `open` is a list to
/// work in.
pub(crate) fn depth_of(words: &[u32], open: &mut Vec<usize>) -> usize {
    open.clear();
    let mut depth = 0;
    for node in nodes(words).take(MOST_NODES) {
        depth = depth.max(open.len() + 1);
        open.push(children(node));
        while open.last() == Some(&0) {
            open.pop();
            if let Some(left) = open.last_mut() {
                *left = left.saturating_sub(1);
            }
        }
    }
    depth
}

/// The words of a tree without the brackets that only group: each with exactly one child whose parent is neither a query nor a math call.
pub(crate) fn without_brackets(words: &[u32]) -> Vec<u32> {
    let mut kept = Vec::with_capacity(words.len());
    // For each node whose children are still coming: whether it is a call, and how many come.
    let mut open: Vec<(bool, usize)> = Vec::new();
    for node in nodes(words) {
        let (op, count) = (op(node), children(node));
        let in_call = open.last().is_some_and(|(is_call, _)| *is_call);
        if op != Some(Op::LEFT_PARENTHESIS) || count != 1 || in_call {
            kept.extend_from_slice(node);
        }
        open.push((op.is_some_and(Op::is_call), count));
        while let Some((_, 0)) = open.last() {
            open.pop();
            if let Some((_, left)) = open.last_mut() {
                *left -= 1;
            }
        }
    }
    kept
}

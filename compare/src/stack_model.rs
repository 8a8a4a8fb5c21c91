//! Stack order, export and import, from card 14's sentences. Trees are nested nodes: where parents come first they are taken off the
//! front of the words, in stack order off the back, and they are written by going through their children. Nothing here follows the
//! library, which makes no tree, nor the definition, which takes stack order from the front. Answer 24 asks of a prefix of the words
//! whether any tree goes on from it.

use crate::writer_model::{MOST_NODES, completed, is_node, longest_beginning, shape_fault};
use oracle::words::{NODE_WORDS, TOKEN_WORDS, low};

/// What export and import answer.
#[derive(Copy, Clone, Debug, PartialEq, Eq)]
pub enum Reordered {
    /// So many nodes fill the output's front.
    Nodes(usize),
    /// An answer's number and its place.
    Refused(u32, usize),
}

/// A node's words, and the trees below it in order.
struct Tree<'w> {
    node: &'w [u32; NODE_WORDS],
    below: Vec<Tree<'w>>,
}

fn children(node: &[u32; NODE_WORDS]) -> usize {
    low(node[TOKEN_WORDS]) as usize
}

impl<'w> Tree<'w> {
    /// The first tree of words in which parents come first, and the words after it.
    fn first(words: &'w [u32]) -> Option<(Self, &'w [u32])> {
        let (node, mut rest) = words.split_first_chunk()?;
        let mut below = Vec::new();
        for _ in 0..children(node) {
            let (child, after) = Self::first(rest)?;
            below.push(child);
            rest = after;
        }
        Some((Self { node, below }, rest))
    }

    /// The last tree of words in stack order, and the words before it.
    fn last(words: &'w [u32]) -> Option<(Self, &'w [u32])> {
        let (mut rest, node) = words.split_last_chunk()?;
        let mut below = Vec::new();
        for _ in 0..children(node) {
            let (child, before) = Self::last(rest)?;
            below.push(child);
            rest = before;
        }
        below.reverse();
        Some((Self { node, below }, rest))
    }

    fn put_parents_first(&self, words: &mut Vec<u32>) {
        words.extend(self.node);
        self.below
            .iter()
            .for_each(|child| child.put_parents_first(words));
    }

    fn put_parents_last(&self, words: &mut Vec<u32>) {
        self.below
            .iter()
            .for_each(|child| child.put_parents_last(words));
        words.extend(self.node);
    }
}

/// How many trees the nodes in stack order are; none where a node is none, or has more children than trees come before it.
fn count_trees(nodes: &[u32]) -> Option<usize> {
    if !nodes.chunks(NODE_WORDS).all(is_node) {
        return None;
    }
    let (mut rest, mut trees) = (nodes, 0);
    while !rest.is_empty() {
        rest = Tree::last(rest)?.1;
        trees += 1;
    }
    Some(trees)
}

/// Whether some tree of at most `most` nodes begins with these words in stack order.
fn begins_a_stack(words: &[u32], most: usize) -> bool {
    let (nodes, cut) = words.split_at(words.len() - words.len() % NODE_WORDS);
    let mut nodes = nodes.to_vec();
    if !cut.is_empty() {
        // A node whose count has not come may still take all trees before it.
        let Some(before) = count_trees(&nodes) else {
            return false;
        };
        nodes.extend(completed(cut, before));
    }
    // One more node takes all trees where they are several; where there is none it is a leaf.
    let joins = |trees| usize::from(trees != 1);
    count_trees(&nodes).is_some_and(|trees| nodes.len() / NODE_WORDS + joins(trees) <= most)
}

/// The first word that cannot continue a tree of at most `most` nodes in stack order, or the word count where they run out; none
/// where the words are one tree.
pub fn stack_fault(words: &[u32], most: usize) -> Option<usize> {
    let place = longest_beginning(words, |words| begins_a_stack(words, most));
    let is_one = words.len().is_multiple_of(NODE_WORDS) && count_trees(words) == Some(1);
    (place < words.len() || !is_one).then_some(place)
}

/// The answer where the words' shape is refused or not, and the words that come into the front of an output of `room` words.
fn answered(
    words: &[u32],
    room: usize,
    refused: Option<(u32, usize)>,
    reordered: impl FnOnce() -> Vec<u32>,
) -> (Reordered, Vec<u32>) {
    let short = (room < words.len()).then_some((25, 0));
    match refused.or(short) {
        Some((number, place)) => (Reordered::Refused(number, place), Vec::new()),
        None => (Reordered::Nodes(words.len() / NODE_WORDS), reordered()),
    }
}

/// What export answers, and the words that it puts in front of an output of `room` words.
pub fn export(words: &[u32], room: usize) -> (Reordered, Vec<u32>) {
    let refused = shape_fault(words).map(|place| (12, place));
    answered(words, room, refused, || {
        let mut stack = Vec::new();
        let (tree, _) = Tree::first(words).expect("the words are one tree");
        tree.put_parents_last(&mut stack);
        stack
    })
}

/// What import answers, and the words that it puts in front of an output of `room` words.
pub fn import(words: &[u32], room: usize) -> (Reordered, Vec<u32>) {
    let refused = stack_fault(words, MOST_NODES).map(|place| (24, place));
    answered(words, room, refused, || {
        let mut tree_words = Vec::new();
        let (tree, _) = Tree::last(words).expect("the words are one tree");
        tree.put_parents_first(&mut tree_words);
        tree_words
    })
}

/// Runs something on a stack that has room for trees of 12,288 levels, which this model goes down into.
pub fn on_deep_stack<T: Send>(run: impl FnOnce() -> T + Send) -> T {
    std::thread::scope(|scope| {
        let thread = std::thread::Builder::new().stack_size(64 << 20);
        let run = thread.spawn_scoped(scope, run).expect("a thread");
        run.join()
            .unwrap_or_else(|why| std::panic::resume_unwind(why))
    })
}

//! Where two trees differ.

use crate::{Node, Tree, TreeRef};
use std::fmt;

/// A node of one tree and the node in its place in another: the nodes themselves differ, in operator, payload, span, number of
/// children or close, and all above them are alike.
///
/// ```
/// use sorbrudder::{Difference, Reader, Tokens};
///
/// let read = |text: &str| Reader::new().read(&text.parse::<Tokens>().unwrap(), 6).unwrap();
/// let (old, new) = (read("a + b"), read("a * b"));
/// let Difference { old, new } = old.differences(&new).next().unwrap();
/// assert_eq!((old.op().words(), new.op().words()), ("sum", "product"));
/// ```
#[derive(Copy, Clone, Debug, PartialEq, Eq)]
pub struct Difference<'t> {
    /// The node of the first tree.
    pub old: Node<'t>,
    /// The node of the second tree.
    pub new: Node<'t>,
}

/// The differences between two trees, from the left: what [`Tree::differences`] gives.
///
/// ```
/// use sorbrudder::{Reader, Tokens};
///
/// let read = |text: &str| Reader::new().read(&text.parse::<Tokens>().unwrap(), 6).unwrap();
/// let (old, new) = (read("(a < b) + (a < b)"), read("(a > b) + (a > b)"));
/// let numbers = old.differences(&new).map(|difference| difference.old.number());
/// assert_eq!(numbers.collect::<Vec<_>>(), [2, 6]);
/// ```
#[derive(Clone)]
pub struct Differences<'t> {
    old: TreeRef<'t>,
    new: TreeRef<'t>,
    at: (usize, usize),
}

impl<'t> Differences<'t> {
    pub(crate) fn between(old: TreeRef<'t>, new: TreeRef<'t>) -> Self {
        let at = (0, 0);
        Self { old, new, at }
    }
}

impl<'t> Iterator for Differences<'t> {
    type Item = Difference<'t>;

    fn next(&mut self) -> Option<Difference<'t>> {
        let words = |tree: TreeRef<'t>, at: usize| &tree.words()[at * Tree::NODE_WORDS..];
        // Nodes that are alike have the same number of children, so the walks stay beside each other.
        let (old, new) = (words(self.old, self.at.0), words(self.new, self.at.1));
        let nodes = old
            .chunks(Tree::NODE_WORDS)
            .zip(new.chunks(Tree::NODE_WORDS));
        let alike = nodes.take_while(|(old, new)| old == new).count();
        let at = (self.at.0 + alike, self.at.1 + alike);
        let old = self.old.node(at.0)?;
        let new = self.new.node(at.1)?;
        self.at = (self.old.end_of(at.0), self.new.end_of(at.1));
        Some(Difference { old, new })
    }
}

impl fmt::Debug for Differences<'_> {
    fn fmt(&self, f: &mut fmt::Formatter<'_>) -> fmt::Result {
        f.debug_list().entries(self.clone()).finish()
    }
}

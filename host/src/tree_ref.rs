//! Trees over borrowed words.

use crate::layout;
use crate::names::Letter;
use crate::tree::judge;
use crate::{Node, NotATree, Op, Payload, Rule, Tree};
use sorbrudder_sys::Answer;
use std::fmt;
use std::hash::{Hash, Hasher};

/// Where a node hangs: its parent (its own number for the root), and the number after its last descendant.
#[derive(Copy, Clone)]
pub(crate) struct Link {
    pub parent: u16,
    pub end: u16,
}

/// A tree over words that somebody else owns: a [`Reader`](crate::Reader)'s or a [`Lifter`](crate::Lifter)'s buffer, or a file's.
///
/// It costs nothing to make of words that the library has just made. A [`Tree`] remembers where each node ends and hangs; a `TreeRef`
/// over plain words looks it up in the words, so walking a large tree by [`Node::parent`] is quicker in a `Tree`.
///
/// ```
/// use sorbrudder::{Reader, Tokens, TreeRef};
///
/// let list: Tokens = "a + b * c".parse().unwrap();
/// let mut reader = Reader::new();
/// let tree = reader.read_words(&list.words(), 6).unwrap();
/// assert_eq!(tree.to_string(), "9(a,31(b,c))");
/// let again = TreeRef::from_words(tree.words()).unwrap();
/// assert_eq!(again.root().child(1).unwrap().op().text(), "*");
/// ```
#[derive(Copy, Clone)]
pub struct TreeRef<'w> {
    words: &'w [u32],
    /// As many as nodes, or none.
    links: &'w [Link],
    /// As many as nodes, or none.
    rules: &'w [u8],
}

impl<'w> TreeRef<'w> {
    /// The tree of preorder words. The library judges them.
    ///
    /// ```
    /// use sorbrudder::TreeRef;
    ///
    /// assert_eq!(TreeRef::from_words(&[0]).unwrap_err().word, 0);
    /// ```
    pub fn from_words(words: &'w [u32]) -> Result<Self, NotATree> {
        judge(words)?;
        Ok(Self::of_sound(words))
    }

    /// The tree of words that the library made.
    pub(crate) fn of_sound(words: &'w [u32]) -> Self {
        Self::linked(words, &[], &[])
    }

    pub(crate) fn linked(words: &'w [u32], links: &'w [Link], rules: &'w [u8]) -> Self {
        Self {
            words,
            links,
            rules,
        }
    }

    /// The tree's words.
    ///
    /// ```
    /// use sorbrudder::{Reader, Tokens, Tree};
    ///
    /// let list: Tokens = "!a".parse().unwrap();
    /// let mut reader = Reader::new();
    /// let tree = reader.read_words(&list.words(), 6).unwrap();
    /// assert_eq!(tree.words().len(), tree.len() * Tree::NODE_WORDS);
    /// ```
    pub fn words(self) -> &'w [u32] {
        self.words
    }

    /// How many nodes the tree has: one at least.
    ///
    /// ```
    /// use sorbrudder::{Reader, Tokens};
    ///
    /// let list: Tokens = "!a".parse().unwrap();
    /// assert_eq!(Reader::new().read_words(&list.words(), 6).unwrap().len(), 2);
    /// ```
    #[allow(clippy::len_without_is_empty)]
    pub fn len(self) -> usize {
        self.words.len() / Tree::NODE_WORDS
    }

    /// The root.
    ///
    /// ```
    /// use sorbrudder::{Reader, Tokens};
    ///
    /// let list: Tokens = "!a".parse().unwrap();
    /// let mut reader = Reader::new();
    /// assert_eq!(reader.read_words(&list.words(), 6).unwrap().root().op().text(), "!");
    /// ```
    pub fn root(self) -> Node<'w> {
        Node::new(self, 0)
    }

    /// The node of this number in preorder, the root being 0.
    ///
    /// ```
    /// use sorbrudder::{Reader, Tokens};
    ///
    /// let list: Tokens = "!a".parse().unwrap();
    /// let mut reader = Reader::new();
    /// assert!(reader.read_words(&list.words(), 6).unwrap().node(2).is_none());
    /// ```
    pub fn node(self, number: usize) -> Option<Node<'w>> {
        (number < self.len()).then_some(Node::new(self, number))
    }

    /// All nodes in preorder.
    ///
    /// ```
    /// use sorbrudder::{Reader, Tokens};
    ///
    /// let list: Tokens = "!a".parse().unwrap();
    /// let mut reader = Reader::new();
    /// let tree = reader.read_words(&list.words(), 6).unwrap();
    /// assert_eq!(tree.nodes().map(|node| node.child_count()).collect::<Vec<_>>(), [1, 0]);
    /// ```
    pub fn nodes(self) -> Nodes<'w> {
        Nodes {
            tree: self,
            numbers: 0..self.len(),
        }
    }

    /// The deepest node at a byte of the source, as [`Tree::node_at`].
    ///
    /// ```
    /// use sorbrudder::{Reader, Tokens};
    ///
    /// let list: Tokens = "!a".parse().unwrap();
    /// let mut reader = Reader::new();
    /// assert_eq!(reader.read_words(&list.words(), 6).unwrap().node_at(1).unwrap().number(), 1);
    /// ```
    pub fn node_at(self, offset: u32) -> Option<Node<'w>> {
        self.path_at(offset).pop()
    }

    /// The nodes at a byte of the source from the root on, as [`Tree::path_at`].
    ///
    /// ```
    /// use sorbrudder::{Reader, Tokens};
    ///
    /// let list: Tokens = "!a".parse().unwrap();
    /// let mut reader = Reader::new();
    /// assert_eq!(reader.read_words(&list.words(), 6).unwrap().path_at(1).len(), 2);
    /// ```
    pub fn path_at(self, offset: u32) -> Vec<Node<'w>> {
        let extents = layout::extents(self.words);
        let has = |number: usize| (extents[number].start..extents[number].end).contains(&offset);
        let mut path = Vec::new();
        let mut next = Some(0).filter(|root| has(*root));
        while let Some(number) = next {
            let node = Node::new(self, number);
            path.push(node);
            let mut child = number + 1;
            next = (0..node.child_count()).find_map(|_| {
                let here = child;
                child = extents[here].last;
                has(here).then_some(here)
            });
        }
        path
    }

    /// A tree with words of its own.
    ///
    /// ```
    /// use sorbrudder::{Reader, Tokens};
    ///
    /// let list: Tokens = "!a".parse().unwrap();
    /// let mut reader = Reader::new();
    /// let tree = reader.read_words(&list.words(), 6).unwrap().to_tree();
    /// assert_eq!(tree.to_string(), "7(a)");
    /// ```
    pub fn to_tree(self) -> Tree {
        Tree::with_rules(self.words.to_vec(), self.rules.to_vec())
    }

    /// The tree's words in stack order, each node's after those of its children, as [`Tree::to_stack`].
    ///
    /// ```
    /// use sorbrudder::{Reader, Tokens};
    ///
    /// let list: Tokens = "!a".parse().unwrap();
    /// let mut reader = Reader::new();
    /// let tree = reader.read_words(&list.words(), 6).unwrap();
    /// assert_eq!(tree.to_stack(), [tree.node(1).unwrap().words(), tree.root().words()].concat());
    /// ```
    #[must_use]
    pub fn to_stack(self) -> Vec<u32> {
        let mut stack = vec![0; self.words.len()];
        let answer = sorbrudder_sys::export(self.words, &mut stack);
        // Neither 12 nor 25: the words are one tree, and there is room for them.
        assert_eq!(answer, Answer::Filled(self.len()), "a tree is exported");
        stack
    }

    /// The tree with every bracket taken away that only groups, as [`Tree::without_brackets`].
    ///
    /// ```
    /// use sorbrudder::{Reader, Tokens};
    ///
    /// let list: Tokens = "((a))".parse().unwrap();
    /// let mut reader = Reader::new();
    /// let tree = reader.read_words(&list.words(), 6).unwrap();
    /// assert_eq!(tree.without_brackets().to_string(), "a");
    /// ```
    #[must_use]
    pub fn without_brackets(self) -> Tree {
        Tree::of_sound(layout::without_brackets(self.words))
    }

    /// Where two trees differ, as [`Tree::differences`].
    ///
    /// ```
    /// use sorbrudder::{Reader, Tokens};
    ///
    /// let list: Tokens = "a".parse().unwrap();
    /// let mut reader = Reader::new();
    /// let tree = reader.read_words(&list.words(), 6).unwrap();
    /// assert_eq!(tree.differences(tree).count(), 0);
    /// ```
    pub fn differences(self, other: Self) -> crate::Differences<'w> {
        crate::Differences::between(self, other)
    }

    /// The number after the last descendant of a node.
    pub(crate) fn end_of(self, number: usize) -> usize {
        match self.links.get(number) {
            Some(link) => usize::from(link.end),
            None => layout::end_of(self.words, number),
        }
    }

    /// The rule of a node, where the tree was read with rules and the node is no leaf.
    pub(crate) fn rule_of(self, number: usize) -> Option<Rule> {
        Rule::new(*self.rules.get(number)?)
    }

    /// The number of the node above a node.
    pub(crate) fn parent_of(self, number: usize) -> Option<usize> {
        match self.links.get(number) {
            Some(link) => Some(usize::from(link.parent)).filter(|parent| *parent != number),
            None => layout::parent_of(self.words, number),
        }
    }
}

impl PartialEq for TreeRef<'_> {
    fn eq(&self, other: &Self) -> bool {
        self.words == other.words
    }
}

impl Eq for TreeRef<'_> {}

impl Hash for TreeRef<'_> {
    fn hash<H: Hasher>(&self, state: &mut H) {
        self.words.hash(state);
    }
}

impl<'w> IntoIterator for TreeRef<'w> {
    type Item = Node<'w>;
    type IntoIter = Nodes<'w>;

    fn into_iter(self) -> Nodes<'w> {
        self.nodes()
    }
}

/// The nodes of a tree in preorder.
///
/// ```
/// use sorbrudder::{Reader, Tokens};
///
/// let tree = Reader::new().read(&"!a".parse::<Tokens>().unwrap(), 6).unwrap();
/// assert_eq!(tree.view().nodes().len(), 2);
/// ```
#[derive(Clone)]
pub struct Nodes<'w> {
    tree: TreeRef<'w>,
    numbers: std::ops::Range<usize>,
}

impl<'w> Iterator for Nodes<'w> {
    type Item = Node<'w>;

    fn next(&mut self) -> Option<Node<'w>> {
        Some(Node::new(self.tree, self.numbers.next()?))
    }

    fn size_hint(&self) -> (usize, Option<usize>) {
        self.numbers.size_hint()
    }
}

impl DoubleEndedIterator for Nodes<'_> {
    fn next_back(&mut self) -> Option<Self::Item> {
        Some(Node::new(self.tree, self.numbers.next_back()?))
    }
}

impl ExactSizeIterator for Nodes<'_> {}

/// As [`Tree`] is shown.
impl fmt::Display for TreeRef<'_> {
    fn fmt(&self, f: &mut fmt::Formatter<'_>) -> fmt::Result {
        Shown {
            tree: *self,
            source: None,
        }
        .fmt(f)
    }
}

impl fmt::Debug for TreeRef<'_> {
    fn fmt(&self, f: &mut fmt::Formatter<'_>) -> fmt::Result {
        write!(f, "TreeRef({self})")
    }
}

/// A tree as it is shown, with the text under the spans of its leaves where there is one.
pub(crate) struct Shown<'t> {
    pub tree: TreeRef<'t>,
    pub source: Option<&'t str>,
}

impl fmt::Display for Shown<'_> {
    fn fmt(&self, f: &mut fmt::Formatter<'_>) -> fmt::Result {
        let mut letters = 0;
        // How many children are still to come of each node that is open.
        let mut open: Vec<usize> = Vec::new();
        for node in self.tree.nodes() {
            let text = self.source.and_then(|source| node.span().of(source));
            match (node.is_leaf(), text, node.payload()) {
                (true, Some(text), _) if !text.is_empty() => write!(f, "{text}")?,
                (true, _, Payload::Float(float)) if node.op() == Op::FLOAT => write!(f, "{float}")?,
                (true, _, Payload::None) if node.op() == Op::FLOAT => {
                    write!(f, "{}", Letter(letters))?;
                    letters += 1;
                }
                _ => write!(f, "{}", node.op().number())?,
            }
            if !node.is_leaf() {
                f.write_str("(")?;
                open.push(node.child_count());
                continue;
            }
            while let Some(left) = open.last_mut() {
                *left -= 1;
                if *left > 0 {
                    f.write_str(",")?;
                    break;
                }
                f.write_str(")")?;
                open.pop();
            }
        }
        Ok(())
    }
}

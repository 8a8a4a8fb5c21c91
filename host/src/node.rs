//! The nodes of a tree.

use crate::layout;
use crate::token::LOW;
use crate::{Op, Payload, Rule, Span, Token, Tree, TreeRef};
use std::fmt;

/// Why a node's words are a token's.
const SOUND: &str = "a tree's words were made or judged by the library";

/// A node of a tree.
///
/// ```
/// use sorbrudder::{Op, Reader, Tokens};
///
/// let list: Tokens = "a + b * c".parse().unwrap();
/// let tree = Reader::new().read(&list, 6).unwrap();
/// let product = tree.root().children().nth(1).unwrap();
/// assert_eq!((product.op(), product.number()), (Op::MUL, 2));
/// assert_eq!(product.parent(), Some(tree.root()));
/// assert_eq!(product.span().of("a + b * c"), Some("*"));
/// assert_eq!(product.child(1).unwrap().span().of("a + b * c"), Some("c"));
/// ```
#[derive(Copy, Clone)]
pub struct Node<'t> {
    tree: TreeRef<'t>,
    number: usize,
}

impl<'t> Node<'t> {
    /// The node of a number that the tree has.
    pub(crate) fn new(tree: TreeRef<'t>, number: usize) -> Self {
        Self { tree, number }
    }

    /// The node's seven words: its token's five, how many children it has, and where it closes.
    ///
    /// ```
    /// use sorbrudder::{Reader, Tokens};
    ///
    /// let list: Tokens = "a + b".parse().unwrap();
    /// let tree = Reader::new().read(&list, 6).unwrap();
    /// assert_eq!(tree.root().words()[sorbrudder::Token::WORDS..], [0xC000_0002, 0xE000_0003]);
    /// ```
    pub fn words(self) -> &'t [u32] {
        let from = self.number * Tree::NODE_WORDS;
        &self.tree.words()[from..from + Tree::NODE_WORDS]
    }

    /// The node's number in preorder, the root's being 0.
    ///
    /// ```
    /// use sorbrudder::{Reader, Tokens};
    ///
    /// let list: Tokens = "a + b".parse().unwrap();
    /// let tree = Reader::new().read(&list, 6).unwrap();
    /// assert_eq!(tree.root().child(1).unwrap().number(), 2);
    /// ```
    pub fn number(self) -> usize {
        self.number
    }

    /// The node's operator.
    ///
    /// ```
    /// use sorbrudder::{Reader, Tokens};
    ///
    /// let list: Tokens = "a + b".parse().unwrap();
    /// let tree = Reader::new().read(&list, 6).unwrap();
    /// assert_eq!(tree.root().op().text(), "+");
    /// ```
    pub fn op(self) -> Op {
        layout::op(self.words()).expect(SOUND)
    }

    /// What the node carries.
    ///
    /// ```
    /// use sorbrudder::{Reader, Tokens};
    ///
    /// let list: Tokens = "a".parse().unwrap();
    /// let tree = Reader::new().read(&list, 6).unwrap();
    /// assert_eq!(tree.root().payload(), sorbrudder::Payload::None);
    /// ```
    pub fn payload(self) -> Payload {
        self.token().payload
    }

    /// Where the node's own token stands in the source.
    ///
    /// ```
    /// use sorbrudder::{Reader, Tokens};
    ///
    /// let list: Tokens = "a + b".parse().unwrap();
    /// let tree = Reader::new().read(&list, 6).unwrap();
    /// assert_eq!(tree.root().span().of("a + b"), Some("+"));
    /// ```
    pub fn span(self) -> Span {
        let words = self.words();
        Span::new(words[1] & LOW, words[2] & LOW).expect(SOUND)
    }

    /// Where the node closes: a section (`(`, `[` or `{` with its closer) at the end of its closer, every other node at the
    /// end of its own span. A section's span is its opener's, so an editor that colours a bracket from opener to closer
    /// takes the start of the one and this:
    ///
    /// ```
    /// use sorbrudder::{Reader, Span, Tokens};
    ///
    /// let source = "(a + b) * c";
    /// let list: Tokens = source.parse().unwrap();
    /// let tree = Reader::new().read(&list, 6).unwrap();
    /// let section = tree.root().child(0).unwrap();
    /// assert_eq!(section.span().of(source), Some("("));
    ///
    /// let coloured = Span::new(section.span().start(), section.close()).unwrap();
    /// assert_eq!(coloured.of(source), Some("(a + b)"));
    ///
    /// let times = tree.root();
    /// assert_eq!(times.close(), times.span().end());
    /// ```
    pub fn close(self) -> u32 {
        layout::close(self.words())
    }

    /// The rule that made the node: the first of the reader's passes that gave it children. None for a leaf, and in a tree that was not
    /// read by [`Reader::read_with_rules`](crate::Reader::read_with_rules).
    ///
    /// ```
    /// use sorbrudder::{Reader, Rule, Tokens};
    ///
    /// let list: Tokens = "a < b && c".parse().unwrap();
    /// let tree = Reader::new().read_with_rules(&list, 6).unwrap();
    /// let (root, less) = (tree.root(), tree.root().child(0).unwrap());
    /// assert_eq!((root.rule(), less.rule()), (Some(Rule::And), Some(Rule::Comparison)));
    /// assert_eq!(less.child(0).unwrap().rule(), None);
    /// ```
    pub fn rule(self) -> Option<Rule> {
        self.tree.rule_of(self.number)
    }

    /// The node's token.
    ///
    /// ```
    /// use sorbrudder::{Reader, Tokens};
    ///
    /// let list: Tokens = "a + b".parse().unwrap();
    /// let tree = Reader::new().read(&list, 6).unwrap();
    /// assert_eq!(tree.root().token(), list[1]);
    /// ```
    pub fn token(self) -> Token {
        let words = self.words();
        Token::from_words([words[0], words[1], words[2], words[3], words[4]]).expect(SOUND)
    }

    /// How many children the node has.
    ///
    /// ```
    /// use sorbrudder::{Reader, Tokens};
    ///
    /// let list: Tokens = "a + b".parse().unwrap();
    /// let tree = Reader::new().read(&list, 6).unwrap();
    /// assert_eq!(tree.root().child_count(), 2);
    /// ```
    pub fn child_count(self) -> usize {
        layout::children(self.words())
    }

    /// Whether the node has no child.
    ///
    /// ```
    /// use sorbrudder::{Reader, Tokens};
    ///
    /// let list: Tokens = "a".parse().unwrap();
    /// let tree = Reader::new().read(&list, 6).unwrap();
    /// assert!(tree.root().is_leaf());
    /// ```
    pub fn is_leaf(self) -> bool {
        self.child_count() == 0
    }

    /// The node's parent; none for the root.
    ///
    /// ```
    /// use sorbrudder::{Reader, Tokens};
    ///
    /// let list: Tokens = "!a".parse().unwrap();
    /// let tree = Reader::new().read(&list, 6).unwrap();
    /// assert_eq!(tree.node(1).unwrap().parent(), Some(tree.root()));
    /// assert_eq!(tree.root().parent(), None);
    /// ```
    pub fn parent(self) -> Option<Self> {
        let number = self.tree.parent_of(self.number)?;
        Some(Self { number, ..self })
    }

    /// The nodes above this one: its parent first, the root last.
    ///
    /// ```
    /// use sorbrudder::{Reader, Tokens};
    ///
    /// let list: Tokens = "a + !b".parse().unwrap();
    /// let tree = Reader::new().read(&list, 6).unwrap();
    /// let above = tree.node(3).unwrap().ancestors().map(|node| node.op().text());
    /// assert_eq!(above.collect::<Vec<_>>(), ["!", "+"]);
    /// ```
    pub fn ancestors(self) -> impl Iterator<Item = Self> {
        std::iter::successors(self.parent(), |node| node.parent())
    }

    /// The node's children, in order.
    ///
    /// ```
    /// use sorbrudder::{Reader, Tokens};
    ///
    /// let list: Tokens = "!a + b".parse().unwrap();
    /// let tree = Reader::new().read(&list, 6).unwrap();
    /// let ops = tree.root().children().map(|child| child.op().text());
    /// assert_eq!(ops.collect::<Vec<_>>(), ["!", "float"]);
    /// ```
    pub fn children(self) -> impl Iterator<Item = Self> {
        let mut next = self.number + 1;
        (0..self.child_count()).map(move |_| {
            let number = next;
            next = self.tree.end_of(number);
            Self { number, ..self }
        })
    }

    /// The child with this number, the first being 0.
    ///
    /// ```
    /// use sorbrudder::{Reader, Tokens};
    ///
    /// let list: Tokens = "a + b".parse().unwrap();
    /// let tree = Reader::new().read(&list, 6).unwrap();
    /// assert!(tree.root().child(2).is_none());
    /// ```
    pub fn child(self, place: usize) -> Option<Self> {
        self.children().nth(place)
    }

    /// The node and all nodes below it, in preorder.
    ///
    /// ```
    /// use sorbrudder::{Reader, Tokens};
    ///
    /// let list: Tokens = "!a + b".parse().unwrap();
    /// let tree = Reader::new().read(&list, 6).unwrap();
    /// assert_eq!(tree.root().child(0).unwrap().subtree().count(), 2);
    /// ```
    pub fn subtree(self) -> impl Iterator<Item = Self> {
        (self.number..self.end()).map(move |number| Self { number, ..self })
    }

    /// Where the node and all nodes below it stand: from the lowest start of their spans to where the last of them ends or closes.
    ///
    /// ```
    /// use sorbrudder::{Reader, Tokens};
    ///
    /// let source = "a + b * (c)";
    /// let list: Tokens = source.parse().unwrap();
    /// let tree = Reader::new().read(&list, 6).unwrap();
    /// let product = tree.root().child(1).unwrap();
    /// assert_eq!(product.subtree_span().of(source), Some("b * (c)"));
    /// ```
    pub fn subtree_span(self) -> Span {
        let extents = self.subtree().map(|node| {
            let span = node.span();
            (span.start(), span.end().max(node.close()))
        });
        let joined = extents.reduce(|all, one| (all.0.min(one.0), all.1.max(one.1)));
        joined.map_or(self.span(), |(start, end)| {
            Span::new(start, end).expect(SOUND)
        })
    }

    /// The words of the node and of all nodes below it: a tree by itself.
    ///
    /// ```
    /// use sorbrudder::{Reader, Tokens};
    ///
    /// let list: Tokens = "!a + b".parse().unwrap();
    /// let tree = Reader::new().read(&list, 6).unwrap();
    /// let not = tree.root().child(0).unwrap().subtree_words();
    /// assert_eq!(sorbrudder::Tree::from_words(not.to_vec()).unwrap().to_string(), "7(a)");
    /// ```
    pub fn subtree_words(self) -> &'t [u32] {
        &self.tree.words()[self.number * Tree::NODE_WORDS..self.end() * Tree::NODE_WORDS]
    }

    /// The number after the node's last descendant.
    fn end(self) -> usize {
        self.tree.end_of(self.number)
    }
}

/// Two nodes are equal where they are the same node of the same tree.
impl PartialEq for Node<'_> {
    fn eq(&self, other: &Self) -> bool {
        self.number == other.number && std::ptr::eq(self.tree.words(), other.tree.words())
    }
}

impl Eq for Node<'_> {}

impl fmt::Debug for Node<'_> {
    fn fmt(&self, f: &mut fmt::Formatter<'_>) -> fmt::Result {
        write!(f, "node {}: {:?}", self.number, self.op())
    }
}

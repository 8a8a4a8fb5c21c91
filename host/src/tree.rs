//! Trees that own their words.

use crate::layout::{self, children, node_words};
use crate::tree_ref::{Link, Shown};
use crate::{Node, Token, TreeRef};
use sorbrudder_sys::{Answer, MOST_NODES};
use std::fmt;
use std::hash::{Hash, Hasher};

/// A tree of at most 12,288 nodes, as words in preorder: parent first, children in order.
///
/// ```
/// use sorbrudder::{Op, Reader, Tokens};
///
/// let list: Tokens = "a + b * c".parse().unwrap();
/// let tree = Reader::new().read(&list, 6).unwrap();
/// assert_eq!(tree.to_string(), "9(a,31(b,c))");
/// assert_eq!(tree.root().op(), Op::ADD);
/// let ops: Vec<Op> = tree.nodes().map(|node| node.op()).collect();
/// assert_eq!(ops, [Op::ADD, Op::FLOAT, Op::MUL, Op::FLOAT, Op::FLOAT]);
/// ```
///
/// A node is [`Tree::NODE_WORDS`] words: the five of its [`Token`]; a word whose top three bits are 6 and whose bits 0-13 are the number of
/// its children; and a word whose top three bits are 7 and whose bits 0-28 are where it closes ([`Node::close`]).
///
/// Two trees are equal where their words are, whether they were read with rules
/// ([`Reader::read_with_rules`](crate::Reader::read_with_rules)) or not.
#[derive(Clone)]
pub struct Tree {
    words: Vec<u32>,
    links: Vec<Link>,
    /// As many as nodes where it was read with rules, else none.
    rules: Vec<u8>,
    depth: usize,
}

/// Words that are not exactly one tree of at most 12,288 nodes: the library's refusal 12, of words in stack order 24.
///
/// ```
/// use sorbrudder::Tree;
///
/// assert_eq!(Tree::from_words(Vec::new()).unwrap_err().word, 0);
/// assert_eq!(Tree::from_stack(&[]).unwrap_err().word, 0);
/// ```
#[derive(Copy, Clone, Debug, PartialEq, Eq)]
#[non_exhaustive]
pub struct NotATree {
    /// The first word that cannot continue a tree, or the word count where they run out.
    pub word: usize,
}

impl fmt::Display for NotATree {
    fn fmt(&self, f: &mut fmt::Formatter<'_>) -> fmt::Result {
        write!(f, "the words are not one tree: word {}", self.word)
    }
}

impl std::error::Error for NotATree {}

/// Whether words are one tree. The library judges them.
pub(crate) fn judge(words: &[u32]) -> Result<(), NotATree> {
    // A list with no room: no tree is written, and only words that are no tree are answered 12.
    match sorbrudder_sys::write(words, &mut []) {
        Answer::Refused(12, word) => Err(NotATree { word }),
        _ => Ok(()),
    }
}

impl Tree {
    /// How many words a node has.
    ///
    /// ```
    /// use sorbrudder::{Reader, Tokens};
    ///
    /// let list: Tokens = "a".parse().unwrap();
    /// let tree = Reader::new().read(&list, 6).unwrap();
    /// assert_eq!(tree.words().len(), sorbrudder::Tree::NODE_WORDS);
    /// ```
    pub const NODE_WORDS: usize = sorbrudder_sys::NODE_WORDS;

    /// The tree of words that the library made, or that it found to be one tree.
    pub(crate) fn of_sound(words: Vec<u32>) -> Self {
        Self::with_rules(words, Vec::new())
    }

    /// The tree of words that the library made, and the rules that it gave with them; none where it was not asked for any.
    pub(crate) fn with_rules(words: Vec<u32>, rules: Vec<u8>) -> Self {
        let count = words.len() / Self::NODE_WORDS;
        let mut links = Vec::with_capacity(count);
        // The nodes whose children are still coming, with how many.
        let mut open: Vec<(usize, usize)> = Vec::new();
        let mut depth = 0;
        for (number, node) in layout::nodes(&words).enumerate() {
            let parent = open.last().map_or(number, |(parent, _)| *parent);
            links.push(Link {
                parent: parent as u16,
                end: 0,
            });
            open.push((number, children(node)));
            depth = depth.max(open.len());
            while let Some((done, 0)) = open.last().copied() {
                links[done].end = number as u16 + 1;
                open.pop();
                if let Some((_, left)) = open.last_mut() {
                    *left -= 1;
                }
            }
        }
        Self {
            words,
            links,
            rules,
            depth,
        }
    }

    /// The tree of preorder words. The library judges them.
    ///
    /// ```
    /// use sorbrudder::{Reader, Tokens, Tree};
    ///
    /// let list: Tokens = "a + b".parse().unwrap();
    /// let words = Reader::new().read(&list, 6).unwrap().into_words();
    /// assert_eq!(Tree::from_words(words.clone()).unwrap().to_string(), "9(a,b)");
    /// assert_eq!(Tree::from_words(words[..5].to_vec()).unwrap_err().word, 5);
    /// assert_eq!(Tree::from_words(words[..20].to_vec()).unwrap_err().word, 20);
    /// ```
    pub fn from_words(words: Vec<u32>) -> Result<Self, NotATree> {
        judge(&words)?;
        Ok(Self::of_sound(words))
    }

    /// The tree of nodes in preorder, each with the number of its children. Every node closes at the end of its own span.
    ///
    /// ```
    /// use sorbrudder::{Op, Span, Token, Tree};
    ///
    /// let bare = |op| Token::bare(op, Span::default());
    /// let sum = [(bare(Op::ADD), 2), (bare(Op::FLOAT), 0), (bare(Op::PI), 0)];
    /// assert_eq!(Tree::from_nodes(sum).unwrap().to_string(), "9(a,62)");
    /// ```
    pub fn from_nodes(nodes: impl IntoIterator<Item = (Token, usize)>) -> Result<Self, NotATree> {
        let nodes = nodes.into_iter();
        Self::from_closed_nodes(nodes.map(|(token, count)| (token, count, token.span.end())))
    }

    /// The tree of nodes in preorder, each with the number of its children and with where it closes
    /// ([`Node::close`]); a number above [`Span::LAST`](crate::Span::LAST) is refused at its word.
    ///
    /// ```
    /// use sorbrudder::{Reader, Tokens, Tree};
    ///
    /// let list: Tokens = "(a + b) * c".parse().unwrap();
    /// let tree = Reader::new().read(&list, 6).unwrap();
    /// let nodes = tree.nodes().map(|node| (node.token(), node.child_count(), node.close()));
    /// assert_eq!(Tree::from_closed_nodes(nodes).unwrap(), tree);
    /// ```
    pub fn from_closed_nodes(
        nodes: impl IntoIterator<Item = (Token, usize, u32)>,
    ) -> Result<Self, NotATree> {
        // One node more than a tree can have is enough to be refused.
        let nodes = nodes.into_iter().take(MOST_NODES + 1);
        let words = nodes.flat_map(|(token, children, close)| node_words(token, children, close));
        Self::from_words(words.collect())
    }

    /// The tree of words in stack order, in which each node's come after those of its children in order: what
    /// [`Tree::to_stack`] gives. The library judges them.
    ///
    /// A whole tree may be followed by more, since it can become a child; so where words are several trees they run out.
    ///
    /// ```
    /// use sorbrudder::{Reader, Tokens, Tree};
    ///
    /// let list: Tokens = "a + b * c".parse().unwrap();
    /// let tree = Reader::new().read(&list, 6).unwrap();
    /// let stack = tree.to_stack();
    /// assert_eq!(Tree::from_stack(&stack).unwrap(), tree);
    ///
    /// // `a` alone is a tree; `a` and `b` are two, and run out. In the tree's own words the root comes first, before its children.
    /// assert_eq!(Tree::from_stack(&stack[..7]).unwrap().to_string(), "a");
    /// assert_eq!(Tree::from_stack(&stack[..14]).unwrap_err().word, 14);
    /// assert_eq!(Tree::from_stack(tree.words()).unwrap_err().word, 5);
    /// ```
    pub fn from_stack(stack: &[u32]) -> Result<Self, NotATree> {
        // Words of more nodes than a tree has are refused before it is asked whether they have room.
        let mut words = vec![0; stack.len().min(Self::NODE_WORDS * MOST_NODES)];
        match sorbrudder_sys::import(stack, &mut words) {
            Answer::Refused(_, word) => Err(NotATree { word }),
            _ => Ok(Self::of_sound(words)),
        }
    }

    /// The tree over its own words, as [`TreeRef`] walks it.
    ///
    /// ```
    /// use sorbrudder::{Reader, Tokens};
    ///
    /// let list: Tokens = "a + b".parse().unwrap();
    /// let tree = Reader::new().read(&list, 6).unwrap();
    /// assert_eq!(tree.view().to_string(), tree.to_string());
    /// ```
    pub fn view(&self) -> TreeRef<'_> {
        TreeRef::linked(&self.words, &self.links, &self.rules)
    }

    /// The tree's words.
    ///
    /// ```
    /// use sorbrudder::{Reader, Tokens};
    ///
    /// let list: Tokens = "a".parse().unwrap();
    /// let tree = Reader::new().read(&list, 6).unwrap();
    /// assert_eq!(tree.words()[..5], list[0].words());
    /// ```
    pub fn words(&self) -> &[u32] {
        &self.words
    }

    /// The tree's words, for the caller to keep.
    ///
    /// ```
    /// use sorbrudder::{Reader, Tokens, Tree};
    ///
    /// let list: Tokens = "a".parse().unwrap();
    /// let tree = Reader::new().read(&list, 6).unwrap();
    /// assert_eq!(tree.into_words().len(), Tree::NODE_WORDS);
    /// ```
    pub fn into_words(self) -> Vec<u32> {
        self.words
    }

    /// The tree's words in stack order: each node's [`Tree::NODE_WORDS`] after those of its children in order, so that the root's come
    /// last. [`Tree::from_stack`] takes them back.
    ///
    /// A runtime that works on a stack goes through them once. It pushes the value of a leaf; for every other node it takes as many
    /// values off the stack as the node has children, the last child's first, and pushes what comes of them:
    ///
    /// ```
    /// use sorbrudder::{Op, Payload, Reader, Token, Tokens, Tree};
    ///
    /// /// The value of numbers, sums and products.
    /// fn value(stack_order: &[u32]) -> Option<f32> {
    ///     let mut stack = Vec::new();
    ///     for node in stack_order.chunks(Tree::NODE_WORDS) {
    ///         let token = Token::from_words(*node.first_chunk()?)?;
    ///         let value = match (token.op, token.payload) {
    ///             (Op::FLOAT, Payload::Float(number)) => number,
    ///             (Op::ADD, _) => stack.pop()? + stack.pop()?,
    ///             (Op::MUL, _) => stack.pop()? * stack.pop()?,
    ///             _ => return None,
    ///         };
    ///         stack.push(value);
    ///     }
    ///     stack.pop()
    /// }
    ///
    /// let list: Tokens = "2 + 3 * 4".parse().unwrap();
    /// let tree = Reader::new().read(&list, 6).unwrap();
    /// assert_eq!(tree.to_string(), "9(2,31(3,4))");
    ///
    /// let stack_order = tree.to_stack(); // 2 3 4 * +
    /// assert_eq!(value(&stack_order), Some(14.0));
    /// assert_eq!(Tree::from_stack(&stack_order).unwrap(), tree);
    /// ```
    #[must_use]
    pub fn to_stack(&self) -> Vec<u32> {
        self.view().to_stack()
    }

    /// How many nodes the tree has: one at least.
    ///
    /// ```
    /// use sorbrudder::{Reader, Tokens};
    ///
    /// let list: Tokens = "a - b".parse().unwrap();
    /// let tree = Reader::new().read(&list, 6).unwrap();
    /// assert_eq!(tree.len(), 4); // 9(a,6(b))
    /// ```
    #[allow(clippy::len_without_is_empty)]
    pub fn len(&self) -> usize {
        self.links.len()
    }

    /// How many levels the tree has, 1 for a leaf.
    ///
    /// ```
    /// use sorbrudder::{Reader, Tokens};
    ///
    /// let list: Tokens = "a - b".parse().unwrap();
    /// let tree = Reader::new().read(&list, 6).unwrap();
    /// assert_eq!(tree.depth(), 3); // 9(a,6(b))
    /// ```
    pub fn depth(&self) -> usize {
        self.depth
    }

    /// The root.
    ///
    /// ```
    /// use sorbrudder::{Reader, Tokens};
    ///
    /// let list: Tokens = "!a".parse().unwrap();
    /// let tree = Reader::new().read(&list, 6).unwrap();
    /// assert_eq!(tree.root().op(), sorbrudder::Op::LOGICAL_NOT);
    /// ```
    pub fn root(&self) -> Node<'_> {
        self.view().root()
    }

    /// The node of this number in preorder, the root being 0.
    ///
    /// ```
    /// use sorbrudder::{Reader, Tokens};
    ///
    /// let list: Tokens = "!a".parse().unwrap();
    /// let tree = Reader::new().read(&list, 6).unwrap();
    /// assert_eq!(tree.node(1).unwrap().op(), sorbrudder::Op::FLOAT);
    /// assert!(tree.node(2).is_none());
    /// ```
    pub fn node(&self, number: usize) -> Option<Node<'_>> {
        self.view().node(number)
    }

    /// The deepest node at a byte of the source: of all nodes whose part of it ([`Node::subtree_span`]) has that byte the one that lies
    /// deepest, and of several such nodes beside each other the first. None where no node is there.
    ///
    /// A blank between an operator and its operand belongs to the operator, a bracket to its section. A caret stands between two bytes:
    /// for the one behind a token, ask for the byte before it.
    ///
    /// ```
    /// use sorbrudder::{Reader, Tokens};
    ///
    /// let source = "a + (b * c)";
    /// let list: Tokens = source.parse().unwrap();
    /// let tree = Reader::new().read(&list, 6).unwrap();
    /// let at = |offset| tree.node_at(offset).map(|node| node.op().text());
    /// assert_eq!([at(0), at(1), at(2)], [Some("float"), Some("+"), Some("+")]);
    /// assert_eq!([at(4), at(5), at(7), at(10)], [Some("("), Some("float"), Some("*"), Some("(")]);
    /// assert_eq!(at(11), None);
    /// let product = tree.node_at(7).unwrap();
    /// assert_eq!(product.subtree_span().of(source), Some("b * c"));
    /// ```
    pub fn node_at(&self, offset: u32) -> Option<Node<'_>> {
        self.view().node_at(offset)
    }

    /// The nodes at a byte of the source, each below the one before it: the root first, [`Tree::node_at`] last. It is what an editor
    /// selects when somebody asks for more and more round the caret.
    ///
    /// ```
    /// use sorbrudder::{Reader, Tokens};
    ///
    /// let source = "a + (b * c)";
    /// let list: Tokens = source.parse().unwrap();
    /// let tree = Reader::new().read(&list, 6).unwrap();
    /// let parts = tree.path_at(5).into_iter().map(|node| node.subtree_span().of(source).unwrap());
    /// assert_eq!(parts.collect::<Vec<_>>(), ["a + (b * c)", "(b * c)", "b * c", "b"]);
    /// assert!(tree.path_at(11).is_empty());
    /// ```
    pub fn path_at(&self, offset: u32) -> Vec<Node<'_>> {
        self.view().path_at(offset)
    }

    /// All nodes in preorder.
    ///
    /// ```
    /// use sorbrudder::{Reader, Tokens};
    ///
    /// let list: Tokens = "a + b".parse().unwrap();
    /// let tree = Reader::new().read(&list, 6).unwrap();
    /// assert_eq!(tree.nodes().filter(|node| node.is_leaf()).count(), 2);
    /// ```
    pub fn nodes(&self) -> impl ExactSizeIterator<Item = Node<'_>> + DoubleEndedIterator {
        self.view().nodes()
    }

    /// The tree with every bracket taken away that only groups: each with exactly one child whose parent is neither a
    /// query nor a math call. The child stands in its place.
    ///
    /// This is what reading, writing and reading again keeps at every version. It is a tree without rules.
    ///
    /// ```
    /// use sorbrudder::{Reader, Tokens};
    ///
    /// let list: Tokens = "((a)) * sin((b))".parse().unwrap();
    /// let tree = Reader::new().read(&list, 6).unwrap();
    /// assert_eq!(tree.to_string(), "31(4(4(a)),36(4(4(b))))");
    /// assert_eq!(tree.without_brackets().to_string(), "31(a,36(4(b)))");
    /// ```
    #[must_use]
    pub fn without_brackets(&self) -> Self {
        self.view().without_brackets()
    }

    /// Where this tree and another differ: the highest nodes that do, each beside the one in its place.
    ///
    /// ```
    /// use sorbrudder::{Reader, Tokens};
    ///
    /// let source = "x + (a && b || c)";
    /// let list: Tokens = source.parse().unwrap();
    /// let mut reader = Reader::new();
    /// let (old, new) = (reader.read(&list, 5).unwrap(), reader.read(&list, 6).unwrap());
    /// let found: Vec<_> = old.differences(&new).collect();
    /// assert_eq!(found.len(), 1);
    /// assert_eq!((found[0].old.op().text(), found[0].new.op().text()), ("&&", "||"));
    /// assert_eq!(found[0].old.subtree_span().of(source), Some("a && b || c"));
    /// assert_eq!(old.differences(&old).count(), 0);
    /// ```
    pub fn differences<'t>(&'t self, other: &'t Self) -> crate::Differences<'t> {
        self.view().differences(other.view())
    }

    /// The tree with each leaf as it stands in the source: for lists whose spans lie in a text.
    ///
    /// ```
    /// use sorbrudder::{Reader, Tokens};
    ///
    /// let source = "x ? y : x";
    /// let list: Tokens = source.parse().unwrap();
    /// let tree = Reader::new().read(&list, 6).unwrap();
    /// assert_eq!(tree.to_string(), "59(a,60(b,c))");
    /// assert_eq!(tree.shown_in(source).to_string(), "59(x,60(y,x))");
    /// ```
    pub fn shown_in<'s>(&'s self, source: &'s str) -> impl fmt::Display + 's {
        Shown {
            tree: self.view(),
            source: Some(source),
        }
    }
}

impl PartialEq for Tree {
    fn eq(&self, other: &Self) -> bool {
        self.words == other.words
    }
}

impl Eq for Tree {}

impl Hash for Tree {
    fn hash<H: Hasher>(&self, state: &mut H) {
        self.words.hash(state);
    }
}

impl<'t> From<&'t Tree> for TreeRef<'t> {
    fn from(tree: &'t Tree) -> Self {
        tree.view()
    }
}

impl<'t> IntoIterator for &'t Tree {
    type Item = Node<'t>;
    type IntoIter = crate::Nodes<'t>;

    fn into_iter(self) -> Self::IntoIter {
        self.view().into_iter()
    }
}

/// As document 01 writes trees: `9(a,31(b,c))`. An operator is its number, a float its value; floats that carry none are
/// `a`, `b`, `c` and so on from the left.
impl fmt::Display for Tree {
    fn fmt(&self, f: &mut fmt::Formatter<'_>) -> fmt::Result {
        self.view().fmt(f)
    }
}

impl fmt::Debug for Tree {
    fn fmt(&self, f: &mut fmt::Formatter<'_>) -> fmt::Result {
        write!(f, "Tree({self})")
    }
}

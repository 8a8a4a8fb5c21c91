//! The writer: a plain tree becomes a token list that every version reads the same.

use crate::layout::depth_of;
use crate::reader::MOST_TOKENS;
use crate::{Token, Tokens, Tree};
use sorbrudder_sys::Answer;
use std::fmt;

/// Writes trees as token lists with brackets round every operand that is not a leaf. It owns the list that the library
/// fills and uses it again.
///
/// A tree is plain if all its nodes are operands, operators with their operands, brackets with one child, conditionals
/// with both sides, queries and math calls; arrays, members, pointers, loops and blocks are not. So is a script, each of
/// whose statements holds such an expression, an assignment of one to another or the return of one. A statement is written
/// with a semicolon after it, which has the span of what the statement holds.
///
/// Writing recurses in the library for right operands, 176 bytes of stack each, and takes at most 240 KiB. A tree of more than
/// 256 levels is written on a thread of its own with stack enough, so the caller's needs no more than 128 KiB.
///
/// ```
/// use sorbrudder::{Reader, Tokens, Writer};
///
/// let list: Tokens = "a ? b : c ? d : e".parse().unwrap();
/// let tree = Reader::new().read(&list, 4).unwrap();
/// let written = Writer::new().write(&tree).unwrap();
/// assert_eq!(written.to_string(), "(a ? b : c) ? d : e");
/// ```
///
/// An added bracket has no place of its own in the source. Its opener covers all of its operand, so an editor that is asked
/// about the bracket shows what it was added round; its closer stands where the operand ends, and is empty:
///
/// ```
/// use sorbrudder::{Reader, Span, Tokens, Writer};
///
/// let source = "a + b * c";
/// let list: Tokens = source.parse().unwrap();
/// let tree = Reader::new().read(&list, 6).unwrap();
/// let written = Writer::new().write(&tree).unwrap();
/// assert_eq!(written.to_string(), "a + (b * c)");
///
/// let (opener, closer) = (written[2], written[6]);
/// assert_eq!(opener.span.of(source), Some("b * c"));
/// assert_eq!(closer.span, Span::new(9, 9).unwrap());
/// ```
#[derive(Clone, Debug, Default)]
pub struct Writer {
    /// A lifter has its lists come out here too.
    pub(crate) list: Vec<u32>,
    /// To find a tree's depth in.
    open: Vec<usize>,
}

/// Why a tree is not written.
///
/// The library's refusal 15, a list with too little room, cannot happen: the writer's own list has room for 4,096 tokens.
///
/// ```
/// use sorbrudder::{Reader, Tokens, WriteError, Writer};
///
/// let list: Tokens = "a = b = c;".parse().unwrap();
/// let tree = Reader::new().read(&list, 6).unwrap();
/// assert_eq!(tree.to_string(), "73(73(71(71(a,b),c)))");
/// let why = Writer::new().write(&tree).unwrap_err();
/// assert_eq!(why, WriteError::NotPlain { node: 3 });
/// assert_eq!(why.to_string(), "node 3 has no plain form");
/// ```
#[derive(Copy, Clone, Debug, PartialEq, Eq)]
#[non_exhaustive]
pub enum WriteError {
    /// The words are not one tree. Only words can have this fault; a [`Tree`] cannot.
    NotATree {
        /// The first word that cannot continue a tree, or the word count where they run out.
        word: usize,
    },
    /// A node has no plain form; [`Node::unplain`](crate::Node::unplain) says why.
    NotPlain {
        /// The first such node's number in preorder.
        node: usize,
    },
    /// The list would have more than 4,096 tokens.
    TooLong,
    /// The tree is deeper than 256 levels, and the system gives no thread to write it on.
    NoThread,
}

impl fmt::Display for WriteError {
    fn fmt(&self, f: &mut fmt::Formatter<'_>) -> fmt::Result {
        match self {
            Self::NotATree { word } => write!(f, "the words are not one tree: word {word}"),
            Self::NotPlain { node } => write!(f, "node {node} has no plain form"),
            Self::TooLong => write!(f, "the written list has more than 4,096 tokens"),
            Self::NoThread => write!(f, "there is no thread to write so deep a tree on"),
        }
    }
}

impl std::error::Error for WriteError {}

/// The levels that are written on the caller's stack, and the stack that the deepest tree is given.
const LEVELS: usize = 256;
const STACK: usize = 512 << 10;

/// Runs on a thread with stack enough for the deepest tree; nothing where the system gives none.
pub(crate) fn on_own_stack<T: Send>(run: impl FnOnce() -> T + Send) -> Option<T> {
    std::thread::scope(|scope| {
        let thread = std::thread::Builder::new().stack_size(STACK);
        thread.spawn_scoped(scope, run).ok()?.join().ok()
    })
}

impl Writer {
    /// A writer whose list is still to grow.
    ///
    /// ```
    /// assert!(sorbrudder::Writer::new().write_words(&[]).is_err());
    /// ```
    pub fn new() -> Self {
        Self::default()
    }

    /// Writes a tree.
    ///
    /// ```
    /// use sorbrudder::{Reader, Tokens, WriteError, Writer};
    ///
    /// let list: Tokens = "a : b".parse().unwrap();
    /// let tree = Reader::new().read(&list, 4).unwrap();
    /// assert_eq!(Writer::new().write(&tree), Err(WriteError::NotPlain { node: 0 }));
    /// ```
    pub fn write(&mut self, tree: &Tree) -> Result<Tokens, WriteError> {
        let words = self.write_to_depth(tree.words(), tree.depth())?;
        Ok(Tokens::from_words(words).expect("the library writes tokens"))
    }

    /// Writes a tree's words, for those who have words already; the list's words stand in the writer until its next tree.
    ///
    /// ```
    /// use sorbrudder::{WriteError, Writer};
    ///
    /// assert_eq!(Writer::new().write_words(&[]), Err(WriteError::NotATree { word: 0 }));
    /// ```
    pub fn write_words(&mut self, tree: &[u32]) -> Result<&[u32], WriteError> {
        let nodes = tree.len() / Tree::NODE_WORDS;
        // A tree has no more levels than nodes.
        let depth = match nodes {
            0..=LEVELS => nodes,
            _ => depth_of(tree, &mut self.open),
        };
        self.write_to_depth(tree, depth)
    }

    fn write_to_depth(&mut self, tree: &[u32], depth: usize) -> Result<&[u32], WriteError> {
        if self.list.is_empty() {
            self.list.resize(Token::WORDS * MOST_TOKENS, 0);
        }
        let list = &mut self.list;
        let answer = if depth <= LEVELS {
            sorbrudder_sys::write(tree, list)
        } else {
            let written = on_own_stack(|| sorbrudder_sys::write(tree, list));
            written.ok_or(WriteError::NoThread)?
        };
        match answer {
            Answer::Refused(12, word) => Err(WriteError::NotATree { word }),
            Answer::Refused(13, node) => Err(WriteError::NotPlain { node }),
            Answer::Filled(tokens) => Ok(&self.list[..Token::WORDS * tokens]),
            // 14; the list has room for every written one, so 15 is never answered.
            _ => Err(WriteError::TooLong),
        }
    }
}

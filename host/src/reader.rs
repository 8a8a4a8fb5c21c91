//! The reader: a token list becomes a tree or messages.

use crate::token::{LOW, number_in};
use crate::writer::on_own_stack;
use crate::{Limit, Messages, Op, Refusal, Token, Tree, TreeRef, Used};
use sorbrudder_sys::{
    Answer, Engine, LIST_BUFFER, Lent, LentToLift, Lot, MESSAGE_BUFFER, Room, rule_buffer,
    tree_buffer, work_buffer,
};
use std::fmt;

/// The most tokens of a list.
///
/// ```
/// assert_eq!(sorbrudder::MOST_TOKENS, 4096);
/// ```
pub const MOST_TOKENS: usize = sorbrudder_sys::MOST_TOKENS;

/// Reads token lists. It owns the buffers that the library asks for and uses them again from list to list, so keep one
/// where many lists are read; it is cheap to make and grows with the longest list it met, to less than 3 MiB.
///
/// The library takes at most 2 KiB of stack to read a list, whatever its nesting and whatever is answered. Readers of several threads
/// do not know of each other.
///
/// ```
/// use sorbrudder::{Reader, Tokens};
///
/// let mut reader = Reader::new();
/// let list: Tokens = "a && b || c".parse().unwrap();
/// assert_eq!(reader.read(&list, 5).unwrap().to_string(), "57(a,56(b,c))");
/// assert_eq!(reader.read(&list, 6).unwrap().to_string(), "56(57(a,b),c)");
/// ```
#[derive(Clone, Debug, Default)]
pub struct Reader {
    limit: Limit,
    list: Vec<u32>,
    tree: Vec<u32>,
    rules: Vec<u8>,
    work: Work,
}

/// Why there is no tree.
///
/// ```
/// use sorbrudder::{ReadError, Reader, Refusal, Span, Tokens, Used};
///
/// let list: Tokens = "a".parse().unwrap();
/// let long = Reader::new().parse(&list, 6, Used::exact(&list), Span::LAST + 1);
/// assert_eq!(long, Err(ReadError::Refused(Refusal::SourceTooLong)));
/// let none = Reader::new().read(&[], 6);
/// assert_eq!(none.unwrap_err().to_string(), "there is nothing to read (at 0-0)");
/// ```
#[derive(Copy, Clone, Debug, PartialEq, Eq)]
#[non_exhaustive]
pub enum ReadError {
    /// The call was turned back; the list was not read.
    Refused(Refusal),
    /// The list nests deeper than the reader's [`Limit`]; it was not read. Its words are sound, all of them.
    ///
    /// ```
    /// use sorbrudder::{Limit, ReadError, Reader, Tokens};
    ///
    /// let list: Tokens = "a * (b + (c - (d)))".parse().unwrap();
    /// let mut reader = Reader::new().with_limit(Limit::new(2).unwrap());
    /// let why = reader.read(&list, 6).unwrap_err();
    /// assert_eq!(why, ReadError::TooDeep { token: 8 });
    /// assert_eq!(why.to_string(), "too deep: with token 8 more brackets are open than the limit allows");
    /// assert_eq!(list[8].span.of("a * (b + (c - (d)))"), Some("("));
    /// ```
    TooDeep {
        /// The first token, counted from 0, with which more brackets are open than the limit. It opens one.
        token: usize,
    },
    /// The list was read and is no tree.
    Messages(Messages),
}

impl fmt::Display for ReadError {
    fn fmt(&self, f: &mut fmt::Formatter<'_>) -> fmt::Result {
        match self {
            Self::Refused(refusal) => refusal.fmt(f),
            Self::TooDeep { token } => write!(
                f,
                "too deep: with token {token} more brackets are open than the limit allows"
            ),
            Self::Messages(messages) => messages.fmt(f),
        }
    }
}

/// Its text says all: there is no source that would say it again.
impl std::error::Error for ReadError {}

impl From<Refusal> for ReadError {
    fn from(refusal: Refusal) -> Self {
        Self::Refused(refusal)
    }
}

impl From<Messages> for ReadError {
    fn from(messages: Messages) -> Self {
        Self::Messages(messages)
    }
}

/// What is known of a call beside the list's words.
#[derive(Copy, Clone)]
pub(crate) struct Given {
    pub version: i16,
    pub used: Used,
    pub source_len: u64,
    pub limit: Limit,
}

impl Given {
    /// What is meant where nothing else is known: the list's own operators and its highest span end.
    pub(crate) fn exact(list: &[u32], version: i16, limit: Limit) -> Self {
        let ends = list.chunks_exact(Token::WORDS).map(|token| token[2] & LOW);
        Self {
            version,
            used: Used::exact_words(list),
            source_len: u64::from(ends.max().unwrap_or(0)),
            limit,
        }
    }
}

/// The buffers that a call works in, and the messages that it leaves.
#[derive(Clone, Debug, Default)]
pub(crate) struct Work {
    messages: [u32; MESSAGE_BUFFER],
    work: Vec<u32>,
}

impl Work {
    /// Reads a list's words into a tree buffer, and gives the part of it that the tree fills.
    pub(crate) fn parse<'t>(
        &mut self,
        list: &[u32],
        given: Given,
        tree: &'t mut Vec<u32>,
    ) -> Result<&'t [u32], ReadError> {
        let nodes = self.parse_by(sorbrudder_sys::parse, list, given, tree)?;
        Ok(&tree[..Tree::NODE_WORDS * nodes])
    }

    /// Reads a list's words into a tree buffer and a rule buffer, and gives the parts of them that the tree fills.
    fn parse_with_rules<'t>(
        &mut self,
        list: &[u32],
        given: Given,
        (tree, rules): (&'t mut Vec<u32>, &'t mut Vec<u8>),
    ) -> Result<(&'t [u32], &'t [u8]), ReadError> {
        let rules_len = rule_buffer(tokens_of(list));
        if rules.len() < rules_len {
            rules.resize(rules_len, 0);
        }
        let lent = &mut rules[..rules_len];
        let entry = |words: Lent<'_>, given| sorbrudder_sys::parse_rules(words, lent, given);
        let nodes = self.parse_by(entry, list, given, tree)?;
        Ok((&tree[..Tree::NODE_WORDS * nodes], &rules[..nodes]))
    }

    /// Reads a list's words by an entry of the library; how many nodes the tree has.
    fn parse_by(
        &mut self,
        entry: impl FnOnce(Lent<'_>, sorbrudder_sys::Given) -> Answer,
        list: &[u32],
        given: Given,
        tree: &mut Vec<u32>,
    ) -> Result<usize, ReadError> {
        let asked = sorbrudder_sys::Given {
            source_len: given.source_len,
            version: given.version,
            used: given.used.halves(),
            limit: given.limit.get(),
        };
        let answer = self.lend(tokens_of(list), given.limit, tree, |room| {
            let lent = Lent {
                list,
                tree: room.tree,
                messages: room.messages,
                work: room.work,
            };
            entry(lent, asked)
        });
        match answer {
            Answer::Filled(nodes) => Ok(nodes),
            Answer::Messages(count) => Err(ReadError::Messages(self.messages(count))),
            Answer::Refused(18, token) => Err(ReadError::TooDeep { token }),
            Answer::Refused(number, place) => {
                let refusal = Refusal::of(number, place);
                Err(ReadError::Refused(refusal.expect(
                    "the buffers are long enough (3 to 5, 16), a used set has no other bit (6), a limit is 1 to 4,096 (17)",
                )))
            }
        }
    }

    /// Lends an entry that reads the buffers for so many tokens; its answer.
    pub(crate) fn lend(
        &mut self,
        tokens: usize,
        limit: Limit,
        tree: &mut Vec<u32>,
        entry: impl FnOnce(Room<'_>) -> Answer,
    ) -> Answer {
        let (tree_len, work_len) = (tree_buffer(tokens), work_buffer(tokens));
        if tree.len() < tree_len {
            tree.resize(tree_len, 0);
        }
        if self.work.len() < work_len {
            self.work.resize(work_len, 0);
        }
        entry(Room {
            tree: &mut tree[..tree_len],
            messages: &mut self.messages,
            work: &mut self.work[..work_len],
            limit: limit.get(),
        })
    }

    /// Lifts a list's words by the library, with a tree buffer for each engine; what becomes of it. Nothing is said where a list that may
    /// be written deep needs a thread and the system gives none.
    pub(crate) fn lift(
        &mut self,
        list: &[u32],
        (old, new): (&mut Vec<u32>, &mut Vec<u32>),
        output: &mut Vec<u32>,
        (from, to): (Engine, Engine),
    ) -> Option<Lot> {
        let tokens = tokens_of(list);
        let (tree_len, work_len) = (tree_buffer(tokens), work_buffer(tokens));
        let grown = [
            (&mut *old, tree_len),
            (&mut *new, tree_len),
            (&mut self.work, work_len),
            (&mut *output, LIST_BUFFER),
        ];
        for (buffer, len) in grown {
            if buffer.len() < len {
                buffer.resize(len, 0);
            }
        }
        let lent = LentToLift {
            list,
            tree: &mut old[..tree_len],
            again: &mut new[..tree_len],
            messages: &mut self.messages,
            work: &mut self.work[..work_len],
            output,
        };
        if longest_statement(list) <= STATEMENT {
            return Some(sorbrudder_sys::lift(lent, from, to));
        }
        on_own_stack(|| sorbrudder_sys::lift(lent, from, to))
    }

    /// The messages that the last call left, which answered so many.
    pub(crate) fn messages(&self, count: usize) -> Messages {
        Messages::from_records(&self.messages, count)
            .expect("the library's records are those of the definition, 1 to 17")
    }
}

/// The longest statement whose tree is written on the caller's stack: its right operands stand at most so deep in each other.
const STATEMENT: usize = 1_024;

/// The most tokens of a list between two semicolons: no statement is longer. A short list is not looked at.
fn longest_statement(list: &[u32]) -> usize {
    let tokens = list.len() / Token::WORDS;
    if tokens <= STATEMENT {
        return tokens;
    }
    let is_semicolon = |token: &[u32]| number_in(token[0]) == Op::SEMICOLON.number();
    let mut ends = list.chunks_exact(Token::WORDS).enumerate();
    let (mut longest, mut begun) = (0, 0);
    while let Some((end, _)) = ends.find(|(_, token)| is_semicolon(token)) {
        longest = longest.max(end - begun);
        begun = end + 1;
    }
    longest.max(tokens - begun)
}

/// How many tokens the buffers have to have room for: more than can be read are refused before.
fn tokens_of(list: &[u32]) -> usize {
    (list.len() / Token::WORDS).min(MOST_TOKENS)
}

/// The tokens' words, in a list that is used again. More than can be read are not laid out.
pub(crate) fn lay_out(tokens: &[Token], list: &mut Vec<u32>) -> Result<(), Refusal> {
    if tokens.len() > MOST_TOKENS {
        return Err(Refusal::TooManyTokens);
    }
    list.clear();
    list.reserve(tokens.len() * Token::WORDS);
    for token in tokens {
        list.extend_from_slice(&token.words());
    }
    Ok(())
}

impl Reader {
    /// A reader whose buffers are still to grow.
    ///
    /// ```
    /// assert!(sorbrudder::Reader::new().read(&[], 6).is_err());
    /// ```
    pub fn new() -> Self {
        Self::default()
    }

    /// The reader for an engine with this nesting limit: a list that is deeper is [`ReadError::TooDeep`].
    ///
    /// ```
    /// use sorbrudder::{Limit, ReadError, Reader, Tokens};
    ///
    /// let mut reader = Reader::new().with_limit(Limit::new(1).unwrap());
    /// let (flat, deep): (Tokens, Tokens) = ("(a) + (b)".parse().unwrap(), "((a))".parse().unwrap());
    /// assert!(reader.read(&flat, 6).is_ok());
    /// assert_eq!(reader.read(&deep, 6), Err(ReadError::TooDeep { token: 1 }));
    /// ```
    #[must_use]
    pub fn with_limit(self, limit: Limit) -> Self {
        Self { limit, ..self }
    }

    /// The nesting limit that it reads under.
    ///
    /// ```
    /// use sorbrudder::{Limit, Reader};
    ///
    /// assert_eq!(Reader::new().limit(), Limit::MOST);
    /// ```
    pub fn limit(&self) -> Limit {
        self.limit
    }

    /// Reads a list by the rules of a version, with its own operators as the used set and its highest span end as the source
    /// length: what is meant where nothing else is known.
    ///
    /// ```
    /// use sorbrudder::{Reader, Tokens};
    ///
    /// let list: Tokens = "a - b".parse().unwrap();
    /// assert_eq!(Reader::new().read(&list, 6).unwrap().to_string(), "9(a,6(b))");
    /// ```
    pub fn read(&mut self, tokens: &[Token], version: i16) -> Result<Tree, ReadError> {
        lay_out(tokens, &mut self.list)?;
        let given = Given::exact(&self.list, version, self.limit);
        self.parse_laid_out(given)
    }

    /// Reads a list as [`Reader::read`] does, and has each node of the tree say which rule made it ([`Node::rule`](crate::Node::rule)).
    /// The tree is the same.
    ///
    /// ```
    /// use sorbrudder::{Reader, Rule, Tokens};
    ///
    /// let list: Tokens = "a - b == c".parse().unwrap();
    /// let mut reader = Reader::new();
    /// let tree = reader.read_with_rules(&list, 6).unwrap();
    /// assert_eq!(tree.to_string(), "54(9(a,6(b)),c)");
    /// let rules: Vec<_> = tree.nodes().filter_map(|node| node.rule()).collect();
    /// assert_eq!(rules, [Rule::Equality, Rule::Addition, Rule::Unary]);
    /// assert_eq!(tree, reader.read(&list, 6).unwrap());
    ///
    /// // Below version 6 equality is one of the comparisons.
    /// let tree = reader.read_with_rules(&list, 5).unwrap();
    /// assert_eq!(tree.root().rule(), Some(Rule::Comparison));
    /// ```
    pub fn read_with_rules(&mut self, tokens: &[Token], version: i16) -> Result<Tree, ReadError> {
        lay_out(tokens, &mut self.list)?;
        let given = Given::exact(&self.list, version, self.limit);
        let buffers = (&mut self.tree, &mut self.rules);
        let (words, rules) = self.work.parse_with_rules(&self.list, given, buffers)?;
        Ok(Tree::with_rules(words.to_vec(), rules.to_vec()))
    }

    /// Reads a list. The version is the one that a pack declares; below 0 and above 13 the library makes it effective as
    /// the Rust parser does. The source length is used where a message is about the whole source.
    ///
    /// A list of more than 4,096 tokens, one deeper than the reader's limit and a source length above
    /// [`Span::LAST`](crate::Span::LAST) are turned back; nothing else is, since a [`Token`] is always whole and a [`Used`]
    /// never too high.
    ///
    /// ```
    /// use sorbrudder::{Op, Reader, Tokens, Used};
    ///
    /// let list: Tokens = "a * b".parse().unwrap();
    /// // Without `*` in the used set its pass does not run, and three roots are left.
    /// let used = Used::exact(&list).without(Op::MUL);
    /// assert!(Reader::new().parse(&list, 6, used, 5).is_err());
    /// ```
    pub fn parse(
        &mut self,
        tokens: &[Token],
        version: i16,
        used: Used,
        source_len: u32,
    ) -> Result<Tree, ReadError> {
        lay_out(tokens, &mut self.list)?;
        self.parse_laid_out(Given {
            version,
            used,
            source_len: u64::from(source_len),
            limit: self.limit,
        })
    }

    fn parse_laid_out(&mut self, given: Given) -> Result<Tree, ReadError> {
        let words = self.work.parse(&self.list, given, &mut self.tree)?;
        Ok(Tree::of_sound(words.to_vec()))
    }

    /// Reads a list of words as [`Reader::read`] does; the tree's words stand in the reader until its next list.
    ///
    /// ```
    /// use sorbrudder::{Reader, Tokens};
    ///
    /// let list: Tokens = "a - b".parse().unwrap();
    /// let mut reader = Reader::new();
    /// let tree = reader.read_words(&list.words(), 6).unwrap();
    /// assert_eq!(tree.root().op().text(), "+");
    /// ```
    pub fn read_words(&mut self, list: &[u32], version: i16) -> Result<TreeRef<'_>, ReadError> {
        let given = Given::exact(list, version, self.limit);
        let words = self.work.parse(list, given, &mut self.tree)?;
        Ok(TreeRef::of_sound(words))
    }

    /// Reads a list of words, for those who have words already; the tree's words stand in the reader until its next list.
    ///
    /// ```
    /// use sorbrudder::{Reader, ReadError, Refusal, Tokens, Tree, Used};
    ///
    /// let list: Tokens = "a + b".parse().unwrap();
    /// let mut words = list.words();
    /// let used = Used::exact_words(&words);
    /// let mut reader = Reader::new();
    /// assert_eq!(reader.parse_words(&words, 6, used, 5).unwrap().len(), 3 * Tree::NODE_WORDS);
    /// words.pop();
    /// let refused = reader.parse_words(&words, 6, used, 5);
    /// assert_eq!(refused, Err(ReadError::Refused(Refusal::NotWhole)));
    /// ```
    pub fn parse_words(
        &mut self,
        list: &[u32],
        version: i16,
        used: Used,
        source_len: u64,
    ) -> Result<&[u32], ReadError> {
        let given = Given {
            version,
            used,
            source_len,
            limit: self.limit,
        };
        self.work.parse(list, given, &mut self.tree)
    }
}

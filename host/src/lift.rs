//! Lifting: a list of one version becomes one that another version reads as the same tree.

use crate::layout::{self, end_of};
use crate::reader::{Given, Work, lay_out};
use crate::{
    LiftError, Limit, Op, ReadError, Refusal, Token, Tokens, Tree, TreeRef, WriteError, Writer,
};
use sorbrudder_sys::{Engine, Lot};
use std::borrow::BorrowMut;

/// A list that two versions read as the same tree.
///
/// ```
/// use sorbrudder::{Tokens, lift};
///
/// let list: Tokens = "a + b".parse().unwrap();
/// let lifted = lift(&list).from(4).to(6).unwrap();
/// assert!(!lifted.changed && lifted.tokens == list);
/// ```
#[derive(Clone, Debug, PartialEq, Eq)]
#[non_exhaustive]
pub struct Lifted {
    /// The list. Every version reads it as the same tree, and a further lift to whatever version leaves it as it is, unless it did not
    /// have to change.
    pub tokens: Tokens,
    /// Whether the list had to change: the new version read the given one as another tree, or not at all.
    pub changed: bool,
    /// The tree that both versions agree on, with the brackets taken away that only group. Of a script's semicolons they
    /// agree on operators and children; their spans and payloads here are those that the old version gave.
    pub tree: Tree,
}

/// A list of words that two versions read as the same tree, brackets taken away that only group. Its words stand in the lifter, or are
/// those that were given.
///
/// ```
/// use sorbrudder::{Lifter, Tokens};
///
/// let (list, mut lifter): (Tokens, _) = ("(a)".parse().unwrap(), Lifter::new());
/// let words = list.words();
/// let lifted = lifter.lift_words(&words).from(4).to(6).unwrap();
/// assert_eq!((lifted.words, lifted.changed, lifted.tree.len()), (&words[..], false, 2));
/// ```
#[derive(Copy, Clone, Debug, PartialEq, Eq)]
#[non_exhaustive]
pub struct LiftedWords<'l> {
    /// The list's words.
    pub words: &'l [u32],
    /// Whether the list had to change.
    pub changed: bool,
    /// The tree as the old version reads the given list, with its brackets.
    pub tree: TreeRef<'l>,
}

/// Lifts lists one after the other, with buffers that it uses again.
///
/// ```
/// use sorbrudder::{Lifter, Tokens};
///
/// let mut lifter = Lifter::new();
/// let list: Tokens = "a && b || c".parse().unwrap();
/// assert!(lifter.lift(&list).from(5).to(6).unwrap().changed);
/// assert!(!lifter.lift(&list).from(4).to(5).unwrap().changed);
/// ```
///
/// The engines on both sides may have nesting limits of their own, and the brackets that are added nest: a sum of n operands, which has
/// none, is written with n - 2 pairs, one in the other. So a lifter can be told the limit of either side. It gives no list that is too deep
/// for the new one:
///
/// ```
/// use sorbrudder::{LiftError, Lifter, Limit, Tokens};
///
/// let mut lifter = Lifter::new().with_limit_to(Limit::new(1).unwrap());
/// let (one, two): (Tokens, Tokens) = ("a && b || c".parse().unwrap(), "a && b || c && d || e".parse().unwrap());
/// assert_eq!(lifter.lift(&one).from(5).to(6).unwrap().tokens.to_string(), "a && (b || c)");
/// let why = lifter.lift(&two).from(5).to(6).unwrap_err();
/// assert_eq!(
///     why.to_string(),
///     "too deep for the new limit of 1: token 3 of the list with its brackets, `(` at 5-11"
/// );
/// ```
#[derive(Clone, Debug, Default)]
pub struct Lifter {
    limit_from: Limit,
    limit_to: Limit,
    list: Vec<u32>,
    work: Work,
    old: Vec<u32>,
    new: Vec<u32>,
    writer: Writer,
}

/// A lift that is still to be told the version that the list is of: `.from(5).to(6)`.
///
/// ```compile_fail
/// // Without its versions it is no lift.
/// let lifted = sorbrudder::lift(&[]).to(6);
/// ```
#[derive(Debug)]
#[must_use = "a lift begins when it is told both versions"]
pub struct Lift<L, T> {
    lifter: L,
    list: T,
}

/// A lift that is still to be told the version that is to read the list: `.to(6)`.
///
/// ```
/// let from_5 = sorbrudder::lift(&[]).from(5);
/// assert!(from_5.to(6).is_err(), "nothing is no tree");
/// ```
#[derive(Debug)]
#[must_use = "a lift begins when it is told both versions"]
pub struct LiftFrom<L, T> {
    lift: Lift<L, T>,
    from: i16,
}

impl<L, T> Lift<L, T> {
    /// The version that the list was written for, at which it is read.
    ///
    /// ```
    /// use sorbrudder::{Tokens, lift};
    ///
    /// let list: Tokens = "a > b == c".parse().unwrap();
    /// assert_eq!(lift(&list).from(5).to(6).unwrap().tokens.to_string(), "a > (b == c)");
    /// ```
    pub fn from(self, version: i16) -> LiftFrom<L, T> {
        LiftFrom {
            lift: self,
            from: version,
        }
    }
}

impl<L: BorrowMut<Lifter>> LiftFrom<L, &[Token]> {
    /// Lifts the list to this version. Where it reads another tree than the old one, or none, the list is written with brackets. The lift
    /// is one call of the library, which is proved for every list; so is that every version reads what is written as the same tree,
    /// brackets taken away. A list that the new engine's limit turns back, as it is or as it is written, is [`LiftError::TooDeep`].
    ///
    /// ```
    /// use sorbrudder::{Tokens, lift};
    ///
    /// let list: Tokens = "a - b && c || d".parse().unwrap();
    /// let lifted = lift(&list).from(5).to(6).unwrap();
    /// assert_eq!(lifted.tokens.to_string(), "(a + (- b)) && (c || d)");
    /// ```
    pub fn to(self, version: i16) -> Result<Lifted, LiftError> {
        let Self {
            lift: Lift { mut lifter, list },
            from,
        } = self;
        lifter.borrow_mut().lift_tokens(list, from, version)
    }
}

impl<'l> LiftFrom<&'l mut Lifter, &'l [u32]> {
    /// Lifts the list of words to this version, as a list of tokens is lifted. Nothing is allocated once the lifter's buffers have grown,
    /// but for a list with more than 1,024 tokens in a row without a semicolon, which is lifted on a thread of its own.
    ///
    /// ```
    /// use sorbrudder::{Lifter, Tokens};
    ///
    /// let list: Tokens = "a && b || c".parse().unwrap();
    /// let (words, mut lifter) = (list.words(), Lifter::new());
    /// let lifted = lifter.lift_words(&words).from(5).to(6).unwrap();
    /// assert_eq!(Tokens::from_words(lifted.words).unwrap().to_string(), "a && (b || c)");
    /// assert_eq!(lifted.tree.to_string(), "57(a,56(b,c))");
    /// ```
    pub fn to(self, version: i16) -> Result<LiftedWords<'l>, LiftError> {
        let Lift { lifter, list } = self.lift;
        lifter.lift_between(list, self.from, version)
    }
}

impl Lifter {
    /// A lifter whose buffers are still to grow.
    ///
    /// ```
    /// assert!(sorbrudder::Lifter::new().lift(&[]).from(4).to(6).is_err());
    /// ```
    pub fn new() -> Self {
        Self::default()
    }

    /// The lifter for lists of an engine with this nesting limit: one that is deeper was no tree there, and is not lifted.
    ///
    /// ```
    /// use sorbrudder::{LiftError, Lifter, Limit, ReadError, Tokens};
    ///
    /// let mut lifter = Lifter::new().with_limit_from(Limit::new(1).unwrap());
    /// let list: Tokens = "((a))".parse().unwrap();
    /// let why = lifter.lift(&list).from(4).to(6).unwrap_err();
    /// assert_eq!(why, LiftError::Read(ReadError::TooDeep { token: 1 }));
    /// ```
    #[must_use]
    pub fn with_limit_from(self, limit_from: Limit) -> Self {
        Self { limit_from, ..self }
    }

    /// The lifter to an engine with this nesting limit: no list comes out that is deeper.
    ///
    /// ```
    /// use sorbrudder::{LiftError, Lifter, Limit, Tokens};
    ///
    /// let mut lifter = Lifter::new().with_limit_to(Limit::new(1).unwrap());
    /// let list: Tokens = "((a))".parse().unwrap();
    /// let why = lifter.lift(&list).from(4).to(6).unwrap_err();
    /// assert!(matches!(why, LiftError::TooDeep { token: 1, is_written: false, .. }));
    /// ```
    #[must_use]
    pub fn with_limit_to(self, limit_to: Limit) -> Self {
        Self { limit_to, ..self }
    }

    /// Lifts a list of tokens, once it is told the versions.
    ///
    /// ```
    /// use sorbrudder::{Lifter, Tokens};
    ///
    /// let list: Tokens = "a > b == c".parse().unwrap();
    /// let lifted = Lifter::new().lift(&list).from(5).to(6).unwrap();
    /// assert_eq!(lifted.tokens.to_string(), "a > (b == c)");
    /// ```
    ///
    /// A script is lifted as a whole: each statement is written with a semicolon after it.
    ///
    /// ```
    /// use sorbrudder::{Lifter, Reader, Tokens};
    ///
    /// let source = "v = a ? b : c ? d : e; return v;";
    /// let list: Tokens = source.parse().unwrap();
    /// let lifted = Lifter::new().lift(&list).from(4).to(5).unwrap();
    /// let shown = lifted.tokens.shown_in(source).to_string();
    /// assert_eq!(shown, "v = ((a ? b : c) ? d : e); return v;");
    ///
    /// // Version 4 reads the lifted list as it read the given one, and so does every other.
    /// let mut reader = Reader::new();
    /// let at_4 = reader.read(&lifted.tokens, 4).unwrap();
    /// assert_eq!(at_4, reader.read(&lifted.tokens, 5).unwrap());
    /// assert_eq!(at_4.without_brackets().to_string(), lifted.tree.to_string());
    /// ```
    pub fn lift<'l>(&'l mut self, tokens: &'l [Token]) -> Lift<&'l mut Self, &'l [Token]> {
        Lift {
            lifter: self,
            list: tokens,
        }
    }

    /// Lifts a list of words, once it is told the versions. Words that are no list are turned back as reading turns them back.
    ///
    /// ```
    /// use sorbrudder::{Lifter, Tokens};
    ///
    /// let list: Tokens = "a + b".parse().unwrap();
    /// let (words, mut lifter) = (list.words(), Lifter::new());
    /// let lifted = lifter.lift_words(&words).from(4).to(6).unwrap();
    /// assert!(!lifted.changed && lifted.words == words);
    /// ```
    pub fn lift_words<'l>(&'l mut self, words: &'l [u32]) -> Lift<&'l mut Self, &'l [u32]> {
        Lift {
            lifter: self,
            list: words,
        }
    }

    /// Writes a list with all its brackets, whether or not it needs them, so that every version reads it as this one does. A list that has
    /// them all is left as it is. With them it may be deeper than the new limit, and is then not settled.
    ///
    /// ```
    /// use sorbrudder::{Lifter, Tokens};
    ///
    /// let list: Tokens = "a + b * c".parse().unwrap();
    /// let settled = Lifter::new().settle(&list, 4).unwrap();
    /// assert_eq!(settled.tokens.to_string(), "a + (b * c)");
    /// assert!(!Lifter::new().settle(&settled.tokens, 6).unwrap().changed);
    /// ```
    pub fn settle(&mut self, tokens: &[Token], version: i16) -> Result<Lifted, LiftError> {
        let mut list = std::mem::take(&mut self.list);
        let settled = lay_out(tokens, &mut list)
            .map_err(|refusal| LiftError::Read(refusal.into()))
            .and_then(|()| {
                self.settle_words(&list, version)
                    .map(LiftedWords::to_lifted)
            });
        self.list = list;
        settled
    }

    /// Writes a list of words with all its brackets, as [`Lifter::settle`] does.
    ///
    /// ```
    /// use sorbrudder::{Lifter, Tokens};
    ///
    /// let (list, settled): (Tokens, Tokens) = ("a + b".parse().unwrap(), "a".parse().unwrap());
    /// let mut lifter = Lifter::new();
    /// assert!(!lifter.settle_words(&list.words(), 4).unwrap().changed);
    /// ```
    pub fn settle_words<'l>(
        &'l mut self,
        words: &'l [u32],
        version: i16,
    ) -> Result<LiftedWords<'l>, LiftError> {
        let given = Given::exact(words, version, self.limit_from);
        let old = self.work.parse(words, given, &mut self.old);
        let tree = TreeRef::of_sound(old.map_err(LiftError::Read)?);
        let written = self.writer.write_words(tree.words());
        let written = written.map_err(|why| not_written(why, tree))?;
        let changed = !is_given(written, words);
        let words = if changed { written } else { words };
        if can_be_above(words, self.limit_to) {
            let given = Given::exact(words, version, self.limit_to);
            let again = self.work.parse(words, given, &mut self.new);
            within(again, words, self.limit_to, changed)?;
        }
        Ok(LiftedWords {
            words,
            changed,
            tree,
        })
    }

    fn lift_tokens(&mut self, tokens: &[Token], from: i16, to: i16) -> Result<Lifted, LiftError> {
        let mut list = std::mem::take(&mut self.list);
        let lifted = lay_out(tokens, &mut list)
            .map_err(|refusal| LiftError::Read(refusal.into()))
            .and_then(|()| {
                self.lift_between(&list, from, to)
                    .map(LiftedWords::to_lifted)
            });
        self.list = list;
        lifted
    }

    fn lift_between<'l>(
        &'l mut self,
        list: &'l [u32],
        from: i16,
        to: i16,
    ) -> Result<LiftedWords<'l>, LiftError> {
        let engine = |version, limit: Limit| Engine {
            version,
            limit: limit.get(),
        };
        let engines = (engine(from, self.limit_from), engine(to, self.limit_to));
        let trees = (&mut self.old, &mut self.new);
        let lot = self.work.lift(list, trees, &mut self.writer.list, engines);
        match lot.ok_or(LiftError::NoThread)? {
            Lot::Same(nodes) => Ok(LiftedWords {
                words: list,
                changed: false,
                tree: TreeRef::of_sound(&self.old[..Tree::NODE_WORDS * nodes]),
            }),
            Lot::Lifted(tokens) => Ok(LiftedWords {
                words: &self.writer.list[..Token::WORDS * tokens],
                changed: true,
                tree: self.old_tree(),
            }),
            lot => Err(self.why(list, lot)),
        }
    }

    /// The tree that the old engine read.
    fn old_tree(&self) -> TreeRef<'_> {
        TreeRef::of_sound(&self.old[..Tree::NODE_WORDS * end_of(&self.old, 0)])
    }

    /// Why a list stays behind.
    fn why(&self, list: &[u32], lot: Lot) -> LiftError {
        match lot {
            Lot::Messages(count) => LiftError::Read(self.work.messages(count).into()),
            Lot::Refused(18, token) => LiftError::Read(ReadError::TooDeep { token }),
            Lot::Refused(number, place) => {
                let refusal = Refusal::of(number, place);
                let refusal = refusal.expect("the buffers are long enough, a limit is 1 to 4,096");
                LiftError::Read(refusal.into())
            }
            Lot::Behind(_, token) => LiftError::of_token(list, token, self.limit_to, false),
            Lot::Unwritten(13, node) => LiftError::of_node(self.old_tree(), node),
            Lot::Unwritten(18, token) => {
                LiftError::of_token(&self.writer.list, token, self.limit_to, true)
            }
            // 14; a list that stays or comes out is no error.
            _ => LiftError::TooLong,
        }
    }
}

/// Whether a list has so many tokens that it could be above a limit; whether it is, the library says.
fn can_be_above(list: &[u32], limit: Limit) -> bool {
    list.len() / Token::WORDS > limit.get() as usize
}

/// The error about a list whose reading under the new limit was turned back for it.
fn within(
    read: Result<&[u32], ReadError>,
    list: &[u32],
    limit: Limit,
    is_written: bool,
) -> Result<(), LiftError> {
    match read {
        Err(ReadError::TooDeep { token }) => {
            Err(LiftError::of_token(list, token, limit, is_written))
        }
        _ => Ok(()),
    }
}

/// Whether a written list is the one that was given, but for where its closers start and for the spans and payloads of its semicolons: the
/// writer gives these of its own, and no version looks at them.
fn is_given(written: &[u32], given: &[u32]) -> bool {
    let is_same = |(written, given): (&[u32], &[u32])| match layout::op(written) {
        Some(Op::SEMICOLON) => layout::op(given) == Some(Op::SEMICOLON),
        Some(Op::RIGHT_PARENTHESIS) => written[0] == given[0] && written[2..] == given[2..],
        _ => written == given,
    };
    let written_tokens = written.chunks_exact(Token::WORDS);
    let mut tokens = written_tokens.zip(given.chunks_exact(Token::WORDS));
    written.len() == given.len() && tokens.all(is_same)
}

/// Why a tree that was read is not written.
fn not_written(why: WriteError, tree: TreeRef<'_>) -> LiftError {
    match why {
        WriteError::NotPlain { node } => LiftError::of_node(tree, node),
        WriteError::NoThread => LiftError::NoThread,
        _ => LiftError::TooLong,
    }
}

impl LiftedWords<'_> {
    /// The same with tokens and a tree of its own.
    ///
    /// ```
    /// use sorbrudder::{Lifter, Tokens};
    ///
    /// let list: Tokens = "((a))".parse().unwrap();
    /// let (words, mut lifter) = (list.words(), Lifter::new());
    /// let lifted = lifter.lift_words(&words).from(4).to(6).unwrap().to_lifted();
    /// assert_eq!((lifted.tokens, lifted.tree.to_string().as_str()), (list, "a"));
    /// ```
    pub fn to_lifted(self) -> Lifted {
        Lifted {
            tokens: Tokens::from_words(self.words).expect("words that were read are tokens"),
            changed: self.changed,
            tree: self.tree.without_brackets(),
        }
    }
}

/// Lifts one list, with buffers of its own, once it is told the versions: [`Lifter::lift`].
///
/// ```
/// use sorbrudder::{Tokens, lift};
///
/// let list: Tokens = "a ? b : c ? d : e".parse().unwrap();
/// let lifted = lift(&list).from(4).to(6).unwrap();
/// assert!(lifted.changed);
/// assert_eq!(lifted.tokens.to_string(), "(a ? b : c) ? d : e");
/// assert_eq!(lifted.tree.to_string(), "59(59(a,60(b,c)),60(d,e))");
/// ```
pub fn lift(tokens: &[Token]) -> Lift<Lifter, &[Token]> {
    Lift {
        lifter: Lifter::new(),
        list: tokens,
    }
}

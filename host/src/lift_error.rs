//! Why a list is not lifted.

use crate::{Limit, Op, ReadError, Span, Token, TreeRef, Unplain};
use std::fmt;

/// Why a list is not lifted.
///
/// ```
/// use sorbrudder::{LiftError, Op, Span, Tokens, Unplain, lift};
///
/// let list: Tokens = "a : b".parse().unwrap();
/// let why = lift(&list).from(4).to(5).unwrap_err();
/// assert!(matches!(
///     why,
///     LiftError::NotPlain { node: 0, op: Op::CONDITIONAL_ELSE, reason: Unplain::ElseWithoutIf, .. }
/// ));
/// assert_eq!(
///     why.to_string(),
///     "cannot be written: node 0, `:` at 2-3, a `:` that is not the right side of a `?`"
/// );
/// ```
#[derive(Copy, Clone, Debug, PartialEq, Eq)]
#[non_exhaustive]
pub enum LiftError {
    /// It is no tree at the old version, or deeper than the old limit, or no list at all.
    Read(ReadError),
    /// Its tree has a node that cannot be written.
    #[non_exhaustive]
    NotPlain {
        /// The first such node's number in preorder.
        node: usize,
        /// Its operator.
        op: Op,
        /// Where its token stands.
        span: Span,
        /// Why it cannot be written.
        reason: Unplain,
    },
    /// It is deeper than the new limit ([`Lifter::with_limit_to`](crate::Lifter::with_limit_to)), as it is or with the
    /// brackets that it needs. A written list is never less deep than the given one.
    ///
    /// ```
    /// use sorbrudder::{LiftError, Lifter, Limit, Span, Tokens};
    ///
    /// let mut lifter = Lifter::new().with_limit_to(Limit::new(1).unwrap());
    /// // Version 5 reads (a && (b || c)) && (d || e), which has one bracket in another.
    /// let source = "a && b || c && d || e";
    /// let list: Tokens = source.parse().unwrap();
    /// let LiftError::TooDeep { token, span, is_written, .. } = lifter.lift(&list).from(5).to(6).unwrap_err() else {
    ///     panic!("it is too deep");
    /// };
    /// assert_eq!((token, is_written), (3, true));
    /// assert_eq!(span.of(source), Some("b || c"));
    /// ```
    #[non_exhaustive]
    TooDeep {
        /// The first token, counted from 0, with which more brackets are open than the limit.
        token: usize,
        /// Its operator, which opens a bracket.
        op: Op,
        /// Where it stands; an added bracket has the place of all that stands in it.
        span: Span,
        /// The new limit.
        limit: Limit,
        /// Whether the token is one of the list as it would be written, and not of the given list.
        is_written: bool,
    },
    /// The written list would have more than 4,096 tokens.
    TooLong,
    /// The list has more than 1,024 tokens in a row without a semicolon, or a tree that is settled has more than 256 levels, and the
    /// system gives no thread to write it on.
    NoThread,
}

impl LiftError {
    /// The error about a node of a tree that is not plain.
    pub(crate) fn of_node(tree: TreeRef<'_>, number: usize) -> Self {
        let node = tree.node(number).unwrap_or(tree.root());
        Self::NotPlain {
            node: number,
            op: node.op(),
            span: node.span(),
            reason: node.unplain().unwrap_or(Unplain::NoExpression),
        }
    }

    /// The error about a token of these words that goes above the new limit.
    pub(crate) fn of_token(list: &[u32], token: usize, limit: Limit, is_written: bool) -> Self {
        let words = list.chunks_exact(Token::WORDS).nth(token);
        let words = words.and_then(|words| words.try_into().ok());
        let at = words.and_then(Token::from_words);
        let at = at.expect("the library counts the tokens of a list without a fault");
        Self::TooDeep {
            token,
            op: at.op,
            span: at.span,
            limit,
            is_written,
        }
    }
}

impl fmt::Display for LiftError {
    fn fmt(&self, f: &mut fmt::Formatter<'_>) -> fmt::Result {
        match self {
            Self::Read(why) => write!(f, "no tree at the old version: {why}"),
            Self::NotPlain {
                node,
                op,
                span,
                reason,
            } => write!(
                f,
                "cannot be written: node {node}, `{op}` at {span}, {reason}"
            ),
            Self::TooDeep {
                token,
                op,
                span,
                limit,
                is_written,
            } => {
                let of = match is_written {
                    true => " of the list with its brackets",
                    false => "",
                };
                write!(
                    f,
                    "too deep for the new limit of {limit}: token {token}{of}, `{op}` at {span}"
                )
            }
            Self::TooLong => write!(f, "cannot be written: it would have more than 4,096 tokens"),
            Self::NoThread => write!(
                f,
                "cannot be written: there is no thread for so deep a tree"
            ),
        }
    }
}

/// Its text says all: there is no source that would say it again.
impl std::error::Error for LiftError {}

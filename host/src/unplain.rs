//! Why a node has no plain form, said in words. The library decides which node that is; what is said here follows
//! `crates/molang/specs/Plain`.

use crate::{Node, Op};
use std::fmt;

/// Why a node cannot be written as part of an expression or of a script.
///
/// ```
/// use sorbrudder::{Reader, Tokens, Unplain};
///
/// let list: Tokens = "(a b) && c || d".parse().unwrap();
/// let tree = Reader::new().read(&list, 5).unwrap();
/// let why = tree.nodes().find_map(|node| node.unplain()).unwrap();
/// assert_eq!(why, Unplain::Bracket { parts: 2 });
/// assert_eq!(why.to_string(), "a bracket round 2 parts that nothing joins");
/// ```
#[derive(Copy, Clone, Debug, PartialEq, Eq, Hash)]
#[non_exhaustive]
pub enum Unplain {
    /// It is part of a block, a loop, an array, a member or an arrow, and of no expression.
    NoExpression,
    /// A `;` that is neither a list of statements, at the root, nor a statement of one part.
    Semicolon,
    /// An assignment or a return that is not all that a statement holds.
    InExpression,
    /// An operator without any operand, as the second `+` of `a++`.
    NoOperands,
    /// A bracket round nothing, or round several parts that nothing joins.
    Bracket {
        /// How many parts.
        parts: usize,
    },
    /// A `:` that is not the right side of a `?`.
    ElseWithoutIf,
    /// A query or a math function whose operand is not a bracket.
    CallWithoutBracket,
    /// Another number of operands than the operator has.
    Operands {
        /// How many there are.
        found: usize,
    },
}

impl Unplain {
    /// One word for it, as the reports in JSON have it.
    ///
    /// ```
    /// assert_eq!(sorbrudder::Unplain::ElseWithoutIf.name(), "else-without-if");
    /// ```
    pub const fn name(self) -> &'static str {
        match self {
            Self::NoExpression => "no-expression",
            Self::Semicolon => "semicolon",
            Self::InExpression => "in-expression",
            Self::NoOperands => "no-operands",
            Self::Bracket { .. } => "bracket",
            Self::ElseWithoutIf => "else-without-if",
            Self::CallWithoutBracket => "call-without-bracket",
            Self::Operands { .. } => "operands",
        }
    }
}

impl fmt::Display for Unplain {
    fn fmt(&self, f: &mut fmt::Formatter<'_>) -> fmt::Result {
        match self {
            Self::NoExpression => f.write_str("it is no part of an expression"),
            Self::Semicolon => {
                f.write_str("a `;` round something else than statements of one part")
            }
            Self::InExpression => f.write_str("an assignment or a return inside something else"),
            Self::NoOperands => f.write_str("an operator without an operand"),
            Self::Bracket { parts: 0 } => f.write_str("a bracket round nothing"),
            Self::Bracket { parts } => {
                write!(f, "a bracket round {parts} parts that nothing joins")
            }
            Self::ElseWithoutIf => f.write_str("a `:` that is not the right side of a `?`"),
            Self::CallWithoutBracket => f.write_str("a call without its brackets"),
            Self::Operands { found: 1 } => f.write_str("it has 1 operand only"),
            Self::Operands { found } => write!(f, "it has {found} operands"),
        }
    }
}

/// A leaf that can be written: 40, 42-44, 46-49, 61, 62, 76 or a host's own name.
fn is_plain_leaf(op: Op) -> bool {
    matches!(op.number(), 40 | 42..=44 | 46..=49 | 61 | 62 | 76) || op.is_host()
}

/// What is written between two operands: 9, 20, 31, 50-59 or 75.
fn is_plain_binary(op: Op) -> bool {
    matches!(op.number(), 9 | 20 | 31 | 50..=59 | 75)
}

/// What an expression or a statement has at all.
fn is_of_expressions(op: Op) -> bool {
    is_plain_leaf(op)
        || is_plain_binary(op)
        || op.is_call()
        || matches!(op.number(), 4 | 6 | 7 | 60 | 71 | 73 | 74)
}

impl<'t> Node<'t> {
    /// Why the node has no plain form, judged by its own, its parent's and its children's operators; none where it has one.
    ///
    /// ```
    /// use sorbrudder::{Reader, Tokens, Unplain};
    ///
    /// let list: Tokens = "a ? b ? c : d : e".parse().unwrap();
    /// let tree = Reader::new().read(&list, 4).unwrap();
    /// let node = tree.nodes().find(|node| node.unplain().is_some()).unwrap();
    /// assert_eq!((node.op().text(), node.unplain()), (":", Some(Unplain::ElseWithoutIf)));
    /// ```
    pub fn unplain(self) -> Option<Unplain> {
        let (op, found) = (self.op(), self.child_count());
        if self.has_plain_form() {
            return None;
        }
        Some(match op {
            _ if !is_of_expressions(op) => Unplain::NoExpression,
            Op::SEMICOLON if found > 0 => Unplain::Semicolon,
            Op::RETURN if found == 1 => Unplain::InExpression,
            Op::ASSIGNMENT if found == 2 => Unplain::InExpression,
            Op::LEFT_PARENTHESIS => Unplain::Bracket { parts: found },
            _ if found == 0 && op.is_math_call() => Unplain::CallWithoutBracket,
            _ if found == 0 => Unplain::NoOperands,
            _ if op.is_call() && found == 1 => Unplain::CallWithoutBracket,
            Op::CONDITIONAL_ELSE if found == 2 => Unplain::ElseWithoutIf,
            _ => Unplain::Operands { found },
        })
    }

    fn has_plain_form(self) -> bool {
        let (op, parent) = (self.op(), self.parent());
        let is_bracket = op == Op::LEFT_PARENTHESIS;
        if op == Op::SEMICOLON {
            return self.has_statements();
        }
        match self.child_count() {
            0 => {
                let in_math_call = parent.is_some_and(|parent| parent.op().is_math_call());
                is_plain_leaf(op) || is_bracket && in_math_call
            }
            1 => {
                let over_bracket = self
                    .child(0)
                    .is_some_and(|child| child.op() == Op::LEFT_PARENTHESIS);
                is_bracket
                    || matches!(op, Op::NEGATE | Op::LOGICAL_NOT)
                    || op.is_call() && over_bracket
                    || op == Op::RETURN && self.is_under_semicolon()
            }
            2 => {
                is_plain_binary(op)
                    || op == Op::CONDITIONAL_ELSE && self.is_right_of_question()
                    || op == Op::ASSIGNMENT && self.is_under_semicolon()
            }
            _ => false,
        }
    }

    fn is_under_semicolon(self) -> bool {
        self.parent()
            .is_some_and(|parent| parent.op() == Op::SEMICOLON)
    }

    /// Whether a semicolon holds what it may: at the root one semicolon or more and nothing else, under a semicolon one child that is none.
    fn has_statements(self) -> bool {
        let semicolons = self.children().filter(|child| child.op() == Op::SEMICOLON);
        let (found, semicolons) = (self.child_count(), semicolons.count());
        match self.parent() {
            None => found > 0 && semicolons == found,
            Some(parent) => parent.op() == Op::SEMICOLON && found == 1 && semicolons == 0,
        }
    }

    /// Whether it is the second child of a `?`.
    fn is_right_of_question(self) -> bool {
        let question = self
            .parent()
            .filter(|parent| parent.op() == Op::CONDITIONAL);
        question.and_then(|question| question.child(1)) == Some(self)
    }
}

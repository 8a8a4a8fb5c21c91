//! What the reader has to say of a list that is no tree.

use crate::{Op, Span};
use std::fmt;

/// Why a list is no tree. The names are those of the Rust parser's messages.
///
/// ```
/// use sorbrudder::{Message, Op, Reader, ReadError, Tokens};
///
/// let list: Tokens = "a + b c".parse().unwrap();
/// let Err(ReadError::Messages(messages)) = Reader::new().read(&list, 6) else {
///     panic!("two roots are no tree");
/// };
/// assert!(matches!(messages[0], Message::MultipleRoots { roots: 2, .. }));
/// assert_eq!(messages[0].span().of("a + b c"), Some("a + b c"));
/// ```
#[derive(Copy, Clone, Debug, PartialEq, Eq, Hash)]
#[non_exhaustive]
#[allow(missing_docs)] // The fields: a span is where the message points, the others are named for what they are.
pub enum Message {
    /// Several roots are left, or none.
    MultipleRoots { span: Span, roots: u32 },
    /// A list with `=` or `;` ends with a semicolon.
    ComplexMustEndWithSemicolon { span: Span },
    /// A member accessor has nothing before it.
    LeadingMemberAccessor { span: Span },
    /// A closer does not match its opener. The opener's position counts from 1, the closer's from 0.
    ClosingMismatch {
        span: Span,
        opened_at: u32,
        opener: Op,
        wanted: Op,
        found: Op,
        found_at: u32,
    },
    /// A section has no closer; follows [`Message::ClosingMismatch`] and [`Message::NoClosingSymbol`].
    SectionNotClosed { span: Span, wanted: Op, opener: Op },
    /// The list ends within a section. The opener's position counts from 1.
    NoClosingSymbol {
        span: Span,
        opened_at: u32,
        opener: Op,
        wanted: Op,
    },
    /// A call has brackets with nothing in them.
    EmptyParameterList { span: Span, call: Op },
    /// A math function is the last of its list.
    MathAtEnd { span: Span, function: Op, host: u32 },
    /// A math function is not followed by brackets.
    MathWithoutParenthesis { span: Span, function: Op, host: u32 },
    /// A list begins with a semicolon.
    LeadingSemicolon { span: Span },
    /// An array has an index with nothing in it.
    EmptyArrayIndex { span: Span },
    /// A binary operator lacks a side.
    BinaryAtEnd { span: Span, operator: Op },
    /// A minus lacks its operand.
    NegateWithoutOperand { span: Span },
    /// A not lacks its operand.
    NotWithoutOperand { span: Span },
    /// A minus stands after something that it cannot follow.
    UnknownOperation { span: Span, before: Op },
    /// `return` lacks its operand.
    UnaryWithoutOperand { span: Span, operator: Op },
    /// A `?` or `:` is left over.
    TernaryWithoutOperands { span: Span, operator: Op },
}

/// The operator that an argument names.
fn named(argument: u32) -> Option<Op> {
    Op::new(u16::try_from(argument).ok()?)
}

impl Message {
    /// The message of a record of eight words.
    pub(crate) fn from_record(record: &[u32]) -> Option<Self> {
        let &[number, start, end, a, b, c, d, e] = record else {
            return None;
        };
        let span = Span::new(start, end)?;
        match number {
            1 => Some(Self::MultipleRoots { span, roots: a }),
            4..=6 => Self::of_brackets(number, span, [a, b, c, d, e]),
            7 | 12 | 15..=17 => Self::of_operator(number, span, named(a)?),
            8 | 9 => Self::of_math(number, span, named(a)?, b),
            _ => Self::of_span(number, span),
        }
    }

    /// Messages 4 to 6.
    fn of_brackets(number: u32, span: Span, [a, b, c, d, e]: [u32; 5]) -> Option<Self> {
        Some(match number {
            4 => Self::ClosingMismatch {
                span,
                opened_at: a,
                opener: named(b)?,
                wanted: named(c)?,
                found: named(d)?,
                found_at: e,
            },
            5 => Self::SectionNotClosed {
                span,
                wanted: named(a)?,
                opener: named(b)?,
            },
            6 => Self::NoClosingSymbol {
                span,
                opened_at: a,
                opener: named(b)?,
                wanted: named(c)?,
            },
            _ => return None,
        })
    }

    /// The messages whose one argument is an operator.
    fn of_operator(number: u32, span: Span, operator: Op) -> Option<Self> {
        Some(match number {
            7 => Self::EmptyParameterList {
                span,
                call: operator,
            },
            12 => Self::BinaryAtEnd { span, operator },
            15 => Self::UnknownOperation {
                span,
                before: operator,
            },
            16 => Self::UnaryWithoutOperand { span, operator },
            17 => Self::TernaryWithoutOperands { span, operator },
            _ => return None,
        })
    }

    /// Messages 8 and 9.
    fn of_math(number: u32, span: Span, function: Op, host: u32) -> Option<Self> {
        Some(match number {
            8 => Self::MathAtEnd {
                span,
                function,
                host,
            },
            9 => Self::MathWithoutParenthesis {
                span,
                function,
                host,
            },
            _ => return None,
        })
    }

    /// The messages without an argument.
    fn of_span(number: u32, span: Span) -> Option<Self> {
        Some(match number {
            2 => Self::ComplexMustEndWithSemicolon { span },
            3 => Self::LeadingMemberAccessor { span },
            10 => Self::LeadingSemicolon { span },
            11 => Self::EmptyArrayIndex { span },
            13 => Self::NegateWithoutOperand { span },
            14 => Self::NotWithoutOperand { span },
            _ => return None,
        })
    }

    /// The message's number, 1 to 17, and its arguments.
    fn numbers(&self) -> (u32, [u32; 5]) {
        let op = |op: Op| u32::from(op.number());
        match *self {
            Self::MultipleRoots { roots, .. } => (1, [roots, 0, 0, 0, 0]),
            Self::ComplexMustEndWithSemicolon { .. } => (2, [0; 5]),
            Self::LeadingMemberAccessor { .. } => (3, [0; 5]),
            Self::ClosingMismatch {
                opened_at,
                opener,
                wanted,
                found,
                found_at,
                ..
            } => (4, [opened_at, op(opener), op(wanted), op(found), found_at]),
            Self::SectionNotClosed { wanted, opener, .. } => (5, [op(wanted), op(opener), 0, 0, 0]),
            Self::NoClosingSymbol {
                opened_at,
                opener,
                wanted,
                ..
            } => (6, [opened_at, op(opener), op(wanted), 0, 0]),
            Self::EmptyParameterList { call, .. } => (7, [op(call), 0, 0, 0, 0]),
            Self::MathAtEnd { function, host, .. } => (8, [op(function), host, 0, 0, 0]),
            Self::MathWithoutParenthesis { function, host, .. } => {
                (9, [op(function), host, 0, 0, 0])
            }
            Self::LeadingSemicolon { .. } => (10, [0; 5]),
            Self::EmptyArrayIndex { .. } => (11, [0; 5]),
            Self::BinaryAtEnd { operator, .. } => (12, [op(operator), 0, 0, 0, 0]),
            Self::NegateWithoutOperand { .. } => (13, [0; 5]),
            Self::NotWithoutOperand { .. } => (14, [0; 5]),
            Self::UnknownOperation { before, .. } => (15, [op(before), 0, 0, 0, 0]),
            Self::UnaryWithoutOperand { operator, .. } => (16, [op(operator), 0, 0, 0, 0]),
            Self::TernaryWithoutOperands { operator, .. } => (17, [op(operator), 0, 0, 0, 0]),
        }
    }

    /// The message's number, 1 to 17.
    ///
    /// ```
    /// use sorbrudder::{Message, Span};
    ///
    /// let span = Span::default();
    /// assert_eq!(Message::LeadingSemicolon { span }.number(), 10);
    /// ```
    pub fn number(&self) -> u32 {
        self.numbers().0
    }

    /// Where the message points.
    ///
    /// ```
    /// use sorbrudder::{Message, Span};
    ///
    /// let span = Span::new(2, 3).unwrap();
    /// assert_eq!(Message::LeadingSemicolon { span }.span(), span);
    /// ```
    pub fn span(&self) -> Span {
        match *self {
            Self::MultipleRoots { span, .. }
            | Self::ComplexMustEndWithSemicolon { span }
            | Self::LeadingMemberAccessor { span }
            | Self::ClosingMismatch { span, .. }
            | Self::SectionNotClosed { span, .. }
            | Self::NoClosingSymbol { span, .. }
            | Self::EmptyParameterList { span, .. }
            | Self::MathAtEnd { span, .. }
            | Self::MathWithoutParenthesis { span, .. }
            | Self::LeadingSemicolon { span }
            | Self::EmptyArrayIndex { span }
            | Self::BinaryAtEnd { span, .. }
            | Self::NegateWithoutOperand { span }
            | Self::NotWithoutOperand { span }
            | Self::UnknownOperation { span, .. }
            | Self::UnaryWithoutOperand { span, .. }
            | Self::TernaryWithoutOperands { span, .. } => span,
        }
    }

    /// The record that the message came as: number, start, end and five arguments.
    ///
    /// ```
    /// use sorbrudder::{Message, Op, Span};
    ///
    /// let span = Span::new(0, 1).unwrap();
    /// let message = Message::BinaryAtEnd { span, operator: Op::ADD };
    /// assert_eq!(message.record(), [12, 0, 1, 9, 0, 0, 0, 0]);
    /// ```
    pub fn record(&self) -> [u32; 8] {
        let (number, [a, b, c, d, e]) = self.numbers();
        let span = self.span();
        [number, span.start(), span.end(), a, b, c, d, e]
    }
}

impl fmt::Display for Message {
    fn fmt(&self, f: &mut fmt::Formatter<'_>) -> fmt::Result {
        match *self {
            Self::MultipleRoots { roots: 0, .. } => write!(f, "there is nothing to read"),
            Self::MultipleRoots { roots, .. } => {
                write!(f, "{roots} parts are left that no operator joins")
            }
            Self::ComplexMustEndWithSemicolon { .. } => {
                write!(f, "a list with `=` or `;` has to end with `;`")
            }
            Self::LeadingMemberAccessor { .. } => {
                write!(f, "a member accessor has nothing before it")
            }
            Self::ClosingMismatch {
                opener,
                wanted,
                found,
                ..
            } => write!(f, "`{opener}` is closed by `{found}` and not by `{wanted}`"),
            Self::SectionNotClosed { wanted, opener, .. } => {
                write!(f, "no `{wanted}` closes this `{opener}`")
            }
            Self::NoClosingSymbol { opener, wanted, .. } => {
                write!(
                    f,
                    "the list ends within this `{opener}`, before its `{wanted}`"
                )
            }
            Self::EmptyParameterList { call, .. } => {
                write!(f, "`{call}` is called with empty brackets")
            }
            Self::MathAtEnd { function, .. } => {
                write!(
                    f,
                    "`{function}` stands at the end, with nothing to be called with"
                )
            }
            Self::MathWithoutParenthesis { function, .. } => {
                write!(f, "`{function}` is not followed by brackets")
            }
            Self::LeadingSemicolon { .. } => write!(f, "a list begins with `;`"),
            Self::EmptyArrayIndex { .. } => write!(f, "an array's index is empty"),
            Self::BinaryAtEnd { operator, .. } => write!(f, "`{operator}` lacks a side"),
            Self::NegateWithoutOperand { .. } => write!(f, "`-` lacks its operand"),
            Self::NotWithoutOperand { .. } => write!(f, "`!` lacks its operand"),
            Self::UnknownOperation { before, .. } => write!(f, "`-` cannot follow `{before}`"),
            Self::UnaryWithoutOperand { operator, .. } => {
                write!(f, "`{operator}` lacks its operand")
            }
            Self::TernaryWithoutOperands { operator, .. } => {
                write!(f, "`{operator}` lacks what belongs to it")
            }
        }
    }
}

impl std::error::Error for Message {}

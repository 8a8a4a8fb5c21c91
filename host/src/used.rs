//! Operator sets.

use crate::token::number_in;
use crate::{Op, Token};
use std::fmt;
use std::ops::{BitAnd, BitOr, Sub};

/// The operators that a list uses. A pass runs only where its operators are in the set.
///
/// ```
/// use sorbrudder::{Op, Tokens, Used};
///
/// let list: Tokens = "a + b".parse()?;
/// let used = Used::exact(&list);
/// assert!(used.contains(Op::ADD) && !used.contains(Op::MUL));
/// assert_eq!(used, Used::EMPTY.with(Op::FLOAT).with(Op::ADD));
/// # Ok::<(), sorbrudder::NotationError>(())
/// ```
///
/// A host's own names are in no set, since no pass looks for them: they are passed over.
///
/// ```
/// use sorbrudder::{Op, Reader, Tokens, Used};
///
/// let (list, torch): (Tokens, _) = ("#300 + b".parse()?, Op::host(300).unwrap());
/// let used = Used::exact(&list);
/// assert_eq!(used, Used::EMPTY.with(Op::FLOAT).with(Op::ADD));
/// assert!(!used.contains(torch) && !Used::FULL.contains(torch));
/// assert_eq!(used.with(torch), used);
///
/// let tree = Reader::new().parse(&list, 6, used, 8)?;
/// assert_eq!(tree.to_string(), "9(300,a)");
/// # Ok::<(), Box<dyn std::error::Error>>(())
/// ```
#[derive(Copy, Clone, Default, PartialEq, Eq, Hash)]
pub struct Used(u128);

impl Used {
    /// No operator.
    ///
    /// ```
    /// use sorbrudder::{Op, Used};
    ///
    /// assert!(Op::all().all(|op| !Used::EMPTY.contains(op)));
    /// ```
    pub const EMPTY: Self = Self(0);
    /// Every operator, but for hosts' own names.
    ///
    /// ```
    /// use sorbrudder::{Op, Used};
    ///
    /// assert!(Op::all().all(|op| Used::FULL.contains(op)));
    /// ```
    pub const FULL: Self = Self((1 << Op::COUNT) - 1);

    /// Each operator of the tokens and no other, hosts' own names passed over: what reading a list usually wants.
    ///
    /// ```
    /// use sorbrudder::{Tokens, Used};
    ///
    /// let list: Tokens = "a + b + c".parse().unwrap();
    /// assert_eq!(Used::exact(&list).ops().count(), 2);
    /// ```
    pub fn exact(tokens: &[Token]) -> Self {
        tokens.iter().map(|token| token.op).collect()
    }

    /// Each operator of a list's words. A first word of a token that names no operator, or a host's own name, is passed over.
    ///
    /// ```
    /// use sorbrudder::{Tokens, Used};
    ///
    /// let list: Tokens = "a + b".parse().unwrap();
    /// assert_eq!(Used::exact_words(&list.words()), Used::exact(&list));
    /// ```
    pub fn exact_words(list: &[u32]) -> Self {
        let mut set = 0;
        for token in list.chunks(Token::WORDS) {
            set |= bit(number_in(token[0]));
        }
        Self(set & Self::FULL.0)
    }

    /// Whether the operator is in the set.
    ///
    /// ```
    /// use sorbrudder::{Op, Used};
    ///
    /// assert!(Used::EMPTY.with(Op::ADD).contains(Op::ADD));
    /// ```
    pub const fn contains(self, op: Op) -> bool {
        self.0 & bit(op.number()) != 0
    }

    /// The set with this operator; with a host's own name it is the same.
    ///
    /// ```
    /// use sorbrudder::{Op, Used};
    ///
    /// assert_eq!(Used::FULL.with(Op::ADD), Used::FULL);
    /// ```
    #[must_use]
    pub const fn with(self, op: Op) -> Self {
        Self(self.0 | bit(op.number()))
    }

    /// The set without this operator.
    ///
    /// ```
    /// use sorbrudder::{Op, Used};
    ///
    /// assert!(!Used::FULL.without(Op::ADD).contains(Op::ADD));
    /// ```
    #[must_use]
    pub const fn without(self, op: Op) -> Self {
        Self(self.0 & !bit(op.number()))
    }

    /// The operators of the set, by number.
    ///
    /// ```
    /// use sorbrudder::{Op, Used};
    ///
    /// let used = Used::EMPTY.with(Op::MUL).with(Op::ADD);
    /// assert_eq!(used.ops().collect::<Vec<_>>(), [Op::ADD, Op::MUL]);
    /// ```
    pub fn ops(self) -> impl Iterator<Item = Op> {
        self.into_iter()
    }

    /// The two halves that cross to the library: operator 0 is the lowest bit of the first.
    ///
    /// ```
    /// use sorbrudder::{Op, Used};
    ///
    /// assert_eq!(Used::EMPTY.with(Op::MUL).halves(), (1 << 31, 0));
    /// ```
    pub const fn halves(self) -> (u64, u64) {
        (self.0 as u64, (self.0 >> 64) as u64)
    }

    /// The set of two halves, unless a bit above operator 110 is set.
    ///
    /// ```
    /// use sorbrudder::{Op, Used};
    ///
    /// assert_eq!(Used::from_halves(1 << 9, 0), Some(Used::EMPTY.with(Op::ADD)));
    /// assert_eq!(Used::from_halves(0, 1 << 63), None);
    /// ```
    pub const fn from_halves(low: u64, high: u64) -> Option<Self> {
        let set = (high as u128) << 64 | low as u128;
        if set & !Self::FULL.0 == 0 {
            Some(Self(set))
        } else {
            None
        }
    }
}

/// The bit of a number that may be an operator's. Above 127 there is none, so hosts' own names have none.
const fn bit(number: u16) -> u128 {
    match 1u128.checked_shl(number as u32) {
        Some(bit) => bit,
        None => 0,
    }
}

impl Extend<Op> for Used {
    fn extend<I: IntoIterator<Item = Op>>(&mut self, ops: I) {
        *self = ops.into_iter().fold(*self, Self::with);
    }
}

/// The operators of the set, by number.
///
/// ```
/// use sorbrudder::{Op, Used};
///
/// let used: Used = [Op::MUL, Op::ADD].into_iter().collect();
/// assert_eq!(used.into_iter().next(), Some(Op::ADD));
/// ```
impl IntoIterator for Used {
    type Item = Op;
    type IntoIter = UsedOps;

    fn into_iter(self) -> UsedOps {
        UsedOps(self.0)
    }
}

/// The operators of a set, by number: what [`Used`] iterates by.
///
/// ```
/// assert_eq!(sorbrudder::Used::FULL.into_iter().count(), 111);
/// ```
#[derive(Clone, Debug)]
pub struct UsedOps(u128);

impl Iterator for UsedOps {
    type Item = Op;

    fn next(&mut self) -> Option<Op> {
        let op = Op::new(self.0.trailing_zeros() as u16)?;
        self.0 &= self.0 - 1;
        Some(op)
    }
}

/// The operators of either set.
///
/// ```
/// use sorbrudder::{Op, Used};
///
/// let (add, mul) = (Used::EMPTY.with(Op::ADD), Used::EMPTY.with(Op::MUL));
/// assert_eq!((add | mul) & mul, mul);
/// assert_eq!((add | mul) - mul, add);
/// ```
impl BitOr for Used {
    type Output = Self;

    fn bitor(self, other: Self) -> Self {
        Self(self.0 | other.0)
    }
}

/// The operators of both sets.
impl BitAnd for Used {
    type Output = Self;

    fn bitand(self, other: Self) -> Self {
        Self(self.0 & other.0)
    }
}

/// The operators of the first set that are not in the second.
impl Sub for Used {
    type Output = Self;

    fn sub(self, other: Self) -> Self {
        Self(self.0 & !other.0)
    }
}

impl FromIterator<Op> for Used {
    fn from_iter<I: IntoIterator<Item = Op>>(ops: I) -> Self {
        ops.into_iter().fold(Self::EMPTY, Self::with)
    }
}

impl fmt::Debug for Used {
    fn fmt(&self, f: &mut fmt::Formatter<'_>) -> fmt::Result {
        f.debug_set().entries(self.ops()).finish()
    }
}

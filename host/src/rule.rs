//! Which rule made a node.

use std::fmt;

/// The rule that paired a node's operands: the first of the reader's passes that gave the node children.
///
/// Its text is the rule's name. With [`Reader::read_with_rules`](crate::Reader::read_with_rules) a teacher sees why two versions read a
/// list otherwise:
///
/// ```
/// use sorbrudder::{Reader, Rule, Tokens};
///
/// let list: Tokens = "a && b || c".parse().unwrap();
/// let mut reader = Reader::new();
/// let (old, new) = (reader.read_with_rules(&list, 5).unwrap(), reader.read_with_rules(&list, 6).unwrap());
/// // Version 5 pairs `b || c` first, so the root is what AND made of it; in version 6 it is the other way round.
/// assert_eq!((old.root().rule(), new.root().rule()), (Some(Rule::And), Some(Rule::Or)));
/// assert_eq!(Rule::And.to_string(), "AND");
/// ```
#[derive(Copy, Clone, Debug, PartialEq, Eq, PartialOrd, Ord, Hash)]
#[non_exhaustive]
#[repr(u8)]
pub enum Rule {
    /// A member after what it is a member of.
    Member = 1,
    /// Brackets of all three kinds, with what stands in them.
    Section = 2,
    /// A query, `loop` or `for_each` with its brackets.
    Call = 3,
    /// The list of statements, and each statement.
    Semicolon = 4,
    /// An array with its index.
    Array = 5,
    /// `->`.
    Pointer = 6,
    /// A math function with its brackets.
    Math = 7,
    /// `-` and `!` before their operand. The minus of `a - b` is one too, under a sum.
    Unary = 8,
    /// `/`.
    Division = 9,
    /// `*`.
    Multiplication = 10,
    /// `+`, and of `a - b` the sum.
    Addition = 11,
    /// `<`, `<=`, `>=` and `>`; below version 6 `==` and `!=` too.
    Comparison = 12,
    /// `==` and `!=`, from version 6 on.
    Equality = 13,
    /// `&&`.
    And = 14,
    /// `||`.
    Or = 15,
    /// `?` and `:`.
    Conditional = 16,
    /// `??`.
    NullCoalescing = 17,
    /// `,`.
    Comma = 18,
    /// `=`.
    Assignment = 19,
    /// `return`.
    Return = 20,
}

impl Rule {
    /// All rules, by their numbers.
    ///
    /// ```
    /// use sorbrudder::Rule;
    ///
    /// assert_eq!((Rule::ALL.len(), Rule::ALL[0], Rule::ALL[19]), (20, Rule::Member, Rule::Return));
    /// ```
    pub const ALL: [Self; 20] = [
        Self::Member,
        Self::Section,
        Self::Call,
        Self::Semicolon,
        Self::Array,
        Self::Pointer,
        Self::Math,
        Self::Unary,
        Self::Division,
        Self::Multiplication,
        Self::Addition,
        Self::Comparison,
        Self::Equality,
        Self::And,
        Self::Or,
        Self::Conditional,
        Self::NullCoalescing,
        Self::Comma,
        Self::Assignment,
        Self::Return,
    ];

    /// The rule of a number, if it is one's: 0 stands for a leaf, which no rule made.
    ///
    /// ```
    /// use sorbrudder::Rule;
    ///
    /// assert_eq!((Rule::new(12), Rule::new(0), Rule::new(21)), (Some(Rule::Comparison), None, None));
    /// ```
    pub const fn new(number: u8) -> Option<Self> {
        match number {
            1..=20 => Some(Self::ALL[number as usize - 1]),
            _ => None,
        }
    }

    /// The library's number for it, 1 to 20.
    ///
    /// ```
    /// assert_eq!(sorbrudder::Rule::Return.number(), 20);
    /// ```
    pub const fn number(self) -> u8 {
        self as u8
    }

    /// Its name.
    ///
    /// ```
    /// assert_eq!(sorbrudder::Rule::NullCoalescing.name(), "null coalescing");
    /// ```
    pub const fn name(self) -> &'static str {
        match self {
            Self::Member => "member",
            Self::Section => "section",
            Self::Call => "call",
            Self::Semicolon => "semicolon",
            Self::Array => "array",
            Self::Pointer => "pointer",
            Self::Math => "math",
            Self::Unary => "unary",
            Self::Division => "division",
            Self::Multiplication => "multiplication",
            Self::Addition => "addition",
            Self::Comparison => "comparison",
            Self::Equality => "equality",
            Self::And => "AND",
            Self::Or => "OR",
            Self::Conditional => "conditional",
            Self::NullCoalescing => "null coalescing",
            Self::Comma => "comma",
            Self::Assignment => "assignment",
            Self::Return => "return",
        }
    }
}

impl fmt::Display for Rule {
    fn fmt(&self, f: &mut fmt::Formatter<'_>) -> fmt::Result {
        f.pad(self.name())
    }
}

#[cfg(test)]
mod tests {
    use super::Rule;
    use std::collections::BTreeSet;

    #[test]
    fn every_number_has_a_rule_of_its_own() {
        for (number, rule) in (1..).zip(Rule::ALL) {
            assert_eq!((rule.number(), Rule::new(number)), (number, Some(rule)));
        }
        let names: BTreeSet<&str> = Rule::ALL.map(Rule::name).into_iter().collect();
        assert_eq!(names.len(), Rule::ALL.len());
        assert_eq!(format!("[{:5}]", Rule::Or), "[OR   ]");
    }
}

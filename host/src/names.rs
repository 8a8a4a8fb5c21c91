//! The names of operands that carry none.

use std::fmt;

/// The name of the nth of them: `a` to `z`, then `a1` to `z1` and so on. No operator has such a name.
pub(crate) struct Letter(pub usize);

impl Letter {
    /// Whether a text is such a name.
    pub(crate) fn is_one(text: &str) -> bool {
        let rest = text.strip_prefix(|c: char| c.is_ascii_lowercase());
        rest.is_some_and(|rest| rest.bytes().all(|byte| byte.is_ascii_digit()))
    }
}

impl fmt::Display for Letter {
    fn fmt(&self, f: &mut fmt::Formatter<'_>) -> fmt::Result {
        let letter = char::from(b'a' + (self.0 % 26) as u8);
        match self.0 / 26 {
            0 => write!(f, "{letter}"),
            round => write!(f, "{letter}{round}"),
        }
    }
}

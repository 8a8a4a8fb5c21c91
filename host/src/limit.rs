//! How deep the brackets of a list may nest.

use std::fmt;

/// A nesting limit: how many brackets an engine lets be open at once, 1 to 4,096.
///
/// They are counted along the list. `{`, `[` and `(` open one; any of `}`, `]` and `)` closes one, matching or not, unless none is open.
/// Within its limit a list reads as it does at any other, so a limit only says which lists are turned back. The default is the greatest,
/// with which none is.
///
/// ```
/// use sorbrudder::Limit;
///
/// const CLASSROOM: Limit = Limit::new(64).unwrap();
/// assert_eq!((CLASSROOM.get(), Limit::default()), (64, Limit::MOST));
/// assert_eq!((Limit::new(0), Limit::new(4_097)), (None, None));
/// ```
#[derive(Copy, Clone, Debug, PartialEq, Eq, PartialOrd, Ord, Hash)]
pub struct Limit(u32);

impl Limit {
    /// The greatest limit: no list has so many tokens that it could be above it.
    ///
    /// ```
    /// assert_eq!(sorbrudder::Limit::MOST.get() as usize, sorbrudder::MOST_TOKENS);
    /// ```
    pub const MOST: Self = Self(sorbrudder_sys::MOST_NESTING);

    /// The limit of so many brackets, if it is 1 to 4,096.
    ///
    /// ```
    /// use sorbrudder::Limit;
    ///
    /// assert_eq!(Limit::new(4_096), Some(Limit::MOST));
    /// ```
    pub const fn new(limit: u32) -> Option<Self> {
        if 1 <= limit && limit <= Self::MOST.0 {
            Some(Self(limit))
        } else {
            None
        }
    }

    /// How many brackets may be open.
    ///
    /// ```
    /// assert_eq!(sorbrudder::Limit::MOST.get(), 4_096);
    /// ```
    pub const fn get(self) -> u32 {
        self.0
    }
}

impl Default for Limit {
    fn default() -> Self {
        Self::MOST
    }
}

impl fmt::Display for Limit {
    fn fmt(&self, f: &mut fmt::Formatter<'_>) -> fmt::Result {
        self.0.fmt(f)
    }
}

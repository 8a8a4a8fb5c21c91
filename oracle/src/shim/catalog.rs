//! Stands in for the catalogues: an index is the caller's 32-bit value as it came, and the name
//! of a host math function is that value in decimal, so that messages carry it as a number.

use std::collections::BTreeMap;

/// A query's index among the caller's names.
#[derive(Copy, Clone, Debug, PartialEq, Eq)]
pub struct QueryIndex(pub(crate) u32);

/// A host math function's index among the caller's names.
#[derive(Copy, Clone, Debug, PartialEq, Eq)]
pub struct MathRef(pub(crate) u32);

impl MathRef {
    pub(crate) fn index(self) -> usize {
        self.0 as usize
    }
}

/// A host math function, known by its number alone.
pub struct MathDecl(String);

impl MathDecl {
    pub(crate) fn name(&self) -> &str {
        &self.0
    }
}

/// The host math functions that a list mentions.
#[derive(Default)]
pub struct MathCatalog(BTreeMap<u32, MathDecl>);

impl MathCatalog {
    /// Declares the function with this value.
    pub(crate) fn declare(&mut self, value: u32) {
        self.0
            .entry(value)
            .or_insert_with(|| MathDecl(value.to_string()));
    }

    /// The function `r` refers to: [`declare`](Self::declare) came before.
    pub(crate) fn decl(&self, r: MathRef) -> &MathDecl {
        &self.0[&r.0]
    }
}

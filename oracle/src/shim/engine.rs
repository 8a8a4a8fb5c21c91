//! Stands in for the unpublished `version/engine.rs`: engine versions are no part of a reading,
//! and only the raw version's effective one is asked for. Copied beside `version/mod.rs` when the
//! oracle is built.

use std::str::FromStr;

/// A pack's engine version.
#[derive(Clone, Debug, PartialEq, Eq, Hash)]
pub enum EngineVersion {
    /// `"*"`.
    Any,
    /// A version with three numbers.
    Version(semver::Version),
}

impl EngineVersion {
    pub(crate) fn is_less_than(&self, other: &Self) -> bool {
        match (self, other) {
            (Self::Version(ours), Self::Version(theirs)) => ours.0 < theirs.0,
            _ => false,
        }
    }
}

impl FromStr for EngineVersion {
    type Err = ();

    /// No text is a version here: nothing asks.
    fn from_str(_: &str) -> Result<Self, ()> {
        Err(())
    }
}

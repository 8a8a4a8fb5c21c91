//! The oracle: what the Rust reader of Molang token lists answers, as words and numbers.
//!
//! The Rust's pass files are built as they stand, from a folder outside this repository (see
//! `build.rs`), behind the stand-ins of `shim/`. Where that folder is not at hand the crate has no
//! `answer_case`, and everything else is built and tested without it:
//!
//! - [`words`]: the word format of document 01, cases and answers;
//! - [`closing`]: where each node closes, its seventh word, from the list alone (card 2);
//! - [`nesting`]: how deep the brackets of a list nest (card 8);
//! - [`hosts`]: lists with hosts' own names, which the Rust does not know (card 7);
//! - [`rules`]: which rule made a node (card 5);
//! - [`refusal`]: answers 1 to 11 and 16 to 18, written from the documents and not from the Rust;
//! - [`generate`]: lists from a seed;
//! - [`lines`]: the lines of document 01's section 'Lists and their trees', and what was found;
//! - [`vectors`]: the answers that are kept in the repository.

pub mod closing;
pub mod generate;
pub mod hosts;
pub mod lines;
pub mod nesting;
pub mod refusal;
pub mod rules;
pub mod vectors;
pub mod words;

#[cfg(molangx)]
#[path = "shim/bitmask.rs"]
mod bitmask;
#[cfg(molangx)]
#[path = "shim/catalog.rs"]
mod catalog;
#[cfg(molangx)]
#[path = "shim/compile.rs"]
mod compile;
#[cfg(molangx)]
mod marked;
#[cfg(molangx)]
#[path = "shim/numeric.rs"]
mod numeric;
#[cfg(molangx)]
#[path = "shim/ops.rs"]
mod ops;
#[cfg(all(test, molangx))]
mod slips;

#[cfg(molangx)]
include!(concat!(env!("OUT_DIR"), "/plain.rs"));

/// `version/mod.rs` names a version type of a crate `semver`; this crate takes that name too.
#[cfg(molangx)]
extern crate self as semver;

/// Three numbers, compared in order. Only `version/mod.rs` asks for it, as `semver::Version`.
#[cfg(molangx)]
#[doc(hidden)]
#[derive(Clone, Debug, PartialEq, Eq, Hash)]
pub struct Version((u64, u64, u64));

#[cfg(molangx)]
impl Version {
    const fn new(major: u64, minor: u64, patch: u64) -> Self {
        Self((major, minor, patch))
    }
}

pub use words::{Answer, Case, Token};

/// Whether the Rust source was at hand when this was built.
pub const COMPARED: bool = cfg!(molangx);

/// What the Rust answers to a case, with 76 in the stead of hosts' own names and their numbers put back. Its list has any length
/// here: the entry's bound of 4,096 tokens is not the Rust's.
#[cfg(molangx)]
pub fn answer_case(case: &Case) -> Answer {
    hosts::answered(compile::answer, case)
}

/// What the Rust answers to a case, or `None` where its source was not at hand: for crates that
/// compare with this one and are built either way.
pub fn answer_if_at_hand(case: &Case) -> Option<Answer> {
    #[cfg(molangx)]
    return Some(answer_case(case));
    #[cfg(not(molangx))]
    {
        let _ = case;
        None
    }
}

/// The tree that the Rust makes of a case, with where each node closes, or none where it has messages; `None` where its source was not
/// at hand.
pub fn tree_if_at_hand(case: &Case) -> Option<Option<Vec<words::TreeNode>>> {
    #[cfg(molangx)]
    return Some(closing::tree(case));
    #[cfg(not(molangx))]
    {
        let _ = case;
        None
    }
}

/// Builds the Rust's list of a case, groups it and drops what came of it: what is timed of the Rust. Whether it is a
/// tree, or `None` where the source was not at hand. No token of the case has payload variant 12, and none is a host's.
pub fn grouped_if_at_hand(case: &Case) -> Option<bool> {
    #[cfg(molangx)]
    return Some(compile::is_tree(case));
    #[cfg(not(molangx))]
    {
        let _ = case;
        None
    }
}

/// The version that the rules see for a raw one.
#[cfg(molangx)]
pub fn effective_version(raw: i16) -> i16 {
    version::RawVersion(raw).effective().to_i16()
}

/// Whether the Rust, over the stand-in table, takes this operator for a math call.
#[cfg(molangx)]
pub fn is_math_call(op: u16) -> bool {
    compile::is_math_call(op)
}

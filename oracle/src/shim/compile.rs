//! The Rust's tree and pass files as they stand, and the context they log to.

include!(concat!(env!("OUT_DIR"), "/compile.rs"));

mod cx;

pub(crate) use cx::{Cx, Failed, Pass, answer, is_math_call, is_tree};

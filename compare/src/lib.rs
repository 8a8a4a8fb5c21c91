//! What the library's entries answer and the programs print, beside the Rust (through `oracle`) and models that were written from document
//! 01 and the cards alone.

#[cfg(library)]
pub mod ask_times;
pub mod border;
pub mod calls;
#[cfg(library)]
pub mod comparison;
pub mod everylist;
pub mod grammar;
#[cfg(library)]
pub mod grammar_reading;
#[cfg(library)]
pub mod histories;
#[cfg(library)]
pub mod library;
pub mod lift_archives;
pub mod liftcount;
#[cfg(library)]
pub mod lifting;
#[cfg(library)]
pub mod lifting_again;
#[cfg(library)]
pub mod liftlists;
pub mod listing;
pub mod matching;
pub mod numbers;
pub mod payload_calls;
#[cfg(library)]
pub mod payload_pairs;
pub mod payload_reach;
pub mod plain_trees;
pub mod program_times;
pub mod programs;
#[cfg(library)]
pub mod reading;
#[cfg(library)]
pub mod reordering;
#[cfg(library)]
pub mod rereading;
pub mod rule_calls;
#[cfg(library)]
pub mod ruling;
pub mod smallest;
pub mod stack_model;
pub mod trials;
pub mod workloads;
pub mod writer_model;
#[cfg(library)]
pub mod writing;

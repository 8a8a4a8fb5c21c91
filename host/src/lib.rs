//! A reader and writer of Molang token lists whose answers are proved.
//!
//! A pack's declared version decides how its expressions are read, and a list that is read by the neighbouring rule is
//! still a good tree. This crate reads a list at its own version and writes it so that every version reads the same tree:
//!
//! ```
//! use sorbrudder::{Reader, Tokens, lift};
//!
//! let source = "dosed ? hold : under ? open : shut";
//! let list: Tokens = source.parse()?;
//! let mut reader = Reader::new();
//! assert_eq!(reader.read(&list, 4)?.to_string(), "59(59(a,60(b,c)),60(d,e))");
//! assert_eq!(reader.read(&list, 5)?.to_string(), "59(a,60(b,59(c,60(d,e))))");
//!
//! let lifted = lift(&list).from(5).to(4)?;
//! assert_eq!(lifted.tokens.shown_in(source).to_string(), "dosed ? hold : (under ? open : shut)");
//! assert_eq!(reader.read(&lifted.tokens, 4)?, reader.read(&lifted.tokens, 5)?);
//! # Ok::<(), Box<dyn std::error::Error>>(())
//! ```
//!
//! Real lists come as words, five a token ([`Token`] says how they are laid out), or are put together from [`Token`]s; the notation of
//! [`Tokens`] is for examples and tests. [`archive`] reads and writes files of lists, and an editor holds a list open in an [`OpenList`].
//! What a list means is answered by a static library that is proved to give what a definition gives, for every list, operator set and
//! version. This crate adds the buffers that the library asks for, types that its words cannot be wrong in, and nothing that decides an
//! answer.

#![forbid(unsafe_code)]
#![warn(missing_docs)]

pub mod archive;
mod changes;
mod differences;
mod layout;
mod lift;
mod lift_error;
mod limit;
mod message;
mod messages;
mod names;
mod node;
mod notation;
mod op;
mod op_words;
mod open_list;
mod reader;
mod refusal;
mod rule;
mod token;
mod tokens;
mod tree;
mod tree_ref;
mod unplain;
mod used;
mod writer;

pub use differences::{Difference, Differences};
pub use lift::{Lift, LiftFrom, Lifted, LiftedWords, Lifter, lift};
pub use lift_error::LiftError;
pub use limit::Limit;
pub use message::Message;
pub use messages::Messages;
pub use node::Node;
pub use notation::NotationError;
pub use op::{Op, UnknownOp};
pub use open_list::{Asked, Edit, EditError, OpenList};
pub use reader::{MOST_TOKENS, ReadError, Reader};
pub use refusal::Refusal;
pub use rule::Rule;
pub use token::{Payload, Span, Token};
pub use tokens::Tokens;
pub use tree::{NotATree, Tree};
pub use tree_ref::{Nodes, TreeRef};
pub use unplain::Unplain;
pub use used::{Used, UsedOps};
pub use writer::{WriteError, Writer};

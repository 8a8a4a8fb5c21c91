//! The entries of the static library, with answers that are compared.

use crate::stack_model::Reordered;
use crate::writer_model::Written;
pub use sorbrudder_sys::Given;
use sorbrudder_sys::{Answer, Lent, MOST_NESTING};

/// What the parse entries answer.
#[derive(Copy, Clone, Debug, PartialEq, Eq)]
pub enum Read {
    /// So many nodes fill the tree buffer's front.
    Tree(usize),
    /// So many records fill the message buffer's front.
    Messages(usize),
    /// An answer's number and its place.
    Refused(u32, usize),
}

/// The parse entry.
pub fn parse(
    list: &[u32],
    tree: &mut [u32],
    messages: &mut [u32],
    work: &mut [u32],
    given: Given,
) -> Read {
    let lent = Lent {
        list,
        tree,
        messages,
        work,
    };
    read(sorbrudder_sys::parse(lent, given))
}

/// The parse entry with a rule buffer.
pub fn parse_rules(
    list: &[u32],
    tree: &mut [u32],
    messages: &mut [u32],
    work: &mut [u32],
    rules: &mut [u8],
    given: Given,
) -> Read {
    let lent = Lent {
        list,
        tree,
        messages,
        work,
    };
    read(sorbrudder_sys::parse_rules(lent, rules, given))
}

/// What an entry that reads answers.
pub(crate) fn read(answer: Answer) -> Read {
    match answer {
        Answer::Filled(nodes) => Read::Tree(nodes),
        Answer::Messages(records) => Read::Messages(records),
        Answer::Refused(number, place) => Read::Refused(number, place),
    }
}

/// The write entry.
pub fn write(tree: &[u32], list: &mut [u32]) -> Written {
    match sorbrudder_sys::write(tree, list) {
        Answer::Filled(tokens) => Written::Tokens(tokens),
        Answer::Refused(number, place) => Written::Refused(number, place),
        Answer::Messages(count) => panic!("the write entry never answers {count} messages"),
    }
}

/// The export entry.
pub fn export(tree: &[u32], output: &mut [u32]) -> Reordered {
    reordered(sorbrudder_sys::export(tree, output))
}

/// The import entry.
pub fn import(stack: &[u32], output: &mut [u32]) -> Reordered {
    reordered(sorbrudder_sys::import(stack, output))
}

fn reordered(answer: Answer) -> Reordered {
    match answer {
        Answer::Filled(nodes) => Reordered::Nodes(nodes),
        Answer::Refused(number, place) => Reordered::Refused(number, place),
        Answer::Messages(count) => panic!("export and import never answer {count} messages"),
    }
}

/// A library that is timed.
#[derive(Copy, Clone)]
pub struct Library {
    parse: fn(Lent<'_>, Given) -> Answer,
    write: fn(&[u32], &mut [u32]) -> Answer,
    /// Words of a node: six before card 2.
    pub node_words: usize,
}

impl Library {
    /// The library that is linked.
    pub fn now() -> Self {
        Self::of(sorbrudder_sys::parse, sorbrudder_sys::write)
    }

    /// The one before it, where `SORBRUDDER_BEFORE` named it when this was built.
    pub fn before() -> Option<Self> {
        #[cfg(before)]
        return Some(Self::of(
            sorbrudder_sys::before::parse,
            sorbrudder_sys::before::write,
        ));
        #[cfg(not(before))]
        None
    }

    fn of(parse: fn(Lent<'_>, Given) -> Answer, write: fn(&[u32], &mut [u32]) -> Answer) -> Self {
        let library = |node_words| Self {
            parse,
            write,
            node_words,
        };
        // Where nodes have seven words, a tree buffer of eighteen is too short for a token.
        let leaf = [1, 2, 3, 4, 5].map(|kind| kind << 29);
        let (mut tree, mut work) = ([0; 18], [0; 128]);
        let given = Given {
            source_len: 0,
            version: 6,
            used: (0, 0),
            limit: MOST_NESTING,
        };
        match library(6).parse(&leaf, &mut tree, &mut [0; 16], &mut work, given) {
            Answer::Refused(3, _) => library(7),
            _ => library(6),
        }
    }

    /// Its parse entry.
    pub fn parse(
        &self,
        list: &[u32],
        tree: &mut [u32],
        messages: &mut [u32],
        work: &mut [u32],
        given: Given,
    ) -> Answer {
        let lent = Lent {
            list,
            tree,
            messages,
            work,
        };
        (self.parse)(lent, given)
    }

    /// Its write entry.
    pub fn write(&self, tree: &[u32], list: &mut [u32]) -> Answer {
        (self.write)(tree, list)
    }
}

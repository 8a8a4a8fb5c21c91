//! The entries of the static library by the C convention, as include/sorbrudder.h declares them: a slice is a pointer and a length, and an
//! answer is one number. This crate holds the declarations, a safe function over each, and the number taken apart, once for all Rust of
//! the project. Where `SORBRUDDER_BEFORE` names another archive when this is built, its reading and writing entries are in `before`, for
//! timing two libraries in one run.

#![warn(missing_docs)]

/// Words of a token.
pub const TOKEN_WORDS: usize = 5;
/// Words of a tree node: a token's, the word of its child count, and the word of where it closes.
pub const NODE_WORDS: usize = TOKEN_WORDS + 2;
/// Words of a message record.
pub const MESSAGE_WORDS: usize = 8;
/// The most tokens of a list.
pub const MOST_TOKENS: usize = 4_096;
/// The greatest nesting limit, with which no list is too deep.
pub const MOST_NESTING: u32 = 4_096;
/// The first and the last operator number that a host may give to a name of its own.
pub const FIRST_HOST: u16 = 256;
/// See [`FIRST_HOST`].
pub const LAST_HOST: u16 = 1_023;
/// The most nodes that reading makes of a token.
pub const NODES_PER_TOKEN: usize = 3;
/// The most nodes of a tree.
pub const MOST_NODES: usize = NODES_PER_TOKEN * MOST_TOKENS;
/// Words of the message buffer: two records.
pub const MESSAGE_BUFFER: usize = 2 * MESSAGE_WORDS;
/// Words in which every list that can be written has room: the lift's output has no fewer.
pub const LIST_BUFFER: usize = TOKEN_WORDS * MOST_TOKENS;
/// Words of the slice that an open list is held in.
pub const HELD_WORDS: usize = LIST_BUFFER;

/// Words of the tree buffer that reading so many tokens asks for.
pub const fn tree_buffer(tokens: usize) -> usize {
    NODES_PER_TOKEN * NODE_WORDS * tokens
}

/// Words of the work buffer that reading so many tokens asks for.
pub const fn work_buffer(tokens: usize) -> usize {
    64 * tokens + 64
}

/// Bytes of the rule buffer that reading so many tokens with rules asks for.
pub const fn rule_buffer(tokens: usize) -> usize {
    NODES_PER_TOKEN * tokens
}

unsafe extern "C" {
    fn sorbrudder_parse(
        list: *const u32,
        list_words: usize,
        tree: *mut u32,
        tree_words: usize,
        messages: *mut u32,
        message_words: usize,
        work: *mut u32,
        work_words: usize,
        source_length: u64,
        version: i16,
        used_low: u64,
        used_high: u64,
        limit: u32,
    ) -> u64;
    fn sorbrudder_parse_rules(
        list: *const u32,
        list_words: usize,
        tree: *mut u32,
        tree_words: usize,
        messages: *mut u32,
        message_words: usize,
        work: *mut u32,
        work_words: usize,
        rules: *mut u8,
        rule_bytes: usize,
        source_length: u64,
        version: i16,
        used_low: u64,
        used_high: u64,
        limit: u32,
    ) -> u64;
    fn sorbrudder_write(
        tree: *const u32,
        tree_words: usize,
        list: *mut u32,
        list_words: usize,
    ) -> u64;
    fn sorbrudder_export(
        tree: *const u32,
        tree_words: usize,
        output: *mut u32,
        output_words: usize,
    ) -> u64;
    fn sorbrudder_import(
        stack: *const u32,
        stack_words: usize,
        output: *mut u32,
        output_words: usize,
    ) -> u64;
    fn sorbrudder_open(
        list: *const u32,
        list_words: usize,
        words: *mut u32,
        slice_words: usize,
        tokens: *mut usize,
        held_version: *mut i16,
        edits: *mut u32,
        tree: *mut u32,
        tree_words: usize,
        messages: *mut u32,
        message_words: usize,
        work: *mut u32,
        work_words: usize,
        version: i16,
        limit: u32,
    ) -> u64;
    fn sorbrudder_ask(
        tokens: usize,
        version: i16,
        words: *const u32,
        slice_words: usize,
        place: usize,
        removed: usize,
        put: *const u32,
        put_words: usize,
        tree: *mut u32,
        tree_words: usize,
        messages: *mut u32,
        message_words: usize,
        work: *mut u32,
        work_words: usize,
        limit: u32,
    ) -> u64;
    fn sorbrudder_commit(
        tokens: *mut usize,
        version: i16,
        edits: *mut u32,
        seen: u32,
        words: *mut u32,
        slice_words: usize,
        place: usize,
        removed: usize,
        put: *const u32,
        put_words: usize,
        tree: *mut u32,
        tree_words: usize,
        messages: *mut u32,
        message_words: usize,
        work: *mut u32,
        work_words: usize,
        limit: u32,
    ) -> u64;
    fn sorbrudder_adopt(version: *mut i16, edits: *mut u32, to: i16) -> u64;
    fn sorbrudder_lift(
        list: *const u32,
        list_words: usize,
        tree: *mut u32,
        tree_words: usize,
        again: *mut u32,
        again_words: usize,
        messages: *mut u32,
        message_words: usize,
        work: *mut u32,
        work_words: usize,
        output: *mut u32,
        output_words: usize,
        from: i16,
        to: i16,
        limit_from: u32,
        limit_to: u32,
    ) -> u64;
}

/// An entry that makes words of words: the write entry, of this library or of the one before it, and export and import.
type WordsEntry = unsafe extern "C" fn(*const u32, usize, *mut u32, usize) -> u64;

/// What an entry answers.
#[derive(Copy, Clone, Debug, PartialEq, Eq)]
pub enum Answer {
    /// So many nodes of a tree, or so many tokens of a list, fill the lent slice's front. A version change has no slice, and answers 0.
    Filled(usize),
    /// So many message records fill the message slice's front. Only entries that read answer this.
    Messages(usize),
    /// A refusal's number and place; no lent word was changed. Reading is refused with 1 to 11, 17 and 18, reading with rules with 16 too,
    /// writing with 12 to 15, export with 12 and 25, import with 24 and 25. Opening a list, asking and committing are refused as reading is
    /// and with 15, asking with 22 too, committing with 21 to 23 too, and a version change with 23.
    Refused(u32, usize),
}

impl Answer {
    /// An answer's number taken apart as include/sorbrudder.h says: bits 0-31 hold a count or a place, bits 32-39 a refusal's number, the
    /// bits above them 0 for a tree or a list, 1 for messages, 2 for a refusal. The library is proved to answer no other number.
    #[inline]
    fn of(answer: u64) -> Self {
        let (kind, number) = (answer >> 40, u32::from((answer >> 32) as u8));
        let low = answer as u32 as usize;
        match (kind, number) {
            (0, 0) => Self::Filled(low),
            (1, 0) => Self::Messages(low),
            (2, _) => Self::Refused(number, low),
            _ => panic!("the library never answers {answer:#x}"),
        }
    }
}

/// What becomes of a list that is lifted from one engine to another.
#[derive(Copy, Clone, Debug, PartialEq, Eq)]
pub enum Lot {
    /// Both engines read it as the same tree, of so many nodes: the list stays as it is.
    Same(usize),
    /// So many tokens fill the output's front: the list that comes out.
    Lifted(usize),
    /// The old engine has so many messages for it, which fill the message slice's front.
    Messages(usize),
    /// The call is turned back with a refusal's number and place: 1 to 5, 17, 8 to 11, 18 of the old limit, or 15. No lent word was
    /// changed.
    Refused(u32, usize),
    /// The list as it is is too deep for the new limit: 18 and the token.
    Behind(u32, usize),
    /// What would be written of the old engine's tree is no list for the new one: 13 and the node, 14, or 18 and the token of the output.
    Unwritten(u32, usize),
}

impl Lot {
    /// The lift's answer taken apart, as [`Answer`]'s is.
    #[inline]
    fn of(answer: u64) -> Self {
        let (kind, number) = (answer >> 40, u32::from((answer >> 32) as u8));
        let low = answer as u32 as usize;
        match (kind, number) {
            (0, 0) => Self::Same(low),
            (1, 0) => Self::Messages(low),
            (2, _) => Self::Refused(number, low),
            (3, 0) => Self::Lifted(low),
            (4, _) => Self::Behind(number, low),
            (5, _) => Self::Unwritten(number, low),
            _ => panic!("the library never answers {answer:#x}"),
        }
    }
}

/// What the lift is lent.
#[derive(Debug)]
pub struct LentToLift<'b> {
    /// The list's words, [`TOKEN_WORDS`] a token.
    pub list: &'b [u32],
    /// Where the words of the old engine's tree go, [`NODE_WORDS`] a node.
    pub tree: &'b mut [u32],
    /// Where the words of the new engine's tree go.
    pub again: &'b mut [u32],
    /// Where the words of messages go, [`MESSAGE_WORDS`] a message.
    pub messages: &'b mut [u32],
    /// Words to work in; all are zero after a call that is not refused.
    pub work: &'b mut [u32],
    /// Where the words of a list that comes out go, at least [`LIST_BUFFER`].
    pub output: &'b mut [u32],
}

/// An engine that lists are lifted from or to.
#[derive(Copy, Clone, Debug)]
pub struct Engine {
    /// The version at which it reads.
    pub version: i16,
    /// How many brackets may be open at once there, 1 to [`MOST_NESTING`].
    pub limit: u32,
}

/// What the parse entries are lent.
#[derive(Debug)]
pub struct Lent<'b> {
    /// The list's words, [`TOKEN_WORDS`] a token.
    pub list: &'b [u32],
    /// Where a tree's words go, [`NODE_WORDS`] a node.
    pub tree: &'b mut [u32],
    /// Where the words of messages go, [`MESSAGE_WORDS`] a message.
    pub messages: &'b mut [u32],
    /// Words to work in; all are zero after a call that is not refused.
    pub work: &'b mut [u32],
}

/// What the parse entries are given beside what they are lent.
#[derive(Copy, Clone, Debug)]
pub struct Given {
    /// The length of the source, at most 536,870,911.
    pub source_len: u64,
    /// A pack's declared version.
    pub version: i16,
    /// The used set in two halves, operator 0 being the lowest bit of the first; hosts' own names have none.
    pub used: (u64, u64),
    /// How many brackets may be open at once, 1 to [`MOST_NESTING`].
    pub limit: u32,
}

/// The held numbers of an open list.
#[derive(Copy, Clone, Debug, Default, PartialEq, Eq)]
pub struct Held {
    /// How many tokens the list has.
    pub tokens: usize,
    /// The version by whose rules it is read.
    pub version: i16,
    /// How many edits were committed and versions adopted since it was opened.
    pub edits: u32,
}

/// An edit of an open list.
#[derive(Copy, Clone, Debug)]
pub struct Edit<'e> {
    /// The token from which on tokens are removed, counted from 0 to the list's count.
    pub place: usize,
    /// How many tokens are removed.
    pub removed: usize,
    /// The words of the tokens that are put in.
    pub put: &'e [u32],
}

/// What a reading of an open list is lent, and its nesting limit: all of a [`Lent`] and a [`Given`] that the open list does not have.
#[derive(Debug)]
pub struct Room<'b> {
    /// Where a tree's words go, [`NODE_WORDS`] a node.
    pub tree: &'b mut [u32],
    /// Where the words of messages go, [`MESSAGE_WORDS`] a message.
    pub messages: &'b mut [u32],
    /// Words to work in; all are zero after a call that is not refused.
    pub work: &'b mut [u32],
    /// How many brackets may be open at once, 1 to [`MOST_NESTING`].
    pub limit: u32,
}

/// Reads a list's words.
#[inline]
pub fn parse(lent: Lent<'_>, given: Given) -> Answer {
    // SAFETY: each slice is passed with its own length, the borrows keep them apart, and the entry keeps none of them.
    Answer::of(unsafe {
        sorbrudder_parse(
            lent.list.as_ptr(),
            lent.list.len(),
            lent.tree.as_mut_ptr(),
            lent.tree.len(),
            lent.messages.as_mut_ptr(),
            lent.messages.len(),
            lent.work.as_mut_ptr(),
            lent.work.len(),
            given.source_len,
            given.version,
            given.used.0,
            given.used.1,
            given.limit,
        )
    })
}

/// Reads a list's words as [`parse`] does. Of a tree the front of `rules` is filled too: a byte for each node in tree order, 0 for a leaf,
/// else the number of the rule that first gave it children, 1 to 20. No other byte of `rules` is changed.
#[inline]
pub fn parse_rules(lent: Lent<'_>, rules: &mut [u8], given: Given) -> Answer {
    // SAFETY: each slice is passed with its own length, the borrows keep them apart, and the entry keeps none of them.
    Answer::of(unsafe {
        sorbrudder_parse_rules(
            lent.list.as_ptr(),
            lent.list.len(),
            lent.tree.as_mut_ptr(),
            lent.tree.len(),
            lent.messages.as_mut_ptr(),
            lent.messages.len(),
            lent.work.as_mut_ptr(),
            lent.work.len(),
            rules.as_mut_ptr(),
            rules.len(),
            given.source_len,
            given.version,
            given.used.0,
            given.used.1,
            given.limit,
        )
    })
}

/// Writes a tree's words as a list's.
#[inline]
pub fn write(tree: &[u32], list: &mut [u32]) -> Answer {
    words_by(sorbrudder_write, tree, list)
}

/// Puts a tree's words into stack order, each node's after those of its children in order, in the front of `output`.
#[inline]
pub fn export(tree: &[u32], output: &mut [u32]) -> Answer {
    words_by(sorbrudder_export, tree, output)
}

/// Puts a tree's words in stack order back into tree order, parent first, in the front of `output`.
#[inline]
pub fn import(stack: &[u32], output: &mut [u32]) -> Answer {
    words_by(sorbrudder_import, stack, output)
}

/// Opens a list at a version: reads it, and where that is not refused lays its words into the front of `words` and sets the held numbers.
#[inline]
pub fn open(
    held: &mut Held,
    words: &mut [u32],
    list: &[u32],
    version: i16,
    room: Room<'_>,
) -> Answer {
    // SAFETY: each slice is passed with its own length and each number by its own field, the borrows keep them apart, and the entry keeps
    // none of them; here and below.
    Answer::of(unsafe {
        sorbrudder_open(
            list.as_ptr(),
            list.len(),
            words.as_mut_ptr(),
            words.len(),
            &raw mut held.tokens,
            &raw mut held.version,
            &raw mut held.edits,
            room.tree.as_mut_ptr(),
            room.tree.len(),
            room.messages.as_mut_ptr(),
            room.messages.len(),
            room.work.as_mut_ptr(),
            room.work.len(),
            version,
            room.limit,
        )
    })
}

/// Says what the list that is held in the front of `words` would read as with an edit made. Its edit count is not looked at.
#[inline]
pub fn ask(held: Held, words: &[u32], edit: Edit<'_>, room: Room<'_>) -> Answer {
    // SAFETY: as in `open`.
    Answer::of(unsafe {
        sorbrudder_ask(
            held.tokens,
            held.version,
            words.as_ptr(),
            words.len(),
            edit.place,
            edit.removed,
            edit.put.as_ptr(),
            edit.put.len(),
            room.tree.as_mut_ptr(),
            room.tree.len(),
            room.messages.as_mut_ptr(),
            room.messages.len(),
            room.work.as_mut_ptr(),
            room.work.len(),
            room.limit,
        )
    })
}

/// Makes an edit that was asked when the edit count was `seen`: answers as [`ask`], and where that is not refused lays the new list's words
/// into the front of `words` and sets the held numbers.
#[inline]
pub fn commit(
    held: &mut Held,
    seen: u32,
    words: &mut [u32],
    edit: Edit<'_>,
    room: Room<'_>,
) -> Answer {
    // SAFETY: as in `open`.
    Answer::of(unsafe {
        sorbrudder_commit(
            &raw mut held.tokens,
            held.version,
            &raw mut held.edits,
            seen,
            words.as_mut_ptr(),
            words.len(),
            edit.place,
            edit.removed,
            edit.put.as_ptr(),
            edit.put.len(),
            room.tree.as_mut_ptr(),
            room.tree.len(),
            room.messages.as_mut_ptr(),
            room.messages.len(),
            room.work.as_mut_ptr(),
            room.work.len(),
            room.limit,
        )
    })
}

/// Adopts the rules of a version over the same words; nothing is read.
#[inline]
pub fn adopt(held: &mut Held, version: i16) -> Answer {
    // SAFETY: as in `open`.
    Answer::of(unsafe { sorbrudder_adopt(&raw mut held.version, &raw mut held.edits, version) })
}

/// Lifts a list's words from one engine to another: reads them at both, and writes the old engine's tree where they read otherwise.
#[inline]
pub fn lift(lent: LentToLift<'_>, from: Engine, to: Engine) -> Lot {
    // SAFETY: each slice is passed with its own length, the borrows keep them apart, and the entry keeps none of them.
    Lot::of(unsafe {
        sorbrudder_lift(
            lent.list.as_ptr(),
            lent.list.len(),
            lent.tree.as_mut_ptr(),
            lent.tree.len(),
            lent.again.as_mut_ptr(),
            lent.again.len(),
            lent.messages.as_mut_ptr(),
            lent.messages.len(),
            lent.work.as_mut_ptr(),
            lent.work.len(),
            lent.output.as_mut_ptr(),
            lent.output.len(),
            from.version,
            to.version,
            from.limit,
            to.limit,
        )
    })
}

#[inline]
fn words_by(entry: WordsEntry, words: &[u32], output: &mut [u32]) -> Answer {
    // SAFETY: both slices are passed with their own lengths, the borrows keep them apart, and the entry keeps neither.
    Answer::of(unsafe {
        entry(
            words.as_ptr(),
            words.len(),
            output.as_mut_ptr(),
            output.len(),
        )
    })
}

/// The library before this one, as `build.rs` renamed its entries, each called as it is declared in its own header: an older one takes no
/// nesting limit, and reads as under the greatest. `build.rs` refuses an archive of which it is not known what its entries take.
#[cfg(before)]
pub mod before {
    use super::{Answer, Given, Lent};

    mod renamed {
        unsafe extern "C" {
            pub fn sorbrudder_before_parse(
                list: *const u32,
                list_words: usize,
                tree: *mut u32,
                tree_words: usize,
                messages: *mut u32,
                message_words: usize,
                work: *mut u32,
                work_words: usize,
                source_length: u64,
                version: i16,
                used_low: u64,
                used_high: u64,
                #[cfg(not(before_without_limit))] limit: u32,
            ) -> u64;
            pub fn sorbrudder_before_write(
                tree: *const u32,
                tree_words: usize,
                list: *mut u32,
                list_words: usize,
            ) -> u64;
        }
    }

    /// Reads a list's words as the library before did.
    #[inline]
    pub fn parse(lent: Lent<'_>, given: Given) -> Answer {
        // SAFETY: each slice is passed with its own length, the borrows keep them apart, and the entry keeps none of them.
        Answer::of(unsafe {
            renamed::sorbrudder_before_parse(
                lent.list.as_ptr(),
                lent.list.len(),
                lent.tree.as_mut_ptr(),
                lent.tree.len(),
                lent.messages.as_mut_ptr(),
                lent.messages.len(),
                lent.work.as_mut_ptr(),
                lent.work.len(),
                given.source_len,
                given.version,
                given.used.0,
                given.used.1,
                #[cfg(not(before_without_limit))]
                given.limit,
            )
        })
    }

    /// Writes a tree's words as the library before did.
    #[inline]
    pub fn write(tree: &[u32], list: &mut [u32]) -> Answer {
        super::words_by(renamed::sorbrudder_before_write, tree, list)
    }
}

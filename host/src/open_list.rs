//! A list that is held open while it is edited, and its version may rise under it.

use crate::reader::Work;
use crate::token::Token;
use crate::{Limit, MOST_TOKENS, Messages, Node, Refusal, Tokens, Tree, changes};
use sorbrudder_sys::{Answer, HELD_WORDS, Held, Room};
use std::fmt;
use std::sync::atomic::{AtomicU64, Ordering};

/// A list that an editor holds open while somebody types and the pack's version may rise under it. It owns its words and the buffers that
/// it is read in.
///
/// An edit is asked first: the answer says what the list would read as, and nothing held changes. What was asked is then committed. Every
/// commit and every version change adds one to the list's edit count, and [`Asked`] knows the count at which it was asked and the list that
/// it was asked of, so an edit that was asked of another state of the list, or of another list, is turned back; where it is not, the list
/// reads as was asked. A clone is another list.
///
/// ```
/// use sorbrudder::{Edit, EditError, OpenList, Tokens};
///
/// // What somebody types, token by token. Four tokens stand when the list is opened, the last of them without an operand.
/// let text = "armed && ready || calm && near";
/// let typed: Tokens = text.parse()?;
/// let mut open = OpenList::open(&typed[..4], 5)?;
/// let messages = open.read().unwrap_err();
/// assert_eq!(messages[0].span().of(text), Some("||"));
///
/// // Two more: the message moves to the next sign. Asking changes nothing.
/// let asked = open.ask(Edit::put_in(4, &typed[4..6]))?;
/// let messages = asked.reading().unwrap_err();
/// assert_eq!(messages[0].span().start(), 23);
/// assert_eq!((open.len(), open.edits()), (4, 0));
///
/// // With the last one there is a tree, and the editor takes the edit over.
/// let asked = open.ask(Edit::put_in(4, &typed[4..]))?;
/// assert_eq!(asked.reading().unwrap().to_string(), "57(57(a,56(b,c)),d)");
/// open.commit(&asked)?;
/// assert_eq!((open.tokens(), open.edits()), (typed, 1));
///
/// // The pack's version rises: nothing is read until the list is asked again, and it reads otherwise.
/// open.adopt(6)?;
/// assert_eq!(open.read().unwrap().to_string(), "56(57(a,b),57(c,d))");
///
/// // What was asked before then is not committed.
/// assert_eq!(open.commit(&asked), Err(EditError::OtherEditCount { seen: 0, edits: 2 }));
/// # Ok::<(), Box<dyn std::error::Error>>(())
/// ```
///
/// Asking and committing take at most 84 KiB of stack in the library, opening 2 KiB, whatever the list.
pub struct OpenList {
    opening: Opening,
    held: Held,
    /// As many as the longest list has; those of the held list stand in front.
    words: Vec<u32>,
    limit: Limit,
    tree: Vec<u32>,
    work: Work,
}

/// Which list it is: no two open lists of a program have the same.
#[derive(Copy, Clone, Debug, PartialEq, Eq)]
struct Opening(u64);

impl Opening {
    fn next() -> Self {
        // A program that opens a list each nanosecond comes round after five hundred years.
        static NEXT: AtomicU64 = AtomicU64::new(0);
        Self(NEXT.fetch_add(1, Ordering::Relaxed))
    }
}

/// Another list with the same words: what was asked of the one is not committed to the other, since each goes its own way from here.
///
/// ```
/// use sorbrudder::{Edit, EditError, OpenList, Tokens};
///
/// let list: Tokens = "a + b".parse().unwrap();
/// let mut open = OpenList::open(&list, 6).unwrap();
/// let asked = open.ask(Edit::remove(1, 2)).unwrap();
/// assert_eq!(open.clone().commit(&asked), Err(EditError::OtherList));
/// open.commit(&asked).unwrap();
/// ```
impl Clone for OpenList {
    fn clone(&self) -> Self {
        Self {
            opening: Opening::next(),
            held: self.held,
            words: self.words.clone(),
            limit: self.limit,
            tree: self.tree.clone(),
            work: self.work.clone(),
        }
    }
}

/// An edit of an open list.
///
/// ```
/// use sorbrudder::{Edit, OpenList, Tokens};
///
/// let list: Tokens = "a + b".parse().unwrap();
/// let mut open = OpenList::open(&list, 6).unwrap();
/// let times: Tokens = "a * b".parse().unwrap();
/// let asked = open.ask(Edit::replace(1, 1, &times[1..2])).unwrap();
/// assert_eq!(asked.reading().unwrap().to_string(), "31(a,b)");
/// ```
#[derive(Clone, Debug, PartialEq, Eq, Hash)]
pub struct Edit {
    /// The token from which on tokens are removed, counted from 0; the list's count where the edit is at its end.
    pub place: usize,
    /// How many tokens are removed.
    pub removed: usize,
    /// The tokens that are put in there.
    pub put: Tokens,
}

impl Edit {
    /// The edit that removes tokens and puts in others in their place.
    ///
    /// ```
    /// use sorbrudder::{Edit, Tokens};
    ///
    /// let put: Tokens = "c".parse().unwrap();
    /// assert_eq!(Edit::replace(2, 1, put.clone()), Edit { place: 2, removed: 1, put });
    /// ```
    pub fn replace(place: usize, removed: usize, put: impl Into<Tokens>) -> Self {
        Self {
            place,
            removed,
            put: put.into(),
        }
    }

    /// The edit of what somebody typed: it removes tokens of a list and puts in others, whose spans lie in the new text, and moves the
    /// spans of all later tokens by `grown`, by how many bytes the text became longer (or shorter, below 0). It is one edit, so the list
    /// never reads as if half of it were done.
    ///
    /// Where a later token's span would leave what a [`Span`](crate::Span) can be, it is [`EditError::SpanOutOfReach`], and where the list
    /// has no such tokens [`EditError::PastTheEnd`].
    ///
    /// ```
    /// use sorbrudder::{Edit, OpenList, Tokens};
    ///
    /// let (before, after): (Tokens, Tokens) = ("a + b * c".parse().unwrap(), "a + !x * c".parse().unwrap());
    /// let mut open = OpenList::open(&before, 6).unwrap();
    ///
    /// // `b` becomes `!x`: one token goes, two come, and what stands behind them moves by a byte.
    /// let edit = Edit::typed(&open.tokens(), 2, 1, &after[2..4], 1).unwrap();
    /// let asked = open.ask(edit).unwrap();
    /// open.commit(&asked).unwrap();
    /// assert_eq!((open.tokens(), open.edits()), (after, 1));
    /// ```
    pub fn typed(
        list: &[Token],
        place: usize,
        removed: usize,
        put: impl Into<Tokens>,
        grown: i64,
    ) -> Result<Self, EditError> {
        let later = place.checked_add(removed).ok_or(EditError::PastTheEnd)?;
        let behind = list.get(later..).ok_or(EditError::PastTheEnd)?;
        let mut put = put.into().into_vec();
        for (number, token) in behind.iter().enumerate() {
            let span = token.span.moved(grown);
            let token = Token {
                span: span.ok_or(EditError::SpanOutOfReach {
                    token: later + number,
                })?,
                ..*token
            };
            put.push(token);
        }
        Ok(Self::replace(place, list.len() - place, put))
    }

    /// The edit that puts in tokens and removes none.
    ///
    /// ```
    /// use sorbrudder::{Edit, Tokens};
    ///
    /// let put: Tokens = "-".parse().unwrap();
    /// assert_eq!(Edit::put_in(0, put.clone()), Edit::replace(0, 0, put));
    /// ```
    pub fn put_in(place: usize, put: impl Into<Tokens>) -> Self {
        Self::replace(place, 0, put)
    }

    /// The edit that removes tokens and puts in none.
    ///
    /// ```
    /// use sorbrudder::{Edit, Tokens};
    ///
    /// assert_eq!(Edit::remove(3, 2), Edit::replace(3, 2, Tokens::default()));
    /// ```
    pub fn remove(place: usize, removed: usize) -> Self {
        Self::replace(place, removed, Tokens::default())
    }
}

/// An edit that was asked of an open list, with what the list would read as and the edit count at which that is so.
///
/// It is committed to the list that was asked, and to no other; of several asks at one edit count any one can be.
///
/// ```
/// use sorbrudder::{Edit, OpenList, Tokens};
///
/// let list: Tokens = "a + b".parse().unwrap();
/// let mut open = OpenList::open(&list, 6).unwrap();
/// let (less, none) = (open.ask(Edit::remove(1, 2)).unwrap(), open.ask(Edit::remove(0, 3)).unwrap());
/// assert_eq!(none.reading().unwrap_err().to_string(), "there is nothing to read (at 0-0)");
/// open.commit(&less).unwrap();
/// assert_eq!((open.tokens(), open.commit(&none).is_err()), (list[..1].into(), true));
/// ```
#[derive(Clone, Debug, PartialEq, Eq)]
pub struct Asked {
    opening: Opening,
    edit: Edit,
    seen: u32,
    reading: Result<Tree, Messages>,
}

impl Asked {
    /// The edit.
    ///
    /// ```
    /// use sorbrudder::{Edit, OpenList};
    ///
    /// let mut open = OpenList::open(&[], 6).unwrap();
    /// assert_eq!(open.ask(Edit::remove(0, 0)).unwrap().edit(), &Edit::remove(0, 0));
    /// ```
    pub fn edit(&self) -> &Edit {
        &self.edit
    }

    /// The list's edit count when it was asked.
    ///
    /// ```
    /// use sorbrudder::{Edit, OpenList};
    ///
    /// let mut open = OpenList::open(&[], 6).unwrap();
    /// open.adopt(7).unwrap();
    /// assert_eq!(open.ask(Edit::remove(0, 0)).unwrap().seen(), 1);
    /// ```
    pub fn seen(&self) -> u32 {
        self.seen
    }

    /// What the list would read as: a tree, or why it is none. The list reads so where the edit is committed.
    ///
    /// ```
    /// use sorbrudder::{Edit, OpenList, Tokens};
    ///
    /// let list: Tokens = "a * b".parse().unwrap();
    /// let mut open = OpenList::open(&list, 6).unwrap();
    /// let asked = open.ask(Edit::remove(2, 1)).unwrap();
    /// assert!(asked.reading().is_err());
    /// open.commit(&asked).unwrap();
    /// assert_eq!(open.read().as_ref(), asked.reading());
    /// ```
    pub fn reading(&self) -> Result<&Tree, &Messages> {
        self.reading.as_ref()
    }
}

/// Why a list is not opened, an edit not answered or not made, or a version not adopted. Nothing held has changed.
///
/// The library's refusal 15, a slice that is too short, cannot happen, nor can held numbers that claim too many tokens: both are the list's
/// own.
///
/// ```
/// use sorbrudder::{Edit, EditError, OpenList, Refusal, Tokens};
///
/// let list: Tokens = "a + b".parse().unwrap();
/// let mut open = OpenList::open(&list, 6).unwrap();
/// assert_eq!(open.ask(Edit::remove(2, 2)), Err(EditError::PastTheEnd));
/// let many: Tokens = vec![list[0]; 4_094].into();
/// assert_eq!(open.ask(Edit::put_in(0, many)), Err(EditError::Refused(Refusal::TooManyTokens)));
/// ```
#[derive(Copy, Clone, Debug, PartialEq, Eq)]
#[non_exhaustive]
pub enum EditError {
    /// The new list, or the list that is opened, was turned back; it was not read.
    Refused(Refusal),
    /// The new list, or the list that is opened, nests deeper than the open list's [`Limit`]; it was not read.
    TooDeep {
        /// The first token of that list, counted from 0, with which more brackets are open than the limit. It opens one.
        token: usize,
    },
    /// The edit was asked of another open list; of a clone too. Told before all others.
    OtherList,
    /// The list has another edit count than the one at which the edit was asked: something else was committed, or a version adopted.
    OtherEditCount {
        /// The edit count at which the edit was asked.
        seen: u32,
        /// The list's edit count.
        edits: u32,
    },
    /// The edit's place, or what it removes, is past the list's end.
    PastTheEnd,
    /// A later token's span would leave what a span can be ([`Edit::typed`]).
    SpanOutOfReach {
        /// The token, counted from 0 in the list before the edit.
        token: usize,
    },
    /// The list's edit count is 4,294,967,295: nothing more is committed and no version adopted.
    LastEdit,
}

impl fmt::Display for EditError {
    fn fmt(&self, f: &mut fmt::Formatter<'_>) -> fmt::Result {
        match self {
            Self::Refused(refusal) => refusal.fmt(f),
            Self::TooDeep { token } => write!(
                f,
                "too deep: with token {token} more brackets are open than the limit allows"
            ),
            Self::OtherList => write!(f, "the edit was asked of another list"),
            Self::OtherEditCount { seen, edits } => write!(
                f,
                "the list changed after the edit was asked: its edit count was {seen} and is {edits}"
            ),
            Self::PastTheEnd => write!(f, "the edit is past the list's end"),
            Self::SpanOutOfReach { token } => {
                write!(f, "the span of token {token} would be moved out of reach")
            }
            Self::LastEdit => write!(f, "the list's edit count has no next one"),
        }
    }
}

impl std::error::Error for EditError {}

impl OpenList {
    /// Opens a list at a version, whether it is a tree or not.
    ///
    /// ```
    /// use sorbrudder::{EditError, MOST_TOKENS, OpenList, Refusal, Tokens};
    ///
    /// let list: Tokens = "a +".parse().unwrap();
    /// assert_eq!(OpenList::open(&list, 6).unwrap().tokens(), list);
    /// let long = vec![list[0]; MOST_TOKENS + 1];
    /// assert_eq!(OpenList::open(&long, 6).unwrap_err(), EditError::Refused(Refusal::TooManyTokens));
    /// ```
    pub fn open(tokens: &[Token], version: i16) -> Result<Self, EditError> {
        Self::open_within(Limit::MOST, tokens, version)
    }

    /// Opens a list for an engine with this nesting limit: a list that is deeper is turned back, and so is an edit that leads to one.
    ///
    /// ```
    /// use sorbrudder::{Edit, EditError, Limit, OpenList, Tokens};
    ///
    /// let list: Tokens = "((a))".parse().unwrap();
    /// let limit = Limit::new(1).unwrap();
    /// assert_eq!(OpenList::open_within(limit, &list, 6).unwrap_err(), EditError::TooDeep { token: 1 });
    /// let mut open = OpenList::open_within(limit, &list[1..4], 6).unwrap();
    /// assert_eq!(open.ask(Edit::put_in(0, &list[..1])), Err(EditError::TooDeep { token: 1 }));
    /// ```
    pub fn open_within(limit: Limit, tokens: &[Token], version: i16) -> Result<Self, EditError> {
        let mut open = Self {
            opening: Opening::next(),
            held: Held::default(),
            words: vec![0; HELD_WORDS],
            limit,
            tree: Vec::new(),
            work: Work::default(),
        };
        let list: Vec<u32> = tokens.iter().flat_map(|token| token.words()).collect();
        let answer = open.lend(tokens.len(), |held, words, room| {
            sorbrudder_sys::open(held, words, &list, version, room)
        });
        open.accepted(answer, 0)?;
        Ok(open)
    }

    /// How many edits were committed and versions adopted since the list was opened.
    ///
    /// ```
    /// use sorbrudder::{Edit, OpenList};
    ///
    /// let mut open = OpenList::open(&[], 6).unwrap();
    /// open.adopt(7).unwrap();
    /// open.ask(Edit::remove(0, 0)).unwrap();
    /// assert_eq!(open.edits(), 1);
    /// ```
    pub fn edits(&self) -> u32 {
        self.held.edits
    }

    /// The version by whose rules the list is read.
    ///
    /// ```
    /// assert_eq!(sorbrudder::OpenList::open(&[], 6).unwrap().version(), 6);
    /// ```
    pub fn version(&self) -> i16 {
        self.held.version
    }

    /// The nesting limit that the list is read under.
    ///
    /// ```
    /// use sorbrudder::{Limit, OpenList};
    ///
    /// assert_eq!(OpenList::open(&[], 6).unwrap().limit(), Limit::MOST);
    /// ```
    pub fn limit(&self) -> Limit {
        self.limit
    }

    /// How many tokens the list has.
    ///
    /// ```
    /// assert_eq!(sorbrudder::OpenList::open(&[], 6).unwrap().len(), 0);
    /// ```
    pub fn len(&self) -> usize {
        self.held.tokens
    }

    /// Whether the list has no token.
    ///
    /// ```
    /// assert!(sorbrudder::OpenList::open(&[], 6).unwrap().is_empty());
    /// ```
    pub fn is_empty(&self) -> bool {
        self.len() == 0
    }

    /// The list: the opened one with the committed edits made in order.
    ///
    /// ```
    /// use sorbrudder::{OpenList, Tokens};
    ///
    /// let list: Tokens = "a + b".parse().unwrap();
    /// assert_eq!(OpenList::open(&list, 6).unwrap().tokens(), list);
    /// ```
    pub fn tokens(&self) -> Tokens {
        Tokens::from_words(self.words()).expect("the library accepted them")
    }

    /// The list's words.
    ///
    /// ```
    /// use sorbrudder::{OpenList, Tokens};
    ///
    /// let list: Tokens = "a + b".parse().unwrap();
    /// assert_eq!(OpenList::open(&list, 6).unwrap().words(), list.words());
    /// ```
    pub fn words(&self) -> &[u32] {
        &self.words[..Token::WORDS * self.held.tokens]
    }

    /// Reads the list by the rules of its version, with its own operators as the used set and its highest span end as the source length.
    ///
    /// ```
    /// use sorbrudder::{OpenList, Reader, Tokens};
    ///
    /// let list: Tokens = "a ? b : c ? d : e".parse().unwrap();
    /// let mut open = OpenList::open(&list, 4).unwrap();
    /// assert_eq!(open.read().unwrap(), Reader::new().read(&list, 4).unwrap());
    /// ```
    pub fn read(&mut self) -> Result<Tree, Messages> {
        let asked = self.ask(Edit::remove(0, 0));
        asked
            .expect("the held list was accepted under the same limit")
            .reading
    }

    /// Asks what the list would read as with an edit made. Nothing held changes.
    ///
    /// ```
    /// use sorbrudder::{Edit, OpenList, Tokens};
    ///
    /// let list: Tokens = "a b".parse().unwrap();
    /// let mut open = OpenList::open(&list, 6).unwrap();
    /// assert_eq!(open.ask(Edit::remove(1, 1)).unwrap().reading().unwrap().to_string(), "a");
    /// assert_eq!(open.tokens(), list);
    /// ```
    pub fn ask(&mut self, edit: Edit) -> Result<Asked, EditError> {
        let put = edit.put.words();
        let answer = self.lend(self.tokens_with(&edit), |held, words, room| {
            sorbrudder_sys::ask(*held, words, edit_of(&edit, &put), room)
        });
        let seen = self.held.edits;
        self.accepted(answer, seen)?;
        Ok(Asked {
            opening: self.opening,
            edit,
            seen,
            reading: self.reading(answer),
        })
    }

    /// Makes an edit that was asked of this list, unless the list has changed since.
    ///
    /// ```
    /// use sorbrudder::{Edit, OpenList, Tokens};
    ///
    /// let list: Tokens = "a + b".parse().unwrap();
    /// let mut open = OpenList::open(&list, 6).unwrap();
    /// let asked = open.ask(Edit::remove(0, 2)).unwrap();
    /// open.commit(&asked).unwrap();
    /// assert_eq!(open.tokens()[..], list[2..]);
    /// // It is asked once and committed once.
    /// assert!(open.commit(&asked).is_err());
    /// ```
    pub fn commit(&mut self, asked: &Asked) -> Result<(), EditError> {
        if asked.opening != self.opening {
            return Err(EditError::OtherList);
        }
        let (edit, seen) = (&asked.edit, asked.seen);
        let put = edit.put.words();
        let answer = self.lend(self.tokens_with(edit), |held, words, room| {
            sorbrudder_sys::commit(held, seen, words, edit_of(edit, &put), room)
        });
        self.accepted(answer, seen)
    }

    /// The nodes of what was asked that the list as it is does not read so: those of tokens that are new, and those that are paired
    /// otherwise, with another parent or other children, or that close elsewhere. It is what an editor has to draw anew; what is not among
    /// them stands in the tree as before, at the same place or moved with the text ([`Edit::typed`]).
    ///
    /// None are given where the list would be no tree, and all where it is none now. [`Tree::differences`] compares two trees from the
    /// root on, and where two nodes differ goes no deeper; this compares every node by itself.
    ///
    /// ```
    /// use sorbrudder::{Edit, OpenList, Tokens};
    ///
    /// // `d * e` becomes `d + e`: the `+` is new, and stands above all; what was under the `*` hangs elsewhere. `d` is still the operand
    /// // of its sign, and the brackets with what is in them, and their product with `c`, are as they were.
    /// let (before, after): (Tokens, Tokens) = ("(a + b) * c - d * e".parse()?, "(a + b) * c - d + e".parse()?);
    /// let mut open = OpenList::open(&before, 6)?;
    /// let asked = open.ask(Edit::replace(9, 1, &after[9..10]))?;
    /// let changed = open.changes(&asked)?;
    /// let parts = changed.iter().map(|node| node.span().of("(a + b) * c - d + e").unwrap());
    /// assert_eq!(parts.collect::<Vec<_>>(), ["+", "-", "-", "e"]);
    /// # Ok::<(), Box<dyn std::error::Error>>(())
    /// ```
    pub fn changes<'a>(&mut self, asked: &'a Asked) -> Result<Vec<Node<'a>>, EditError> {
        self.is_of_now(asked)?;
        let Ok(new) = &asked.reading else {
            return Ok(Vec::new());
        };
        let Ok(old) = self.read() else {
            return Ok(new.nodes().collect());
        };
        let (before, edit) = (self.tokens(), &asked.edit);
        let mut after = before.to_vec();
        after.splice(
            edit.place..edit.place + edit.removed,
            edit.put.iter().copied(),
        );
        Ok(changes::between((&before, &old), (&after, new)))
    }

    /// Whether an edit was asked of this list as it is now.
    fn is_of_now(&self, asked: &Asked) -> Result<(), EditError> {
        if asked.opening != self.opening {
            return Err(EditError::OtherList);
        }
        let (seen, edits) = (asked.seen, self.held.edits);
        match seen == edits {
            true => Ok(()),
            false => Err(EditError::OtherEditCount { seen, edits }),
        }
    }

    /// Adopts the rules of a version. Nothing is read: [`OpenList::read`] says what the list is now.
    ///
    /// ```
    /// use sorbrudder::{OpenList, Tokens};
    ///
    /// let list: Tokens = "a && b || c".parse().unwrap();
    /// let mut open = OpenList::open(&list, 5).unwrap();
    /// assert_eq!(open.read().unwrap().to_string(), "57(a,56(b,c))");
    /// open.adopt(6).unwrap();
    /// assert_eq!(open.read().unwrap().to_string(), "56(57(a,b),c)");
    /// ```
    pub fn adopt(&mut self, version: i16) -> Result<(), EditError> {
        match sorbrudder_sys::adopt(&mut self.held, version) {
            Answer::Filled(_) => Ok(()),
            // 23, which is all that a version change is turned back with.
            _ => Err(EditError::LastEdit),
        }
    }

    /// How many tokens the list would have with an edit made, which the buffers have to have room for. An edit past the end is turned back.
    fn tokens_with(&self, edit: &Edit) -> usize {
        self.len().saturating_sub(edit.removed) + edit.put.len()
    }

    /// Lends an entry what is held, and buffers for so many tokens: more than can be read are turned back before they are looked at.
    fn lend(
        &mut self,
        tokens: usize,
        entry: impl FnOnce(&mut Held, &mut [u32], Room<'_>) -> Answer,
    ) -> Answer {
        let (held, words) = (&mut self.held, &mut self.words);
        let tokens = tokens.min(MOST_TOKENS);
        self.work.lend(tokens, self.limit, &mut self.tree, |room| {
            entry(held, words, room)
        })
    }

    /// What the library read a list as that it accepted.
    fn reading(&self, answer: Answer) -> Result<Tree, Messages> {
        match answer {
            Answer::Messages(count) => Err(self.work.messages(count)),
            Answer::Filled(nodes) => {
                let words = self.tree[..Tree::NODE_WORDS * nodes].to_vec();
                Ok(Tree::of_sound(words))
            }
            Answer::Refused(..) => unreachable!("it accepted the list"),
        }
    }

    /// Why the library did not accept a list.
    fn accepted(&self, answer: Answer, seen: u32) -> Result<(), EditError> {
        let Answer::Refused(number, place) = answer else {
            return Ok(());
        };
        Err(match number {
            18 => EditError::TooDeep { token: place },
            21 => EditError::OtherEditCount {
                seen,
                edits: self.held.edits,
            },
            22 => EditError::PastTheEnd,
            23 => EditError::LastEdit,
            _ => EditError::Refused(Refusal::of(number, place).expect(
                "the words and the buffers are long enough (15, 3 to 5), a limit is 1 to 4,096 (17)",
            )),
        })
    }
}

/// An edit as the library is lent it.
fn edit_of<'e>(edit: &Edit, put: &'e [u32]) -> sorbrudder_sys::Edit<'e> {
    sorbrudder_sys::Edit {
        place: edit.place,
        removed: edit.removed,
        put,
    }
}

/// The list and its numbers; the words behind it and the buffers say nothing.
impl fmt::Debug for OpenList {
    fn fmt(&self, f: &mut fmt::Formatter<'_>) -> fmt::Result {
        f.debug_struct("OpenList")
            .field("tokens", &self.tokens())
            .field("version", &self.version())
            .field("edits", &self.edits())
            .field("limit", &self.limit)
            .finish_non_exhaustive()
    }
}

#[cfg(test)]
mod tests {
    use super::*;

    #[test]
    fn the_last_edit_count_has_no_next_one() {
        let list: Tokens = "a + b".parse().expect("the notation");
        let mut open = OpenList::open(&list, 6).expect("a list");
        open.held.edits = u32::MAX - 1;
        open.adopt(5).expect("a version");
        assert_eq!((open.version(), open.edits()), (5, u32::MAX));
        assert_eq!(open.adopt(6), Err(EditError::LastEdit));
        let asked = open.ask(Edit::remove(1, 2)).expect("asking adds nothing");
        assert_eq!(open.commit(&asked), Err(EditError::LastEdit));
        // An edit past the end is told before, and another count before that.
        let past = Asked {
            edit: Edit::remove(3, 1),
            ..asked.clone()
        };
        assert_eq!(open.commit(&past), Err(EditError::PastTheEnd));
        let old = Asked { seen: 7, ..past };
        let other = EditError::OtherEditCount {
            seen: 7,
            edits: u32::MAX,
        };
        assert_eq!(open.commit(&old), Err(other));
        assert_eq!((open.tokens(), open.version()), (list, 5));
    }
}

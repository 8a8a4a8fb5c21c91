//! Open lists (card 11) beside a list in a `Vec` that is edited by hand: histories of calls, each with what it has to answer by document 02
//! and the Rust, the held numbers and every word of the slice after it, and what a commit has to give after the ask of its edit. A history
//! is made from a seed; calls that are turned back, short slices and states that a caller made up stand among the others.

use crate::library::{Read, read};
use crate::reading::{Buffers, Expected, expected};
use oracle::generate::{Mixed, Rng, dress};
use oracle::nesting::MOST_NESTING;
use oracle::refusal::Call;
use oracle::words::{
    LAST_OP, MOST_TOKENS, TOKEN_WORDS, TREE_WORDS, bit, list_words, low, number_in,
};
pub use sorbrudder_sys::{Answer, Edit, HELD_WORDS, Held, Room};

/// What holds lists open, as the library does.
pub trait Editor {
    fn open(
        &self,
        held: &mut Held,
        words: &mut [u32],
        list: &[u32],
        version: i16,
        room: Room<'_>,
    ) -> Answer;
    fn ask(&self, held: Held, words: &[u32], edit: Edit<'_>, room: Room<'_>) -> Answer;
    fn commit(
        &self,
        held: &mut Held,
        seen: u32,
        words: &mut [u32],
        edit: Edit<'_>,
        room: Room<'_>,
    ) -> Answer;
    fn adopt(&self, held: &mut Held, version: i16) -> Answer;
}

/// The library.
#[derive(Copy, Clone, Default)]
pub struct Library;

impl Editor for Library {
    fn open(
        &self,
        held: &mut Held,
        words: &mut [u32],
        list: &[u32],
        version: i16,
        room: Room<'_>,
    ) -> Answer {
        sorbrudder_sys::open(held, words, list, version, room)
    }

    fn ask(&self, held: Held, words: &[u32], edit: Edit<'_>, room: Room<'_>) -> Answer {
        sorbrudder_sys::ask(held, words, edit, room)
    }

    fn commit(
        &self,
        held: &mut Held,
        seen: u32,
        words: &mut [u32],
        edit: Edit<'_>,
        room: Room<'_>,
    ) -> Answer {
        sorbrudder_sys::commit(held, seen, words, edit, room)
    }

    fn adopt(&self, held: &mut Held, version: i16) -> Answer {
        sorbrudder_sys::adopt(held, version)
    }
}

/// What a reading is lent, by its lengths, and its limit.
#[derive(Copy, Clone, Debug, PartialEq, Eq)]
pub struct Lens {
    pub tree: u64,
    pub messages: u64,
    pub work: u64,
    pub limit: u32,
}

impl Lens {
    /// What reading so many tokens asks for, under the greatest limit.
    pub fn of(tokens: usize) -> Self {
        let tokens = tokens as u64;
        Self {
            tree: TREE_WORDS as u64 * tokens,
            messages: 16,
            work: 64 * tokens + 64,
            limit: MOST_NESTING,
        }
    }
}

/// An edit that owns what it puts in.
#[derive(Clone, Debug, PartialEq, Eq)]
pub struct OwnedEdit {
    pub place: usize,
    pub removed: usize,
    pub put: Vec<u32>,
}

impl OwnedEdit {
    /// Removes and puts in nothing.
    pub fn nothing() -> Self {
        Self {
            place: 0,
            removed: 0,
            put: Vec::new(),
        }
    }

    fn lent(&self) -> Edit<'_> {
        Edit {
            place: self.place,
            removed: self.removed,
            put: &self.put,
        }
    }
}

/// One call.
#[derive(Clone, Debug, PartialEq, Eq)]
pub enum Act {
    Open {
        list: Vec<u32>,
        version: i16,
        lens: Lens,
    },
    Ask {
        edit: OwnedEdit,
        lens: Lens,
    },
    Commit {
        seen: u32,
        edit: OwnedEdit,
        lens: Lens,
    },
    Adopt {
        version: i16,
    },
}

/// What is held: the numbers, and a slice with the words in front.
#[derive(Clone, Debug, PartialEq, Eq)]
pub struct State {
    pub held: Held,
    pub slice: Vec<u32>,
}

/// A call of the parse entry for a list at its own used set and source length, as treelist forms them.
pub fn own_call(list: Vec<u32>, version: i16, lens: Lens) -> Call {
    let tokens = list.chunks_exact(TOKEN_WORDS);
    let ops = tokens.clone().map(|token| number_in(token[0]));
    let named = ops.filter(|op| *op <= LAST_OP).map(bit);
    Call {
        used: named.fold((0, 0), |all, op| (all.0 | op.0, all.1 | op.1)),
        source_len: tokens
            .map(|token| u64::from(low(token[2])))
            .max()
            .unwrap_or(0),
        list,
        tree_len: lens.tree,
        messages_len: lens.messages,
        work_len: lens.work,
        version,
        limit: lens.limit,
    }
}

/// What a call has to answer, and the state after it.
pub struct Wanted {
    pub answer: Expected,
    pub after: State,
    /// The call of the parse entry that it leads to, or one of the same lengths.
    pub call: Call,
}

impl State {
    /// The words of the list, of those that there are.
    fn list(&self) -> &[u32] {
        let words = self.held.tokens.saturating_mul(TOKEN_WORDS);
        &self.slice[..words.min(self.slice.len())]
    }

    /// The list with an edit made by hand, where its place is in the list.
    fn edited(&self, edit: &OwnedEdit) -> Vec<u32> {
        let mut list: Vec<[u32; TOKEN_WORDS]> = self.list().as_chunks().0.to_vec();
        let behind = list.split_off(edit.place + edit.removed);
        list.truncate(edit.place);
        [list.concat(), edit.put.clone(), behind.concat()].concat()
    }

    /// The number of the first row that turns an ask back, or a commit that names a count, before the new list is looked at.
    fn turned_back(&self, seen: Option<u32>, edit: &OwnedEdit) -> Option<u32> {
        let Held { tokens, edits, .. } = self.held;
        let rows = [
            (15, self.slice.len() < HELD_WORDS),
            (2, tokens > MOST_TOKENS),
            (21, seen.is_some_and(|seen| seen != edits)),
            (
                22,
                edit.place > tokens || edit.removed > tokens - edit.place,
            ),
            (23, seen.is_some() && edits == u32::MAX),
        ];
        rows.into_iter()
            .find_map(|(number, fails)| fails.then_some(number))
    }

    /// What a call has to answer, and the state after it, which is this one where the call is turned back.
    pub fn wanted(&self, act: &Act) -> Wanted {
        let (number, list, version, lens) = match act {
            Act::Open {
                list,
                version,
                lens,
            } => {
                let short = (self.slice.len() < HELD_WORDS).then_some(15);
                (short, list.clone(), *version, *lens)
            }
            Act::Ask { edit, lens } | Act::Commit { edit, lens, .. } => {
                let seen = match act {
                    Act::Commit { seen, .. } => Some(*seen),
                    _ => None,
                };
                let number = self.turned_back(seen, edit);
                let list = match number {
                    None => self.edited(edit),
                    Some(_) => Vec::new(),
                };
                (number, list, self.held.version, *lens)
            }
            Act::Adopt { .. } => {
                let number = (self.held.edits == u32::MAX).then_some(23);
                (number, Vec::new(), self.held.version, Lens::of(0))
            }
        };
        let call = own_call(list, version, lens);
        let answer = match (number, act) {
            (Some(number), _) => Expected::Refused(number, 0),
            // Nothing is read.
            (None, Act::Adopt { .. }) => Expected::Tree(Vec::new()),
            (None, _) => expected(&call),
        };
        let mut after = self.clone();
        if !matches!(answer, Expected::Refused(..)) {
            after.take(act, &call.list);
        }
        Wanted {
            answer,
            after,
            call,
        }
    }

    /// Takes over what an accepted call changes.
    fn take(&mut self, act: &Act, list: &[u32]) {
        let tokens = list.len() / TOKEN_WORDS;
        self.held = match act {
            Act::Ask { .. } => return,
            Act::Adopt { version } => Held {
                version: *version,
                edits: self.held.edits + 1,
                ..self.held
            },
            Act::Open { version, .. } => Held {
                tokens,
                version: *version,
                edits: 0,
            },
            Act::Commit { .. } => Held {
                tokens,
                edits: self.held.edits + 1,
                ..self.held
            },
        };
        if !matches!(act, Act::Adopt { .. }) {
            self.slice[..list.len()].copy_from_slice(list);
        }
    }
}

/// How many calls were made, and what became of them.
#[derive(Copy, Clone, Debug, Default, PartialEq, Eq)]
pub struct Tally {
    pub histories: u64,
    pub calls: u64,
    pub trees: u64,
    pub messages: u64,
    /// Calls that were turned back, by their number.
    pub refused: [u64; 26],
    /// Accepted commits, and those of them whose edit had been asked at the same count, over the same lengths and limit.
    pub commits: u64,
    pub as_asked: u64,
    /// Versions adopted.
    pub adopted: u64,
    /// Calls of states that a caller made up.
    pub made_up: u64,
}

/// An ask of a history, and what it was answered.
struct Asked {
    seen: u32,
    edit: OwnedEdit,
    lens: Lens,
    answer: Read,
    words: Vec<u32>,
}

/// An editor whose histories are compared.
pub struct Histories<E> {
    editor: E,
    buffers: Buffers,
    noise: Vec<u32>,
    pub tally: Tally,
}

impl<E: Editor> Histories<E> {
    pub fn by(editor: E) -> Self {
        let mut rng = Rng::new(0x0FE2);
        Self {
            editor,
            buffers: Buffers::default(),
            noise: (0..2 * HELD_WORDS).map(|_| rng.bits() as u32).collect(),
            tally: Tally::default(),
        }
    }

    /// Makes a call of a state; the answer and the words that it left in front of the tree or the messages, or how they, the numbers or the
    /// slice differ from what is wanted.
    pub fn call(&mut self, state: &mut State, act: &Act) -> Result<(Read, Vec<u32>), String> {
        let Wanted {
            answer,
            after,
            call,
        } = state.wanted(act);
        let answered = match act {
            Act::Adopt { version } => {
                let adopted = read(self.editor.adopt(&mut state.held, *version));
                let as_wanted = match answer {
                    Expected::Refused(number, place) => adopted == Read::Refused(number, place),
                    _ => adopted == Read::Tree(0),
                };
                as_wanted
                    .then_some(adopted)
                    .ok_or_else(|| format!("the answer is {adopted:?} and not {answer:?}"))?
            }
            _ => {
                let editor = &self.editor;
                self.buffers.call_by(
                    |_, tree, messages, work, given| {
                        let room = Room {
                            tree,
                            messages,
                            work,
                            limit: given.limit,
                        };
                        read(entered(editor, state, act, room))
                    },
                    &call,
                    &answer,
                )?
            }
        };
        if state.held != after.held {
            return Err(format!("held is {:?} and not {:?}", state.held, after.held));
        }
        if let Some(place) = (0..after.slice.len()).find(|&at| state.slice[at] != after.slice[at]) {
            return Err(format!("word {place} of the slice is another"));
        }
        self.count(answered, act);
        let words = match answered {
            Read::Tree(nodes) if !matches!(act, Act::Adopt { .. }) => {
                self.buffers.tree(nodes).to_vec()
            }
            Read::Messages(count) => self.buffers.records(count).concat(),
            _ => Vec::new(),
        };
        Ok((answered, words))
    }

    fn count(&mut self, answer: Read, act: &Act) {
        self.tally.calls += 1;
        match (answer, act) {
            (Read::Refused(number, _), _) => self.tally.refused[number as usize] += 1,
            (_, Act::Adopt { .. }) => self.tally.adopted += 1,
            (Read::Tree(_), _) => self.tally.trees += 1,
            (Read::Messages(_), _) => self.tally.messages += 1,
        }
        let refused = matches!(answer, Read::Refused(..));
        self.tally.commits += u64::from(!refused && matches!(act, Act::Commit { .. }));
    }

    /// A state of no list, whose numbers and words are noise.
    fn noise_state(&self, rng: &mut Rng) -> State {
        let from = rng.below(HELD_WORDS - 64);
        State {
            held: Held {
                tokens: rng.below(9),
                version: rng.bits() as i16,
                edits: rng.bits() as u32,
            },
            slice: self.noise[from..from + HELD_WORDS + rng.below(64)].to_vec(),
        }
    }

    /// The history of a seed.
    pub fn history(&mut self, seed: u64) -> Result<(), String> {
        let mut rng = Rng::new(seed);
        let mut source = Source::new(&mut rng);
        let mut state = self.noise_state(&mut rng);
        let mut asked: Vec<Asked> = Vec::new();
        self.tally.histories += 1;
        while !self.opens(&mut state, &mut source, &mut rng)? {}
        // A caller that counts on where another left off.
        if rng.chance(4) {
            state.held.edits = u32::MAX - rng.below(3) as u32;
        }
        for number in 0..rng.below(12) {
            let act = source.act(&mut rng, &state, &asked);
            let told = |why| format!("{why}\nin call {number} of history {seed}, {act:?}");
            if rng.chance(5) {
                self.made_up(&mut source, &mut rng, &state).map_err(told)?;
            }
            if rng.chance(2) {
                self.on_a_short_slice(&mut rng, &state, &act)
                    .map_err(told)?;
            }
            let before = state.held.edits;
            let (answer, words) = self.call(&mut state, &act).map_err(told)?;
            self.remember(&mut asked, before, &act, answer, words)
                .map_err(told)?;
        }
        let afresh = Act::Ask {
            edit: OwnedEdit::nothing(),
            lens: Lens::of(state.held.tokens),
        };
        let told = |why| format!("{why}\nafresh after history {seed}");
        self.call(&mut state, &afresh).map_err(told)?;
        Ok(())
    }

    /// Opens a list, or has an opening turned back; whether it was accepted.
    fn opens(
        &mut self,
        state: &mut State,
        source: &mut Source,
        rng: &mut Rng,
    ) -> Result<bool, String> {
        let act = source.opening(rng);
        let told = |why| format!("{why}\nin {act:?}");
        if rng.chance(5) {
            self.on_a_short_slice(rng, state, &act).map_err(told)?;
        }
        let (answer, _) = self.call(state, &act).map_err(told)?;
        Ok(!matches!(answer, Read::Refused(..)))
    }

    /// The same call with a slice that is too short.
    fn on_a_short_slice(&mut self, rng: &mut Rng, state: &State, act: &Act) -> Result<(), String> {
        let mut short = state.clone();
        let len = *rng.pick(&[0, 1, 5 * 9, HELD_WORDS - 5, HELD_WORDS - 1]);
        short.slice.truncate(len);
        self.call(&mut short, act).map(|_| ())
    }

    /// A call of a state that no call left.
    fn made_up(&mut self, source: &mut Source, rng: &mut Rng, state: &State) -> Result<(), String> {
        let most = MOST_TOKENS;
        let mut other = state.clone();
        let any = rng.below(40);
        let claims = [
            most,
            most + 1,
            usize::MAX,
            usize::MAX / 5,
            any,
            state.held.tokens,
        ];
        other.held.tokens = *rng.pick(&claims);
        other.held.edits = *rng.pick(&[u32::MAX, u32::MAX - 1, 0, state.held.edits]);
        other.held.version = rng.bits() as i16;
        let act = source.act(rng, &other, &[]);
        self.tally.made_up += 1;
        self.call(&mut other, &act).map(|_| ())
    }

    /// Keeps an ask; has an accepted commit of an edit that was asked at the same count be answered as the ask was.
    fn remember(
        &mut self,
        asked: &mut Vec<Asked>,
        seen: u32,
        act: &Act,
        answer: Read,
        words: Vec<u32>,
    ) -> Result<(), String> {
        match act {
            Act::Open { .. } if !matches!(answer, Read::Refused(..)) => asked.clear(),
            Act::Ask { edit, lens } => asked.push(Asked {
                seen,
                edit: edit.clone(),
                lens: *lens,
                answer,
                words,
            }),
            Act::Commit { edit, lens, .. } if !matches!(answer, Read::Refused(..)) => {
                let same = |ask: &&Asked| (ask.seen, &ask.edit, ask.lens) == (seen, edit, *lens);
                for ask in asked.iter().filter(same) {
                    self.tally.as_asked += 1;
                    if (ask.answer, &ask.words) != (answer, &words) {
                        return Err(format!("{answer:?}, and {:?} was asked", ask.answer));
                    }
                }
            }
            _ => {}
        }
        Ok(())
    }
}

/// An editor's entry of a call that reads.
fn entered(editor: &impl Editor, state: &mut State, act: &Act, room: Room<'_>) -> Answer {
    let State { held, slice } = state;
    match act {
        Act::Open { list, version, .. } => editor.open(held, slice, list, *version, room),
        Act::Ask { edit, .. } => editor.ask(*held, slice, edit.lent(), room),
        Act::Commit { seen, edit, .. } => editor.commit(held, *seen, slice, edit.lent(), room),
        Act::Adopt { version } => editor.adopt(held, *version),
    }
}

/// What calls are made of.
struct Source {
    lists: Mixed,
}

impl Source {
    fn new(rng: &mut Rng) -> Self {
        let most = match rng.below(1_000) {
            0 => 4_096,
            1..10 => 300,
            _ => 16,
        };
        Self {
            lists: Mixed::new(rng.bits(), most),
        }
    }

    /// The words of a list, now and then with a bit turned over or a word too many or too few.
    fn words(&mut self, rng: &mut Rng, most: usize) -> Vec<u32> {
        let tokens = self.lists.next().expect("without end").tokens;
        let from = rng.below(tokens.len() + 1);
        let from = if most < tokens.len() { from } else { 0 };
        let tokens = &tokens[from..(from + most).min(tokens.len())];
        let mut words = list_words(tokens);
        if rng.chance(4) && !words.is_empty() {
            let at = rng.below(words.len());
            words[at] ^= 1 << rng.below(32);
        }
        if rng.chance(2) {
            words.push(rng.bits() as u32);
        }
        if rng.chance(2) {
            words.pop();
        }
        words
    }

    /// The lengths for so many tokens, now and then too short by one or more than enough, and a limit that may be none.
    fn lens(&mut self, rng: &mut Rng, tokens: usize) -> Lens {
        let mut lens = Lens::of(tokens);
        if rng.chance(30) {
            lens.tree += rng.below(30) as u64;
            lens.messages += rng.below(30) as u64;
            lens.work += rng.below(100) as u64;
        }
        if rng.chance(4) {
            let len = [&mut lens.tree, &mut lens.messages, &mut lens.work]
                .into_iter()
                .nth(rng.below(3));
            let len = len.expect("there are three");
            *len = len.saturating_sub(1 + rng.below(3) as u64);
        }
        if rng.chance(15) {
            lens.limit = *rng.pick(&[0, 1, 1, 2, 2, 3, 4, 64, MOST_NESTING, MOST_NESTING + 1]);
        }
        lens
    }

    fn opening(&mut self, rng: &mut Rng) -> Act {
        let list = self.words(rng, usize::MAX);
        Act::Open {
            lens: self.lens(rng, list.len() / TOKEN_WORDS),
            version: dress::version(rng),
            list,
        }
    }

    /// An edit of a state, one in twelve of which is past its end.
    fn edit(&mut self, rng: &mut Rng, tokens: usize) -> OwnedEdit {
        let inside = tokens.min(MOST_TOKENS);
        let mut place = match rng.below(4) {
            0 => inside,
            1 => 0,
            _ => rng.below(inside + 1),
        };
        let left = inside - place;
        let mut removed = match rng.below(6) {
            0 => left,
            _ => rng.below(left.min(3) + 1),
        };
        if rng.chance(4) {
            place = *rng.pick(&[tokens.wrapping_add(1), tokens.saturating_add(9), usize::MAX]);
        }
        if rng.chance(4) {
            removed = *rng.pick(&[left + 1, left + 9, usize::MAX, usize::MAX - inside]);
        }
        let most = *rng.pick(&[0, 1, 1, 2, 3, 5]);
        let put = match rng.below(400) {
            // As many as there is room for, or one more.
            0 => {
                let room = MOST_TOKENS.saturating_sub(inside.saturating_sub(removed));
                let token = self.lists.find(|case| !case.tokens.is_empty());
                let token = token.expect("without end").tokens[0];
                list_words(&vec![token; room + rng.below(2)])
            }
            _ => self.words(rng, most),
        };
        OwnedEdit {
            place,
            removed,
            put,
        }
    }

    fn asking(&mut self, rng: &mut Rng, state: &State) -> (OwnedEdit, Lens) {
        let tokens = state.held.tokens;
        let edit = self.edit(rng, tokens);
        let left = tokens.min(MOST_TOKENS).saturating_sub(edit.removed);
        let lens = self.lens(rng, left + edit.put.len() / TOKEN_WORDS);
        (edit, lens)
    }

    /// A call of a state, often the commit of what was asked.
    fn act(&mut self, rng: &mut Rng, state: &State, asked: &[Asked]) -> Act {
        let edits = state.held.edits;
        match rng.below(100) {
            0..3 => self.opening(rng),
            3..15 => Act::Adopt {
                version: dress::version(rng),
            },
            15..50 if !asked.is_empty() => {
                let recent = &asked[asked.len().saturating_sub(3)..];
                let ask = rng.pick(recent);
                Act::Commit {
                    seen: ask.seen,
                    edit: ask.edit.clone(),
                    lens: ask.lens,
                }
            }
            50..65 => {
                let (edit, lens) = self.asking(rng, state);
                let others = [
                    edits.wrapping_add(1),
                    edits.wrapping_sub(1),
                    rng.bits() as u32,
                ];
                let seen = match rng.chance(15) {
                    true => *rng.pick(&others),
                    false => edits,
                };
                Act::Commit { seen, edit, lens }
            }
            _ => {
                let (edit, lens) = self.asking(rng, state);
                Act::Ask { edit, lens }
            }
        }
    }
}

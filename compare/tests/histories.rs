//! Open lists (card 11) through the C convention: histories of calls beside a list that is edited by hand and the Rust, every two faults at
//! once, and editors with a mistake put in, which are found out. Without the static library nothing of this is built.
#![cfg(library)]

use compare::histories::{
    Act, Answer, Edit, Editor, HELD_WORDS, Held, Histories, Lens, Library, OwnedEdit, Room, State,
    own_call,
};
use compare::library::Read;
use compare::reading::Expected;
use oracle::generate::{Rng, dress};
use oracle::nesting::MOST_NESTING;
use oracle::words::{MOST_TOKENS, TOKEN_WORDS, list_words};
use sorbrudder_sys::{Given, Lent, parse};

/// How many histories the tests go through; `make compare` goes through 100,000.
const HISTORIES: u64 = 4_000;

#[test]
fn histories_are_as_those_of_a_list_that_is_edited_by_hand() {
    let mut histories = Histories::by(Library);
    for seed in 0..HISTORIES {
        if let Err(difference) = histories.history(seed) {
            panic!("{difference}");
        }
    }
    let tally = histories.tally;
    println!("{tally:?}");
    assert!(tally.trees > 2_000 && tally.messages > 1_000, "{tally:?}");
    assert!(tally.commits > 2_000 && tally.as_asked > 1_000, "{tally:?}");
    assert!(tally.adopted > 500 && tally.made_up > 500, "{tally:?}");
    for number in [1, 2, 3, 4, 5, 8, 9, 11, 15, 17, 18, 21, 22, 23] {
        assert!(tally.refused[number] > 0, "{number}: {tally:?}");
    }
}

/// The words of a list of these operators.
fn list_of(ops: &[u16]) -> Vec<u32> {
    list_words(&dress::plain(ops))
}

/// `a + b` held at version 6 with the edit count 7, and words behind it.
fn sum() -> State {
    let mut slice = vec![0xDEAD_BEEF; HELD_WORDS + 3];
    let list = list_of(&[61, 9, 61]);
    slice[..list.len()].copy_from_slice(&list);
    let held = Held {
        tokens: 3,
        version: 6,
        edits: 7,
    };
    State { held, slice }
}

/// `(c)` put in behind it, which has a bracket more than the limit 1 lets be open where one is before it.
fn put_bracket() -> (OwnedEdit, Lens) {
    let edit = OwnedEdit {
        place: 3,
        removed: 0,
        put: list_of(&[4, 61, 5]),
    };
    (edit, Lens::of(6))
}

/// A fault of a call, by the number of its answer and its place, and how a call gets it.
struct Fault {
    number: u32,
    place: usize,
    make: fn(&mut State, &mut u32, &mut OwnedEdit, &mut Lens),
}

const fn fault(
    number: u32,
    place: usize,
    make: fn(&mut State, &mut u32, &mut OwnedEdit, &mut Lens),
) -> Fault {
    Fault {
        number,
        place,
        make,
    }
}

/// Every fault of a commit, in the order of document 02 and then of document 01's table; an ask has all but 21 and 23.
const FAULTS: [Fault; 15] = [
    fault(15, 0, |state, _, _, _| state.slice.truncate(HELD_WORDS - 1)),
    fault(2, 0, |state, _, _, _| state.held.tokens = MOST_TOKENS + 1),
    fault(21, 0, |_, seen, _, _| *seen ^= 1),
    fault(22, 0, |_, _, edit, _| edit.removed = MOST_TOKENS + 2),
    fault(23, 0, |state, seen, _, _| {
        let other = *seen != state.held.edits;
        state.held.edits = u32::MAX;
        *seen = if other { 6 } else { u32::MAX };
    }),
    fault(1, 0, |_, _, edit, _| edit.put.push(0)),
    fault(2, 0, |_, _, edit, _| {
        let more = list_of(&vec![61; MOST_TOKENS]);
        edit.put.splice(15..15, more);
    }),
    fault(3, 0, |_, _, _, lens| lens.tree = 0),
    fault(4, 0, |_, _, _, lens| lens.messages = 15),
    fault(5, 0, |_, _, _, lens| lens.work = 64),
    fault(17, 0, |_, _, _, lens| lens.limit = MOST_NESTING + 1),
    fault(8, 15, |_, _, edit, _| edit.put[0] = 0),
    fault(9, 20, |_, _, edit, _| edit.put[5] |= 0xFF),
    fault(11, 28, |_, _, edit, _| edit.put[13] |= 1),
    fault(18, 4, |_, _, edit, lens| {
        // The operand becomes a bracket, so that two are open; the other word faults stay where they are.
        if edit.put[5] & 0xFF == 61 {
            edit.put[5] = edit.put[5] & !0xFF | 4;
        }
        if lens.limit == MOST_NESTING {
            lens.limit = 1;
        }
    }),
];

/// The commit and the ask of `(c)` with these faults, made in this order.
fn spoiled(faults: &[&Fault]) -> (State, Act, Act) {
    let (mut state, mut seen) = (sum(), 7);
    let (mut edit, mut lens) = put_bracket();
    for fault in faults {
        (fault.make)(&mut state, &mut seen, &mut edit, &mut lens);
    }
    let commit = Act::Commit {
        seen,
        edit: edit.clone(),
        lens,
    };
    (state, commit, Act::Ask { edit, lens })
}

/// Says where an editor answers a call with one or two faults otherwise than by the first of them, or changes something.
fn answers_by_the_first(editor: impl Editor) -> Result<(), String> {
    let mut histories = Histories::by(editor);
    for (at, first) in FAULTS.iter().enumerate() {
        answered_by(&mut histories, &[first], &[first])?;
        for second in &FAULTS[at + 1..] {
            for made in [[first, second], [second, first]] {
                answered_by(&mut histories, &[first, second], &made)?;
            }
        }
    }
    Ok(())
}

/// Has a commit and an ask with these faults, made in some order, be answered by the first of them that they have.
fn answered_by(
    histories: &mut Histories<impl Editor>,
    faults: &[&Fault],
    made: &[&Fault],
) -> Result<(), String> {
    let (mut state, commit, ask) = spoiled(made);
    let of_ask = |fault: &&&Fault| ![21, 23].contains(&fault.number);
    let calls = [(commit, faults.first()), (ask, faults.iter().find(of_ask))];
    for (act, first) in calls {
        let Some(first) = first else { continue };
        let wanted = Expected::Refused(first.number, first.place);
        assert_eq!(state.wanted(&act).answer, wanted, "the model, to {act:?}");
        let called = histories.call(&mut state, &act);
        called.map_err(|why| format!("{why}, first {}", first.number))?;
    }
    Ok(())
}

#[test]
fn every_two_faults_at_once() {
    answers_by_the_first(Library).expect("the first is answered");
}

#[test]
fn openings_are_turned_back_in_order() {
    let mut histories = Histories::by(Library);
    let list = list_of(&[61, 9, 61]);
    let lens = Lens::of(3);
    let short = Lens { tree: 62, ..lens };
    let opening = |list: &[u32], lens| Act::Open {
        list: list.to_vec(),
        version: 5,
        lens,
    };
    let long = list_of(&vec![61; MOST_TOKENS + 1]);
    let rows = [
        (
            HELD_WORDS - 1,
            opening(&list[1..], short),
            Expected::Refused(15, 0),
        ),
        (
            HELD_WORDS,
            opening(&list[1..], short),
            Expected::Refused(1, 0),
        ),
        (HELD_WORDS, opening(&long, lens), Expected::Refused(2, 0)),
        (HELD_WORDS, opening(&list, short), Expected::Refused(3, 0)),
        (
            HELD_WORDS,
            opening(&list[1..11], lens),
            Expected::Refused(8, 0),
        ),
    ];
    for (len, act, wanted) in rows {
        let mut state = sum();
        state.slice.truncate(len);
        assert_eq!(state.wanted(&act).answer, wanted);
        histories.call(&mut state, &act).expect("it is turned back");
        assert_eq!(
            (state.held, state.slice),
            (sum().held, sum().slice[..len].to_vec())
        );
    }
}

#[test]
fn the_longest_lists_and_the_last_counts() {
    let mut histories = Histories::by(Library);
    let mut state = sum();
    let token = list_of(&[61]);
    let longest = token.repeat(MOST_TOKENS);
    let lens = Lens::of(MOST_TOKENS);
    let mut called =
        |state: &mut State, act: Act| histories.call(state, &act).expect("as the model");
    let open = |list: &[u32]| Act::Open {
        list: list.to_vec(),
        version: 6,
        lens,
    };
    let commit = |seen, place, removed, put: &[u32]| Act::Commit {
        seen,
        edit: OwnedEdit {
            place,
            removed,
            put: put.to_vec(),
        },
        lens,
    };
    called(&mut state, open(&longest));
    let (answer, _) = called(&mut state, commit(0, 0, 0, &token));
    assert_eq!(answer, Read::Refused(2, 0));
    called(&mut state, commit(0, 4_096, 0, &[]));
    called(&mut state, commit(1, 4_095, 1, &token));
    called(&mut state, commit(2, 1, 4_095, &[]));
    assert_eq!(state.held.tokens, 1);
    called(&mut state, commit(3, 0, 1, &longest));
    called(&mut state, commit(4, 0, 4_096, &[]));
    assert_eq!((state.held.tokens, state.held.edits), (0, 5));
    // The words of the longest list stand behind the empty one.
    assert_eq!(state.slice[..longest.len()], longest);
    state.held.edits = u32::MAX - 1;
    called(&mut state, Act::Adopt { version: 4 });
    assert_eq!((state.held.version, state.held.edits), (4, u32::MAX));
    let (answer, _) = called(&mut state, Act::Adopt { version: 5 });
    assert_eq!(answer, Read::Refused(23, 0));
    let (answer, _) = called(&mut state, commit(u32::MAX, 0, 0, &token));
    assert_eq!(answer, Read::Refused(23, 0));
}

/// What a wrong editor does otherwise.
#[derive(Copy, Clone, Debug, PartialEq, Eq)]
enum Slip {
    /// Nothing: it makes no mistake.
    Nothing,
    /// The order of the answers.
    ClaimBeforeSlice,
    CountBeforeClaim,
    PastBeforeCount,
    LastBeforePast,
    EntryBeforeLast,
    /// The limits of the answers.
    SliceOneShorter,
    ClaimOneMore,
    AnyCount,
    OlderCount,
    PlaceOneMore,
    RemovedFromTheFront,
    LastTooEarly,
    NeverLast,
    AdoptNeverLast,
    AdoptAnswersTokens,
    /// What is edited.
    RemovedLeftIn,
    OneRemovedMore,
    PutBehind,
    PutAtTheEnd,
    /// What is held after a call.
    CommitKeepsCount,
    CommitKeepsTokens,
    AdoptKeepsCount,
    AdoptKeepsVersion,
    OpenKeepsCount,
    OpenKeepsVersion,
    OpenKeepsWords,
    BehindCleared,
    RefusedChangesSlice,
    RefusedCounts,
    RefusedOpeningSetsTokens,
    MessagesNotKept,
    /// What is read.
    UsedSetOfTheHeld,
    SourceOfTheHeld,
    GreatestLimit,
    VersionOfTheOpening,
    HeldListRead,
}

impl Slip {
    const ALL: [Self; 36] = [
        Self::ClaimBeforeSlice,
        Self::CountBeforeClaim,
        Self::PastBeforeCount,
        Self::LastBeforePast,
        Self::EntryBeforeLast,
        Self::SliceOneShorter,
        Self::ClaimOneMore,
        Self::AnyCount,
        Self::OlderCount,
        Self::PlaceOneMore,
        Self::RemovedFromTheFront,
        Self::LastTooEarly,
        Self::NeverLast,
        Self::AdoptNeverLast,
        Self::AdoptAnswersTokens,
        Self::RemovedLeftIn,
        Self::OneRemovedMore,
        Self::PutBehind,
        Self::PutAtTheEnd,
        Self::CommitKeepsCount,
        Self::CommitKeepsTokens,
        Self::AdoptKeepsCount,
        Self::AdoptKeepsVersion,
        Self::OpenKeepsCount,
        Self::OpenKeepsVersion,
        Self::OpenKeepsWords,
        Self::BehindCleared,
        Self::RefusedChangesSlice,
        Self::RefusedCounts,
        Self::RefusedOpeningSetsTokens,
        Self::MessagesNotKept,
        Self::UsedSetOfTheHeld,
        Self::SourceOfTheHeld,
        Self::GreatestLimit,
        Self::VersionOfTheOpening,
        Self::HeldListRead,
    ];
}

/// An editor in Rust over the parse entry, with a mistake.
struct Mistaken(Slip);

impl Mistaken {
    fn is(&self, slip: Slip) -> bool {
        self.0 == slip
    }

    /// Where an ask is turned back, or a commit that names a count, before the new list is looked at.
    fn fault(&self, held: Held, seen: Option<u32>, words: &[u32], edit: Edit<'_>) -> Option<u32> {
        let short = HELD_WORDS - usize::from(self.is(Slip::SliceOneShorter));
        let claim = MOST_TOKENS + usize::from(self.is(Slip::ClaimOneMore));
        let last = u32::MAX - u32::from(self.is(Slip::LastTooEarly));
        let tokens = held
            .tokens
            .saturating_add(usize::from(self.is(Slip::PlaceOneMore)));
        let left = match self.is(Slip::RemovedFromTheFront) {
            true => tokens,
            false => tokens.saturating_sub(edit.place),
        };
        let other = seen.is_some_and(|seen| match self.0 {
            Slip::AnyCount => false,
            Slip::OlderCount => seen > held.edits,
            _ => seen != held.edits,
        });
        let is_last = seen.is_some() && held.edits >= last && !self.is(Slip::NeverLast);
        let mut rows = [
            (15, words.len() < short),
            (2, held.tokens > claim),
            (21, other),
            (22, edit.place > tokens || edit.removed > left),
            (23, is_last),
        ];
        match self.0 {
            Slip::ClaimBeforeSlice => rows.swap(0, 1),
            Slip::CountBeforeClaim => rows.swap(1, 2),
            Slip::PastBeforeCount => rows.swap(2, 3),
            Slip::LastBeforePast => rows.swap(3, 4),
            _ => {}
        }
        rows.into_iter()
            .find_map(|(number, fails)| fails.then_some(number))
    }

    /// The held list with an edit made.
    fn edited(&self, held: Held, words: &[u32], edit: Edit<'_>) -> Vec<u32> {
        let words = &words[..(TOKEN_WORDS * held.tokens).min(words.len())];
        let at = |token: usize| (TOKEN_WORDS * token).min(words.len());
        let more = usize::from(self.is(Slip::OneRemovedMore) && edit.removed > 0);
        let (front, back) = (
            at(edit.place),
            at(edit.place.saturating_add(edit.removed + more)),
        );
        let next = at(edit.place + edit.removed + 1);
        match self.0 {
            Slip::RemovedLeftIn => [&words[..front], edit.put, &words[front..]].concat(),
            Slip::PutBehind => [
                &words[..front],
                &words[back..next],
                edit.put,
                &words[next..],
            ]
            .concat(),
            Slip::PutAtTheEnd => [&words[..front], &words[back..], edit.put].concat(),
            Slip::HeldListRead => words.to_vec(),
            _ => [&words[..front], edit.put, &words[back..]].concat(),
        }
    }

    /// Reads a list at its own used set and source length.
    fn read(&self, held: &[u32], list: &[u32], version: i16, room: Room<'_>) -> Answer {
        let own = own_call(list.to_vec(), version, Lens::of(0));
        let of_held = own_call(held.to_vec(), version, Lens::of(0));
        let lent = Lent {
            list,
            tree: room.tree,
            messages: room.messages,
            work: room.work,
        };
        let given = Given {
            source_len: match self.0 {
                Slip::SourceOfTheHeld => of_held.source_len,
                _ => own.source_len,
            },
            version,
            used: match self.0 {
                Slip::UsedSetOfTheHeld => of_held.used,
                _ => own.used,
            },
            limit: match self.0 {
                Slip::GreatestLimit => MOST_NESTING,
                _ => room.limit,
            },
        };
        parse(lent, given)
    }

    /// Whether what was read is taken over.
    fn keeps(&self, answer: Answer) -> bool {
        match answer {
            Answer::Filled(_) => true,
            Answer::Messages(_) => !self.is(Slip::MessagesNotKept),
            Answer::Refused(..) => false,
        }
    }

    /// Lays a list into the front of the slice.
    fn lay(&self, words: &mut [u32], list: &[u32]) {
        words[..list.len()].copy_from_slice(list);
        if self.is(Slip::BehindCleared) {
            words[list.len()..].fill(0);
        }
    }

    /// The held words, of those that there are.
    fn held_words(held: Held, words: &[u32]) -> &[u32] {
        &words[..held.tokens.saturating_mul(TOKEN_WORDS).min(words.len())]
    }
}

impl Editor for Mistaken {
    fn open(
        &self,
        held: &mut Held,
        words: &mut [u32],
        list: &[u32],
        version: i16,
        room: Room<'_>,
    ) -> Answer {
        if words.len() < HELD_WORDS {
            return Answer::Refused(15, 0);
        }
        let answer = self.read(list, list, version, room);
        let tokens = list.len() / TOKEN_WORDS;
        if !self.keeps(answer) {
            if self.is(Slip::RefusedOpeningSetsTokens) {
                held.tokens = tokens;
            }
            return answer;
        }
        let edits = held.edits;
        *held = Held {
            tokens,
            version: match self.0 {
                Slip::OpenKeepsVersion => held.version,
                _ => version,
            },
            edits: match self.0 {
                Slip::OpenKeepsCount => edits,
                _ => 0,
            },
        };
        if !self.is(Slip::OpenKeepsWords) {
            self.lay(words, list);
        }
        answer
    }

    fn ask(&self, held: Held, words: &[u32], edit: Edit<'_>, room: Room<'_>) -> Answer {
        if let Some(number) = self.fault(held, None, words, edit) {
            return Answer::Refused(number, 0);
        }
        let new = self.edited(held, words, edit);
        self.read(Self::held_words(held, words), &new, held.version, room)
    }

    fn commit(
        &self,
        held: &mut Held,
        seen: u32,
        words: &mut [u32],
        edit: Edit<'_>,
        room: Room<'_>,
    ) -> Answer {
        let fault = self.fault(*held, Some(seen), words, edit);
        let late = self.is(Slip::EntryBeforeLast) && fault == Some(23);
        if let Some(number) = fault.filter(|_| !late) {
            match self.0 {
                Slip::RefusedCounts => held.edits = held.edits.wrapping_add(1),
                Slip::RefusedChangesSlice if !words.is_empty() => words[0] ^= 1,
                _ => {}
            }
            return Answer::Refused(number, 0);
        }
        let new = self.edited(*held, words, edit);
        let version = match self.0 {
            Slip::VersionOfTheOpening => 6,
            _ => held.version,
        };
        let answer = self.read(Self::held_words(*held, words), &new, version, room);
        if late && !matches!(answer, Answer::Refused(..)) {
            return Answer::Refused(23, 0);
        }
        if self.keeps(answer) {
            self.lay(words, &new);
            if !self.is(Slip::CommitKeepsTokens) {
                held.tokens = new.len() / TOKEN_WORDS;
            }
            if !self.is(Slip::CommitKeepsCount) {
                held.edits = held.edits.wrapping_add(1);
            }
        }
        answer
    }

    fn adopt(&self, held: &mut Held, version: i16) -> Answer {
        let last = u32::MAX - u32::from(self.is(Slip::LastTooEarly));
        if held.edits >= last && !self.is(Slip::AdoptNeverLast) {
            return Answer::Refused(23, 0);
        }
        if !self.is(Slip::AdoptKeepsVersion) {
            held.version = version;
        }
        if !self.is(Slip::AdoptKeepsCount) {
            held.edits = held.edits.wrapping_add(1);
        }
        match self.0 {
            Slip::AdoptAnswersTokens => Answer::Filled(held.tokens),
            _ => Answer::Filled(0),
        }
    }
}

/// Says where an editor differs.
fn differing(slip: Slip) -> Option<String> {
    let mut histories = Histories::by(Mistaken(slip));
    let difference = (0..HISTORIES).find_map(|seed| histories.history(seed).err());
    difference.or_else(|| answers_by_the_first(Mistaken(slip)).err())
}

#[test]
fn an_editor_without_a_mistake_is_not_found_out() {
    assert_eq!(differing(Slip::Nothing), None);
}

#[test]
#[cfg_attr(not(rust_source), ignore = "the Rust source is not at hand")]
fn every_mistake_is_found() {
    for slip in Slip::ALL {
        match differing(slip) {
            Some(shown) => println!("{slip:?}: {}", shown.lines().next().unwrap_or("")),
            None => panic!("{slip:?} is not found"),
        }
    }
}

#[test]
fn a_history_is_the_same_for_the_same_seed() {
    let tally = |seed| {
        let mut histories = Histories::by(Library);
        histories.history(seed).expect("as the model");
        histories.tally
    };
    let mut rng = Rng::new(5);
    for seed in (0..50).map(|_| rng.bits()) {
        assert_eq!(tally(seed), tally(seed));
    }
}

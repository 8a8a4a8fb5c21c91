//! A list that is held open: what an editor sees of it, beside a list of tokens that is edited by hand and read afresh.

mod common;

use common::Rng;
use sorbrudder::{
    Asked, Edit, EditError, Limit, MOST_TOKENS, OpenList, ReadError, Reader, Refusal, Token,
    Tokens, Tree,
};

fn tokens(text: &str) -> Tokens {
    text.parse().expect("the notation")
}

/// What a list reads as, by the reader.
fn read(list: &[Token], version: i16) -> Result<Tree, ReadError> {
    Reader::new().read(list, version)
}

/// Whether what was asked is what the reader says.
fn is_as_read(asked: &Asked, list: &[Token], version: i16) -> bool {
    match (asked.reading(), read(list, version)) {
        (Ok(tree), Ok(other)) => *tree == other,
        (Err(messages), Err(ReadError::Messages(other))) => *messages == other,
        _ => false,
    }
}

#[test]
fn the_message_moves_while_somebody_types() {
    let text = "a + b * (c - d) < e && f";
    let typed = tokens(text);
    let mut open = OpenList::open(&[], 6).expect("an empty list");
    let mut places = Vec::new();
    for place in 0..typed.len() {
        let asked = open
            .ask(Edit::put_in(place, &typed[place..=place]))
            .expect("an edit");
        assert!(is_as_read(&asked, &typed[..=place], 6));
        if let Err(messages) = asked.reading() {
            places.push(messages[0].span().start());
        }
        assert_eq!(open.len(), place);
        open.commit(&asked).expect("nothing changed since");
        assert_eq!(open.read().as_ref(), asked.reading());
    }
    assert!(places.is_sorted() && places.first() < places.last());
    assert_eq!(
        (open.tokens(), open.edits()),
        (typed.clone(), typed.len() as u32)
    );
    // All of it removed again, from the front.
    for left in (0..typed.len()).rev() {
        let asked = open.ask(Edit::remove(0, 1)).expect("an edit");
        open.commit(&asked).expect("nothing changed since");
        assert_eq!(open.tokens()[..], typed[typed.len() - left..]);
    }
    assert!(open.is_empty());
}

#[test]
fn every_edit_of_a_short_list_is_made() {
    let (list, put) = (tokens("a + b * c"), tokens("- (d)"));
    for place in 0..=list.len() {
        for removed in 0..=list.len() - place {
            for count in 0..=put.len() {
                let mut wanted = list.clone().into_vec();
                wanted.splice(place..place + removed, put[..count].to_vec());
                let mut open = OpenList::open(&list, 5).expect("a list");
                let edit = Edit::replace(place, removed, &put[..count]);
                let asked = open.ask(edit.clone()).expect("an edit");
                assert!(is_as_read(&asked, &wanted, 5));
                assert_eq!((open.tokens(), open.edits()), (list.clone(), 0));
                assert_eq!((asked.edit(), asked.seen()), (&edit, 0));
                open.commit(&asked).expect("nothing changed since");
                assert_eq!((&open.tokens()[..], open.edits()), (&wanted[..], 1));
            }
        }
    }
}

#[test]
fn what_was_asked_of_another_state_is_not_committed() {
    let list = tokens("a && b || c");
    let mut open = OpenList::open(&list, 5).expect("a list");
    let [first, second] = [0, 4].map(|place| open.ask(Edit::remove(place, 1)).expect("an edit"));
    open.commit(&second).expect("nothing changed since");
    let other = |seen, edits| Err(EditError::OtherEditCount { seen, edits });
    assert_eq!(open.commit(&first), other(0, 1));
    assert_eq!(open.commit(&second), other(0, 1));
    let asked = open.ask(Edit::put_in(4, &list[4..])).expect("an edit");
    open.adopt(6).expect("a version");
    assert_eq!(open.commit(&asked), other(1, 2));
    assert_eq!((&open.tokens()[..], open.version()), (&list[..4], 6));
    let asked = open.ask(Edit::put_in(4, &list[4..])).expect("an edit");
    open.commit(&asked).expect("nothing changed since");
    assert_eq!(
        open.read().expect("a tree"),
        read(&list, 6).expect("a tree")
    );
    assert_eq!(
        open.commit(&asked).unwrap_err().to_string(),
        "the list changed after the edit was asked: its edit count was 2 and is 3"
    );
}

#[test]
fn what_is_turned_back_changes_nothing() {
    let list = tokens("a + (b)");
    let token = list[0];
    let limit = Limit::new(1).expect("a limit");
    let mut open = OpenList::open_within(limit, &list, 6).expect("a list");
    let many = |count| Tokens::from(vec![token; count]);
    let refused = |refusal| Err(EditError::Refused(refusal));
    let edits = [
        (Edit::remove(6, 0), Err(EditError::PastTheEnd)),
        (Edit::remove(5, 1), Err(EditError::PastTheEnd)),
        (Edit::remove(0, usize::MAX), Err(EditError::PastTheEnd)),
        (
            Edit::remove(usize::MAX, usize::MAX),
            Err(EditError::PastTheEnd),
        ),
        // Past the end, and too long besides.
        (Edit::put_in(6, many(5_000)), Err(EditError::PastTheEnd)),
        (
            Edit::put_in(5, many(4_092)),
            refused(Refusal::TooManyTokens),
        ),
        (
            Edit::replace(0, 5, many(4_097)),
            refused(Refusal::TooManyTokens),
        ),
        (
            Edit::put_in(0, &list[2..3]),
            Err(EditError::TooDeep { token: 3 }),
        ),
    ];
    for (edit, wanted) in edits {
        let asked = open.ask(edit.clone());
        assert_eq!(asked.map(|_| ()), wanted, "{edit:?}");
        assert_eq!(
            (open.tokens(), open.version(), open.edits()),
            (list.clone(), 6, 0)
        );
    }
    assert_eq!(open.limit(), limit);
    let too_long = OpenList::open(&many(4_097), 6).map(|_| ());
    assert_eq!(too_long, refused(Refusal::TooManyTokens));
}

#[test]
fn the_longest_list_is_edited() {
    let list = vec![tokens("a")[0]; MOST_TOKENS];
    let mut open = OpenList::open(&list[..1], 6).expect("a list");
    let asked = open.ask(Edit::put_in(1, &list[1..])).expect("an edit");
    open.commit(&asked).expect("nothing changed since");
    assert_eq!(open.tokens()[..], list[..]);
    let longer = Err(EditError::Refused(Refusal::TooManyTokens));
    assert_eq!(open.ask(Edit::put_in(0, &list[..1])), longer);
    let asked = open
        .ask(Edit::replace(4_095, 1, &list[..1]))
        .expect("an edit");
    open.commit(&asked).expect("nothing changed since");
    let asked = open.ask(Edit::remove(1, 4_095)).expect("an edit");
    assert!(asked.reading().is_ok());
    open.commit(&asked).expect("nothing changed since");
    assert_eq!((&open.tokens()[..], open.edits()), (&list[..1], 3));
}

#[test]
fn any_edits_come_to_the_list_that_is_edited_by_hand() {
    let pieces = tokens("a + b * c - (d ? e : f) && g || !h == i < j , k");
    let mut rng = Rng(11);
    let (mut trees, mut messages) = (0, 0);
    for _ in 0..200 {
        let mut list = pieces.clone().into_vec();
        let mut version = 6;
        let mut open = OpenList::open(&list, version).expect("a list");
        for edits in 0..40 {
            assert_eq!((open.edits(), open.version()), (edits, version));
            if rng.below(5) == 0 {
                version = rng.below(14) as i16;
                open.adopt(version).expect("a version");
            } else {
                let place = rng.below(list.len() + 1);
                let removed = rng.below(4).min(list.len() - place);
                let from = rng.below(pieces.len());
                let put = &pieces[from..(from + rng.below(4)).min(pieces.len())];
                let edit = Edit::replace(place, removed, put);
                list.splice(place..place + removed, put.to_vec());
                let asked = open.ask(edit).expect("an edit");
                assert!(is_as_read(&asked, &list, version));
                open.commit(&asked).expect("nothing changed since");
            }
            assert_eq!(open.tokens()[..], list[..]);
            match open.read() {
                Ok(tree) => {
                    trees += 1;
                    assert_eq!(Ok(tree), read(&list, version));
                }
                Err(told) => {
                    messages += 1;
                    assert_eq!(Err(ReadError::Messages(told)), read(&list, version));
                }
            }
        }
    }
    assert!(trees > 100 && messages > 100, "{trees} {messages}");
}

#[test]
fn a_list_is_edited_on_128_kib_of_stack() {
    let deep = [
        vec![tokens("(")[0]; 2_047],
        tokens("a").into_vec(),
        vec![tokens(")")[0]; 2_047],
    ];
    let deep = deep.concat();
    let run = move || {
        let mut open = OpenList::open(&deep, 6).expect("a list");
        let asked = open.ask(Edit::put_in(0, tokens("!"))).expect("an edit");
        open.commit(&asked).expect("nothing changed since");
        open.read().map(|tree| tree.len())
    };
    let thread = std::thread::Builder::new().stack_size(128 << 10);
    let ran = thread.spawn(run).expect("a thread").join();
    assert_eq!(ran.expect("nothing panics"), Ok(2_049));
}

#[test]
fn what_was_asked_of_one_list_is_not_committed_to_another() {
    let open = |text: &str| OpenList::open(&tokens(text), 6).expect("a list");
    let (mut one, mut two) = (open("a + b * c"), open("a - b - c"));
    let asked = one.ask(Edit::remove(3, 2)).expect("an edit");
    assert_eq!(asked.reading().map(Tree::to_string), Ok("9(a,b)".into()));
    // The other list has the same edit count, and would read otherwise than was asked.
    assert_eq!((one.edits(), two.edits()), (0, 0));
    assert_eq!(two.commit(&asked), Err(EditError::OtherList));
    assert_eq!((two.tokens(), two.edits()), (tokens("a - b - c"), 0));
    // It is told before another edit count.
    two.adopt(5).expect("a version");
    assert_eq!(two.commit(&asked), Err(EditError::OtherList));
    // Opened again with the same words it is another list too, and so is a clone, from which on each goes its own way.
    assert_eq!(open("a + b * c").commit(&asked), Err(EditError::OtherList));
    let mut copy = one.clone();
    assert_eq!(copy.commit(&asked), Err(EditError::OtherList));
    let other = copy.ask(Edit::remove(1, 2)).expect("an edit");
    assert_eq!(one.commit(&other), Err(EditError::OtherList));
    copy.commit(&other).expect("its own");
    one.commit(&asked).expect("its own");
    let late = copy.ask(Edit::remove(1, 2)).expect("an edit");
    assert_eq!((one.edits(), late.seen()), (1, 1));
    assert_eq!(one.commit(&late), Err(EditError::OtherList));
    assert_eq!(one.read().as_ref(), asked.reading());
    let told = EditError::OtherList.to_string();
    assert_eq!(told, "the edit was asked of another list");
}

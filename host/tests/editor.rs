//! What an editor asks of a tree and of an open list, beside what the definitions of the words say: the node at a byte, what was typed as
//! one edit, and what has to be drawn anew.

mod common;

use common::{Rng, kept_lists};
use sorbrudder::{Edit, EditError, Node, OpenList, Payload, Reader, Span, Token, Tokens, Tree};
use std::path::Path;
use std::process::Command;

fn tokens(text: &str) -> Tokens {
    text.parse().expect("the notation")
}

/// The node at a byte by what is said of it: from the root down, the first child that has the byte.
fn walked(tree: &Tree, offset: u32) -> Vec<usize> {
    let has = |node: &Node<'_>| {
        let span = node.subtree_span();
        (span.start()..span.end()).contains(&offset)
    };
    let mut path = Vec::new();
    let mut next = Some(tree.root()).filter(|root| has(root));
    while let Some(node) = next {
        path.push(node.number());
        next = node.children().find(|child| has(child));
    }
    path
}

#[test]
fn the_node_at_a_byte_is_the_deepest_whose_part_has_it() {
    let mut reader = Reader::new();
    let mut trees = 0;
    for words in kept_lists() {
        let Some(list) = Tokens::from_words(&words).filter(|list| list.len() < 60) else {
            continue;
        };
        let Ok(tree) = reader.read(&list, 6) else {
            continue;
        };
        trees += 1;
        let span = tree.root().subtree_span();
        let step = (span.end() / 40).max(1);
        for offset in (0..span.end() + 3).step_by(step as usize) {
            let path = tree.path_at(offset);
            let numbers: Vec<usize> = path.iter().map(|node| node.number()).collect();
            assert_eq!(numbers, walked(&tree, offset), "{tree} at {offset}");
            assert_eq!(tree.node_at(offset), path.last().copied());
            let above = path.iter().rev().skip(1).copied();
            let upwards = path.last().map(|node| node.ancestors().collect::<Vec<_>>());
            assert_eq!(upwards.unwrap_or_default(), above.collect::<Vec<_>>());
        }
    }
    assert!(trees > 1_000, "{trees}");
}

/// A text of pieces, with some blanks between them, and where each begins.
fn laid_out(rng: &mut Rng, pieces: &[&str]) -> String {
    let mut text = String::new();
    for piece in pieces {
        text += &" ".repeat(1 + rng.below(2));
        text += piece;
    }
    text
}

const PIECES: [&str; 14] = [
    "a",
    "b",
    "3",
    "variable.x",
    "+",
    "-",
    "*",
    "&&",
    "||",
    "<",
    "?",
    ":",
    "(",
    ")",
];

/// What is typed is one edit of the list, and leaves the list that a lexer makes of the whole text.
#[test]
fn what_was_typed_is_one_edit_and_moves_all_that_stands_behind_it() {
    let mut rng = Rng(43);
    for _ in 0..3_000 {
        let pieces: Vec<&str> = (0..rng.below(12)).map(|_| PIECES[rng.below(14)]).collect();
        let text = laid_out(&mut rng, &pieces);
        let old = tokens(&text);
        assert_eq!(old.len(), pieces.len());
        let place = rng.below(old.len() + 1);
        let removed = rng.below(old.len() - place + 1);
        let typed: Vec<&str> = (0..rng.below(4)).map(|_| PIECES[rng.below(14)]).collect();
        // The bytes from the end of the token before to the end of the last one that goes.
        let end_of = |count: usize| match count {
            0 => 0,
            _ => old[count - 1].span.end() as usize,
        };
        let (from, to) = (end_of(place), end_of(place + removed));
        let put = laid_out(&mut rng, &typed);
        let new_text = format!("{}{put}{}", &text[..from], &text[to..]);
        let new = tokens(&new_text);
        let grown = new_text.len() as i64 - text.len() as i64;
        let put = &new[place..place + typed.len()];
        let edit = Edit::typed(&old, place, removed, put, grown).expect("an edit");
        let mut open = OpenList::open(&old, 6).expect("a list");
        let asked = open.ask(edit).expect("an answer");
        is_sound(&mut open, &asked);
        open.commit(&asked).expect("nothing changed since");
        assert_eq!(
            (open.tokens(), open.edits()),
            (new, 1),
            "{text} and {new_text}"
        );
    }
}

/// A node without its place: what it is, and what its parent and its children are, each with where it stands as a text has it.
type Around = (u16, (u8, u32), Vec<Span>);

fn around(node: Node<'_>, moved: impl Fn(Span) -> Option<Span>) -> Option<Around> {
    let nodes = node
        .parent()
        .into_iter()
        .chain([node])
        .chain(node.children());
    let spans = nodes
        .map(|node| moved(node.span()))
        .collect::<Option<_>>()?;
    Some((node.op().number(), node.payload().bits(), spans))
}

/// Whether every node that is not told of stands in the tree before too, with the same parent and children, moved with the text.
fn is_sound(open: &mut OpenList, asked: &sorbrudder::Asked) {
    let changed = open.changes(asked).expect("it was asked of this state");
    let (Ok(old), Ok(new)) = (open.read(), asked.reading()) else {
        let all = asked.reading().map_or(0, Tree::len);
        assert_eq!(changed.len(), all);
        return;
    };
    let (list, edit) = (open.tokens(), asked.edit());
    // Where a span of the list before stands now; the edit replaces all tokens from its place on.
    let shift = match (list.last(), edit.put.last()) {
        (Some(old), Some(new)) => i64::from(new.span.end()) - i64::from(old.span.end()),
        _ => 0,
    };
    let places = |span: Span| [Some(span), span.moved(shift)];
    for node in new.nodes().filter(|node| !changed.contains(node)) {
        let now = around(node, Some).expect("a node");
        let was = old.nodes().any(|old| {
            let was = around(old, Some).expect("a node");
            let beside = was.2.iter().zip(&now.2);
            (was.0, was.1, was.2.len()) == (now.0, now.1, now.2.len())
                && beside
                    .clone()
                    .all(|(was, now)| places(*was).contains(&Some(*now)))
        });
        assert!(was, "{node:?} of {new} stood not so in {old}");
    }
}

/// The texts of what is drawn anew.
fn drawn(old: &str, new: &str, version: i16) -> Vec<String> {
    let (before, after) = (tokens(old), tokens(new));
    let mut open = OpenList::open(&before, version).expect("a list");
    let all = Edit::replace(0, before.len(), after);
    let asked = open.ask(all).expect("an answer");
    let changed = open.changes(&asked).expect("it was asked of this state");
    let text = |node: &Node<'_>| node.span().of(new).expect("a part").to_string();
    changed.iter().map(text).collect()
}

#[test]
fn only_what_is_new_or_paired_otherwise_is_drawn_anew() {
    // Nothing is changed, and nothing but places.
    assert_eq!(drawn("a + b * c", "a + b * c", 6), [""; 0]);
    assert_eq!(drawn("a + b * c", "  a + b * c", 6), [""; 0]);
    // An operand of another name: it, and its operator, whose operand it is.
    assert_eq!(drawn("a + b * c", "a + bb * c", 6), ["*", "bb"]);
    assert_eq!(drawn("a + b * 2", "a + b * 3", 6), ["*", "3"]);
    // An operator of another rank pairs otherwise; a part that is not concerned stays.
    assert_eq!(
        drawn("(x < y) + b * c", "(x < y) + b + c", 6),
        ["+", "+", "b", "c"]
    );
    assert_eq!(drawn("a + b", "a + b + c", 6), ["+", "+", "c"]);
    // No tree now: all of it; no tree then: nothing.
    assert_eq!(drawn("a +", "a + b", 6), ["+", "a", "b"]);
    assert_eq!(drawn("a + b", "a +", 6), [""; 0]);
}

#[test]
fn what_is_drawn_is_asked_of_the_list_as_it_is() {
    let mut open = OpenList::open(&tokens("a + b"), 6).expect("a list");
    let asked = open.ask(Edit::remove(1, 2)).expect("an answer");
    assert_eq!(open.changes(&asked).map(|nodes| nodes.len()), Ok(1));
    assert_eq!(open.clone().changes(&asked), Err(EditError::OtherList));
    open.adopt(5).expect("a version");
    let other = EditError::OtherEditCount { seen: 0, edits: 1 };
    assert_eq!(open.changes(&asked), Err(other));
}

#[test]
fn what_cannot_be_typed_is_told() {
    let list = tokens("a + b");
    let typed = |place, removed, grown| Edit::typed(&list, place, removed, &[][..], grown);
    assert_eq!(typed(2, 2, 0), Err(EditError::PastTheEnd));
    assert_eq!(typed(4, 0, 0), Err(EditError::PastTheEnd));
    assert_eq!(typed(1, usize::MAX, 0), Err(EditError::PastTheEnd));
    assert_eq!(typed(0, 1, -3), Err(EditError::SpanOutOfReach { token: 1 }));
    let far = i64::from(Span::LAST);
    assert_eq!(
        typed(0, 2, far),
        Err(EditError::SpanOutOfReach { token: 2 })
    );
    assert_eq!(
        typed(0, 0, i64::MIN),
        Err(EditError::SpanOutOfReach { token: 0 })
    );
    assert_eq!(typed(3, 0, i64::MAX), Ok(Edit::remove(3, 0)));
    let told = EditError::SpanOutOfReach { token: 2 }.to_string();
    assert_eq!(told, "the span of token 2 would be moved out of reach");
    // What a token carries goes with it.
    let number = Edit::typed(&tokens("1 + 2"), 0, 1, &tokens("10")[..], 1).expect("an edit");
    let carried = Token {
        span: Span::new(5, 6).expect("a span"),
        ..tokens("2")[0]
    };
    assert_eq!(
        (number.put[2], number.put[2].payload),
        (carried, Payload::Float(2.0))
    );
}

#[test]
fn the_example_of_an_editor_is_short_and_works() {
    let host = Path::new(env!("CARGO_MANIFEST_DIR"));
    let source = std::fs::read_to_string(host.join("examples/editor.rs")).expect("a file");
    assert!(source.lines().count() <= 60);
    let test = std::env::current_exe().expect("this test's own file");
    let folder = test.ancestors().nth(2).expect("target/PROFILE/deps/TEST");
    let run = Command::new(folder.join("examples/editor")).output();
    let run = run.expect("cargo test builds the examples");
    let told = "\
a: a, drawn anew: a
a &: waits
a &&: `&&` lacks a side (at 2-4)
a && b: 57(a,b), drawn anew: && a b
a && b || (c: the list ends within this `(`, before its `)` (at 10-11); no `)` closes this `(` (at 10-11)
a && b || (c): 57(a,56(b,4(c))), drawn anew: && a || b ( c
armed && b || (c): 57(armed,56(b,4(c))), drawn anew: && armed
version 6: 56(57(armed,b),4(c))
round byte 9: b
round byte 9: armed && b
round byte 9: armed && b || (c)
";
    assert_eq!(String::from_utf8_lossy(&run.stdout), told);
}

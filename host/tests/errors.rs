//! What errors say: once, and no more than is there.

use sorbrudder::{LiftError, Message, ReadError, Reader, Refusal, Tokens, Unplain, lift};
use std::error::Error;

fn messages(text: &str) -> ReadError {
    let list: Tokens = text.parse().expect("the notation");
    Reader::new().read(&list, 6).expect_err("no tree")
}

/// The texts of an error and of what is below it.
fn chain(error: &dyn Error) -> Vec<String> {
    let mut texts = vec![error.to_string()];
    let mut cause = error.source();
    while let Some(below) = cause {
        texts.push(below.to_string());
        cause = below.source();
    }
    texts
}

#[test]
fn a_chain_says_each_thing_once() {
    let list: Tokens = "a b".parse().expect("the notation");
    let lifted = lift(&list).from(4).to(6).expect_err("no tree");
    let refused = ReadError::from(Refusal::TooManyTokens);
    let deep = ReadError::TooDeep { token: 7 };
    let lifted_deep = LiftError::Read(deep);
    for error in [
        &lifted as &dyn Error,
        &messages("a b"),
        &refused,
        &deep,
        &lifted_deep,
    ] {
        let texts = chain(error);
        for (place, text) in texts.iter().enumerate() {
            let below = &texts[place + 1..];
            assert!(
                below.iter().all(|cause| !text.contains(cause.as_str())),
                "{texts:?}"
            );
        }
        assert!(!texts[0].is_empty());
    }
    assert!(lifted.to_string().contains("2 parts are left"), "{lifted}");
}

#[test]
fn debug_shows_the_messages_that_are_there() {
    let ReadError::Messages(one) = messages("a b") else {
        panic!("two roots are a message");
    };
    let shown = format!("{one:?}");
    assert_eq!(
        (one.len(), shown.matches("MultipleRoots").count()),
        (1, 1),
        "{shown}"
    );
    let ReadError::Messages(two) = messages("(a]") else {
        panic!("brackets that do not match are messages");
    };
    assert!(matches!(
        two[..],
        [
            Message::ClosingMismatch { .. },
            Message::SectionNotClosed { .. }
        ]
    ));
    assert_eq!((&two).into_iter().count(), 2);
}

#[test]
fn what_is_not_plain_is_told_by_operator_place_and_reason() {
    let told = |text: &str, from: i16, to: i16| {
        let list: Tokens = text.parse().expect("the notation");
        match lift(&list)
            .from(from)
            .to(to)
            .expect_err("it is not written")
        {
            LiftError::NotPlain {
                op, span, reason, ..
            } => (
                op.text(),
                span.of(text).expect("in the text").to_string(),
                reason,
            ),
            other => panic!("{text}: {other}"),
        }
    };
    let bracket = Unplain::Bracket { parts: 2 };
    assert_eq!(told("(a b) && c || d", 5, 6), ("(", "(".into(), bracket));
    let else_ = Unplain::ElseWithoutIf;
    assert_eq!(told("a ? b ? c : d : e", 4, 5), (":", ":".into(), else_));
    assert_eq!(told("v = {a && b || c};", 5, 6).2, Unplain::NoExpression);
    let inside = Unplain::InExpression;
    assert_eq!(told("v = w = a && b || c;", 5, 6).2, inside);
    assert_eq!(told("(a; b && c || d;);", 5, 6).2, Unplain::Semicolon);
    assert_eq!(told("a + + && b || c", 5, 6).2, Unplain::NoOperands);
}

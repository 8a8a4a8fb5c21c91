//! An editor at work: somebody types, the tree or the message follows, and the pack's version
//! rises under it. It lexes by the notation; a real one has a lexer of its own.

use sorbrudder::{Edit, OpenList, Token, Tokens};

type Ended<T> = Result<T, Box<dyn std::error::Error>>;

/// How many tokens are the same, but that the second ones are moved by so much.
fn same<'t>(pairs: impl Iterator<Item = (&'t Token, &'t Token)>, by: i64) -> usize {
    let moved = |old: &Token| old.span.moved(by).map(|span| Token { span, ..*old });
    let same = pairs.take_while(|(old, new)| moved(old) == Some(**new));
    same.count()
}

/// Brings the list after a text that has grown by so much since it did so last.
fn follow(open: &mut OpenList, text: &str, grown: i64) -> Ended<bool> {
    let Ok(new) = text.parse::<Tokens>() else {
        println!("{text}: waits"); // half a sign, as the first & of &&
        return Ok(false);
    };
    // Tokens in front are as they were, those at the back have moved, and those between are typed.
    let old = open.tokens();
    let front = same(old.iter().zip(&*new), 0);
    let pairs = old[front..].iter().rev().zip(new[front..].iter().rev());
    let back = same(pairs, grown);
    let (removed, typed) = (old.len() - front - back, &new[front..new.len() - back]);
    let asked = open.ask(Edit::typed(&old, front, removed, typed, grown)?)?;
    match asked.reading() {
        Err(messages) => println!("{text}: {messages}"),
        Ok(tree) => {
            let drawn = open.changes(&asked)?; // all others stand on the screen as they did
            let drawn = drawn.iter().filter_map(|node| node.span().of(text));
            let drawn = drawn.collect::<Vec<_>>().join(" ");
            println!("{text}: {}, drawn anew: {drawn}", tree.shown_in(text));
        }
    }
    open.commit(&asked)?;
    Ok(true)
}

fn main() -> Ended<()> {
    let (mut open, mut text, mut grown) = (OpenList::open(&[], 5)?, String::new(), 0);
    for typed in ["a", " &", "&", " b", " || (c", ")"] {
        text += typed;
        grown += typed.len() as i64;
        if follow(&mut open, &text, grown)? {
            grown = 0;
        }
    }
    text.replace_range(0..1, "armed"); // all that stands behind it moves by four bytes
    follow(&mut open, &text, 4)?;
    open.adopt(6)?; // the pack declares version 6 now
    let tree = open.read()?;
    println!("version 6: {}", tree.shown_in(&text));
    for node in tree.path_at(9).iter().rev() {
        let part = node.subtree_span().of(&text); // what is selected round the caret, more and more
        println!("round byte 9: {}", part.unwrap_or_default());
    }
    Ok(())
}

//! What the programs read and print, by the end of document 01's section 'Lists and their trees': words as bytes, and the text of an answer.

use oracle::words::{Answer, Case, Token, exact_set};
use std::fmt::Write;

/// Little-endian words.
pub fn bytes(words: &[u32]) -> Vec<u8> {
    words.iter().flat_map(|word| word.to_le_bytes()).collect()
}

/// The words of bytes, if these are whole words.
pub fn words_in(bytes: &[u8]) -> Option<Vec<u32>> {
    let (words, rest) = bytes.as_chunks();
    let words = words.iter().map(|word| u32::from_le_bytes(*word));
    rest.is_empty().then(|| words.collect())
}

/// The word of a version.
pub fn version_word(version: i16) -> u32 {
    u32::from(version as u16)
}

/// Tokens of these operators, the i-th at the span i to i + 1, with payload 0.
pub fn tokens(ops: &[u16]) -> Vec<Token> {
    let token = |(place, &op): (usize, &u16)| Token {
        op,
        variant: 0,
        value: 0,
        start: place as u32,
        end: place as u32 + 1,
    };
    ops.iter().enumerate().map(token).collect()
}

/// The case of a list as the programs read it: its exact used set, and its highest span end as the source length.
pub fn own_case(tokens: Vec<Token>, version: i16) -> Case {
    Case {
        used: exact_set(&tokens),
        source_len: tokens.iter().map(|token| token.end).max().unwrap_or(0),
        version,
        tokens,
    }
}

/// The text of an answer.
pub fn text(answer: &Answer) -> String {
    let mut text = String::new();
    put_text(&mut text, answer).expect("a string takes all");
    text
}

fn put_text(text: &mut String, answer: &Answer) -> std::fmt::Result {
    match answer {
        Answer::Tree(nodes) => {
            writeln!(text, "tree {}", nodes.len())?;
            for node in nodes {
                let Token { op, start, end, .. } = node.token;
                writeln!(text, "{op} {} {start} {end}", node.children)?;
            }
        }
        Answer::Messages(records) => {
            writeln!(text, "messages {}", records.len())?;
            for record in records {
                let numbers = record.map(|number| number.to_string());
                writeln!(text, "{}", numbers.join(" "))?;
            }
        }
    }
    Ok(())
}

/// The line of a refusal.
pub fn refused(number: u32, place: usize) -> String {
    format!("refused {number} {place}\n")
}

/// What a version reads a list as, by the Rust, which is at hand.
pub fn by_the_rust(tokens: Vec<Token>, version: i16) -> Answer {
    let answer = oracle::answer_if_at_hand(&own_case(tokens, version));
    answer.expect("the Rust is at hand")
}

//! A tree as one line with all its brackets.

use sorbrudder::{Op, Payload, TreeRef, Writer};
use std::fmt::Write as _;

/// The line: as the writer writes it where the tree is plain, else each operator by its words before its operands.
pub fn line(tree: TreeRef<'_>, source: Option<&str>) -> String {
    let written = Writer::new().write(&tree.to_tree());
    match (written, source) {
        (Ok(list), Some(source)) => list.shown_in(source).to_string(),
        (Ok(list), None) => list.to_string(),
        (Err(_), _) => by_words(tree, source),
    }
}

/// What stands for a leaf, or the operator of a node with children.
pub fn label(node: sorbrudder::Node<'_>, source: Option<&str>) -> String {
    let (op, token) = (node.op(), node.token());
    let text = source.and_then(|source| node.span().of(source));
    let is_operand = matches!(op.number(), 40..=44 | 46..=49 | 61..=66 | 76 | 77) || op.is_host();
    match (is_operand, text) {
        (true, Some(text)) if !text.is_empty() => text.to_string(),
        (true, _) => sorbrudder::Tokens::from(vec![token]).to_string(),
        (false, _) if op.words() == op.text() || op.is_math_call() => op.text().to_string(),
        (false, _) => format!("{} {}", op.text(), op.words()),
    }
}

/// The name of the nth operand that carries nothing, as the notation names it.
fn operand(number: usize) -> String {
    let letter = char::from(b'a' + (number % 26) as u8);
    match number / 26 {
        0 => letter.to_string(),
        round => format!("{letter}{round}"),
    }
}

/// Each operator by its words before its operands.
fn by_words(tree: TreeRef<'_>, source: Option<&str>) -> String {
    let mut line = String::new();
    let mut operands = 0;
    // How many children are still to come of each node that is open.
    let mut open: Vec<usize> = Vec::new();
    for node in tree.nodes() {
        if node.is_leaf() {
            let is_bare = node.op() == Op::FLOAT && node.payload() == Payload::None;
            match source {
                None if is_bare => line.push_str(&operand(operands)),
                _ => line.push_str(&label(node, source)),
            }
            operands += usize::from(is_bare);
        } else {
            let _ = write!(line, "{}(", node.op().words());
            open.push(node.child_count());
            continue;
        }
        while let Some(left) = open.last_mut() {
            *left -= 1;
            if *left > 0 {
                line.push_str(", ");
                break;
            }
            line.push(')');
            open.pop();
        }
    }
    line
}

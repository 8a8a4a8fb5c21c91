//! A tree over borrowed words is walked as one that owns its words, and differences are the highest nodes that differ.

mod common;

use common::kept_lists;
use sorbrudder::{Reader, Tokens, Tree, TreeRef};

#[test]
fn both_trees_are_walked_alike() {
    let mut reader = Reader::new();
    let mut trees = 0;
    for list in kept_lists().iter().filter(|list| list.len() < 5 * 60) {
        let Ok(tree) = reader.read_words(list, 5).map(TreeRef::to_tree) else {
            continue;
        };
        trees += 1;
        let borrowed = TreeRef::from_words(tree.words()).expect("it is a tree");
        assert_eq!(borrowed.to_string(), tree.to_string());
        for (owned, seen) in tree.nodes().zip(borrowed) {
            let numbers = |node: sorbrudder::Node<'_>| {
                let children: Vec<usize> = node.children().map(|child| child.number()).collect();
                let above: Vec<usize> = node.ancestors().map(|above| above.number()).collect();
                (children, above, node.subtree().count(), node.close())
            };
            assert_eq!(numbers(owned), numbers(seen), "{tree}");
        }
        assert_eq!(borrowed.without_brackets(), tree.without_brackets());
    }
    assert!(trees > 3_000, "{trees}");
}

#[test]
fn a_borrowed_section_reaches_to_its_closer() {
    let source = "[x] ? 0 : -((a + b) * (c))";
    let list: Tokens = source.parse().expect("the notation");
    let mut reader = Reader::new();
    let tree = reader.read_words(&list.words(), 6).expect("a tree");
    let openers = tree
        .nodes()
        .filter(|node| node.close() != node.span().end());
    let extents: Vec<_> = openers
        .map(|node| node.subtree_span().of(source).expect("in the source"))
        .collect();
    assert_eq!(extents, ["[x]", "((a + b) * (c))", "(a + b)", "(c)"]);
    assert_eq!(tree.root().subtree_span().of(source), Some(source));
}

fn read(text: &str, version: i16) -> Tree {
    let list: Tokens = text.parse().expect("the notation");
    Reader::new().read(&list, version).expect("a tree")
}

#[test]
fn differences_are_the_highest_nodes_that_differ() {
    let text = "(a && b || c) + (d > e == f) * (g + h)";
    let (old, new) = (read(text, 5), read(text, 6));
    let found: Vec<_> = old.differences(&new).collect();
    let ops: Vec<_> = found
        .iter()
        .map(|d| (d.old.op().text(), d.new.op().text()))
        .collect();
    assert_eq!(ops, [("&&", "||"), (">", "==")]);
    for difference in &found {
        let above = |node: sorbrudder::Node<'_>| -> Vec<_> {
            node.ancestors()
                .map(|above| above.words().to_vec())
                .collect()
        };
        assert_eq!(above(difference.old), above(difference.new));
        assert_eq!(difference.old.subtree_span(), difference.new.subtree_span());
    }
    let (sum, negative) = (read("a + b", 6), read("a + b + c", 6));
    assert_eq!(sum.differences(&negative).count(), 1);
}

#[test]
fn trees_without_a_difference_are_equal() {
    let mut reader = Reader::new();
    let mut differing = 0;
    for list in kept_lists().iter().filter(|list| list.len() < 5 * 60) {
        let old = reader.read_words(list, 4).map(TreeRef::to_tree);
        let new = reader.read_words(list, 6).map(TreeRef::to_tree);
        if let (Ok(old), Ok(new)) = (old, new) {
            assert_eq!(old == new, old.differences(&new).next().is_none());
            differing += usize::from(old != new);
        }
    }
    assert!(differing > 50, "{differing}");
}

//! Trees that are read with rules: the same trees, and each node with the rule that made it.

mod common;

use common::kept_lists;
use sorbrudder::{Limit, Node, Op, ReadError, Reader, Rule, Tokens, Tree};
use std::collections::BTreeSet;

fn tokens(text: &str) -> Tokens {
    text.parse().expect("the notation")
}

/// The rules of a list, of nodes with children.
fn rules(text: &str, version: i16) -> Vec<Rule> {
    let tree = Reader::new().read_with_rules(&tokens(text), version);
    let tree = tree.expect("a tree");
    tree.nodes().filter_map(Node::rule).collect()
}

#[test]
fn each_rule_makes_its_nodes() {
    use Rule::*;
    let lists: [(&str, &[Rule]); 14] = [
        ("a", &[]),
        ("a - b", &[Addition, Unary]),
        ("!a * b / c", &[Multiplication, Unary, Division]),
        ("variable.1 member_accessor", &[Member]),
        ("variable.1 -> variable.2", &[Pointer]),
        ("{a + b}", &[Section, Addition]),
        ("query.1(a, b)", &[Call, Section, Comma]),
        ("math.sin(a)", &[Math, Section]),
        ("math.sin()", &[Math]),
        ("array_variable[a]", &[Array]),
        ("variable.1 = a;", &[Semicolon, Semicolon, Assignment]),
        ("return a;", &[Semicolon, Semicolon, Return]),
        ("a < b != c && d", &[And, Equality, Comparison]),
        (
            "a || b ? c : d ?? e",
            &[NullCoalescing, Conditional, Or, Conditional],
        ),
    ];
    let mut seen: BTreeSet<Rule> = BTreeSet::new();
    for (list, known) in lists {
        assert_eq!(rules(list, 6), known, "{list}");
        seen.extend(known);
    }
    assert_eq!(seen.len(), Rule::ALL.len(), "{seen:?}");
}

#[test]
fn equality_is_a_comparison_below_version_6() {
    for version in [i16::MIN, -1, 0, 5] {
        assert_eq!(rules("a == b != c", version), [Rule::Comparison; 2]);
    }
    for version in [6, 13, 14, i16::MAX] {
        assert_eq!(rules("a == b != c", version), [Rule::Equality; 2]);
    }
}

#[test]
fn a_list_reads_with_rules_as_without() {
    let mut reader = Reader::new();
    let (mut trees, mut seen) = (0, BTreeSet::new());
    for list in kept_lists() {
        let Some(list) = Tokens::from_words(&list) else {
            continue;
        };
        for version in [4, 6] {
            let without = reader.read(&list, version);
            let with = reader.read_with_rules(&list, version);
            assert_eq!(with, without);
            let (Ok(with), Ok(without)) = (with, without) else {
                continue;
            };
            trees += 1;
            assert!(without.nodes().all(|node| node.rule().is_none()));
            for node in &with {
                assert_eq!(node.rule().is_none(), node.is_leaf(), "{node:?} of {with}");
                seen.extend(node.rule());
            }
        }
    }
    assert!(trees > 5_000, "{trees}");
    assert_eq!(seen.len(), Rule::ALL.len(), "{seen:?}");
}

#[test]
fn rules_stay_with_a_tree_and_go_with_its_shape() {
    let mut reader = Reader::new();
    let tree = reader
        .read_with_rules(&tokens("(a + b) * c"), 6)
        .expect("a tree");
    let names = |tree: &Tree| -> Vec<Option<Rule>> { tree.nodes().map(Node::rule).collect() };
    let known = [
        Some(Rule::Multiplication),
        Some(Rule::Section),
        Some(Rule::Addition),
        None,
        None,
        None,
    ];
    assert_eq!(names(&tree), known);
    assert_eq!(names(&tree.clone()), known);
    assert_eq!(names(&tree.view().to_tree()), known);
    let section = tree.root().child(0).expect("a section");
    let below: Vec<Option<Rule>> = section.subtree().map(Node::rule).collect();
    assert_eq!(below, known[1..5]);
    // A tree of words, and one with nodes taken away, was not read with rules.
    for other in [
        Tree::from_words(tree.words().to_vec()).expect("its own words"),
        tree.without_brackets(),
    ] {
        assert!(names(&other).iter().all(Option::is_none), "{other}");
    }
    // A reader's next list has its own rules.
    let next = reader.read_with_rules(&tokens("a ? b : c"), 6);
    let next = next.expect("a tree");
    assert_eq!(next.root().rule(), Some(Rule::Conditional));
    assert_eq!(names(&tree), known);
}

#[test]
fn what_is_no_tree_is_told_as_without_rules() {
    let mut reader = Reader::new().with_limit(Limit::new(1).expect("a limit"));
    let deep = reader.read_with_rules(&tokens("((a))"), 6);
    assert_eq!(deep, Err(ReadError::TooDeep { token: 1 }));
    for list in ["a b", "a +", ""] {
        let list = tokens(list);
        assert_eq!(reader.read_with_rules(&list, 6), reader.read(&list, 6));
    }
    let long = vec![tokens("a")[0]; sorbrudder::MOST_TOKENS + 1];
    assert_eq!(reader.read_with_rules(&long, 6), reader.read(&long, 6));
    let longest = &long[1..];
    assert_eq!(reader.read_with_rules(longest, 6), reader.read(longest, 6));
}

#[test]
fn the_longest_lists_are_read_with_rules() {
    let text = format!("a{}", " - b".repeat(2_047));
    let tree = Reader::new().read_with_rules(&tokens(&text), 6);
    let tree = tree.expect("a tree");
    let count = |rule| {
        tree.nodes()
            .filter(|node| node.rule() == Some(rule))
            .count()
    };
    assert_eq!((count(Rule::Addition), count(Rule::Unary)), (2_047, 2_047));
    let negative = |node: &Node<'_>| node.op() == Op::NEGATE;
    assert_eq!(tree.nodes().filter(negative).count(), 2_047);
}

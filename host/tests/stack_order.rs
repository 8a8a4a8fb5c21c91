//! Stack order through the safe interface: every kept tree comes back, and a runtime of a few lines runs it.

mod common;

use common::kept_lists;
use sorbrudder::{Node, Op, Payload, Reader, Token, Tokens, Tree, TreeRef};

/// A node's words after those of all below it, by the tree's own walk.
fn put(node: Node<'_>, words: &mut Vec<u32>) {
    node.children().for_each(|child| put(child, words));
    words.extend(node.words());
}

#[test]
fn every_kept_tree_goes_into_stack_order_and_back() {
    let mut reader = Reader::new();
    let mut trees = 0;
    for list in kept_lists() {
        let Ok(tree) = reader.read_words(&list, 5).map(TreeRef::to_tree) else {
            continue;
        };
        trees += 1;
        let stack = tree.to_stack();
        if tree.depth() < 300 {
            let mut walked = Vec::new();
            put(tree.root(), &mut walked);
            assert_eq!(stack, walked, "{tree}");
        }
        assert_eq!(Tree::from_stack(&stack), Ok(tree));
    }
    assert!(trees > 3_000, "{trees}");
}

#[test]
fn words_that_end_early_or_late_are_no_tree() {
    let list: Tokens = "(a + b) * -c".parse().expect("the notation");
    let stack = Reader::new().read(&list, 6).expect("a tree").to_stack();
    for len in 0..stack.len() {
        let cut = Tree::from_stack(&stack[..len]);
        match len / Tree::NODE_WORDS {
            // `a`, the sum and its bracket are trees by themselves.
            1 | 3 | 4 if len.is_multiple_of(Tree::NODE_WORDS) => assert!(cut.is_ok()),
            _ => assert_eq!(cut.map_err(|why| why.word).err(), Some(len)),
        }
    }
    let twice = stack.repeat(2);
    let why = Tree::from_stack(&twice).expect_err("two trees");
    assert_eq!(why.word, twice.len());
}

/// What a runtime makes of words in stack order: a node's operands are on its stack when the node comes.
fn run(stack_order: &[u32]) -> f32 {
    let mut stack: Vec<f32> = Vec::new();
    for node in stack_order.chunks_exact(Tree::NODE_WORDS) {
        let token = Token::from_words(*node.first_chunk().expect("seven words"));
        let Token { op, payload, .. } = token.expect("a node's token");
        let children = (node[Token::WORDS] & 0x3FFF) as usize;
        let operands = stack.split_off(stack.len() - children);
        stack.push(match (op, payload, &operands[..]) {
            (Op::FLOAT, Payload::Float(number), []) => number,
            (Op::LEFT_PARENTHESIS, _, [inner]) => *inner,
            (Op::NEGATE, _, [one]) => -one,
            (Op::ADD, _, [left, right]) => left + right,
            (Op::MUL, _, [left, right]) => left * right,
            (Op::DIV, _, [left, right]) => left / right,
            other => panic!("{other:?}"),
        });
    }
    assert_eq!(stack.len(), 1, "one value is left");
    stack[0]
}

#[test]
fn a_runtime_runs_them_in_one_pass() {
    let value = |text: &str| {
        let list: Tokens = text.parse().expect("the notation");
        run(&Reader::new().read(&list, 6).expect("a tree").to_stack())
    };
    assert_eq!(value("7"), 7.0);
    assert_eq!(value("2 + 3 * 4"), 14.0);
    assert_eq!(value("(2 + 3) * 4"), 20.0);
    assert_eq!(value("9 / 2 - (1 - 3)"), 6.5);
    assert_eq!(value("-(2 * (3 + 4)) / -7"), 2.0);
}

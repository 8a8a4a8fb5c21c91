//! The node that the library finds not plain is the first that `Node::unplain` has a reason for.

mod common;

use common::{Rng, kept_lists};
use sorbrudder::{Op, Reader, Span, Token, Tree, TreeRef, WriteError, Writer};

fn agree(writer: &mut Writer, tree: TreeRef<'_>) -> bool {
    let first = tree.nodes().position(|node| node.unplain().is_some());
    match (writer.write_words(tree.words()), first) {
        (Err(WriteError::NotPlain { node }), Some(found)) => assert_eq!(node, found, "{tree}"),
        (Ok(_) | Err(WriteError::TooLong), None) => return true,
        (answer, found) => panic!("{answer:?} and {found:?} of {tree}"),
    }
    false
}

#[test]
fn of_every_kept_list() {
    let (mut reader, mut writer) = (Reader::new(), Writer::new());
    let (mut plain, mut trees) = (0, 0);
    for (list, version) in kept_lists()
        .iter()
        .flat_map(|list| [4, 6].map(|v| (list, v)))
    {
        if list.len() < 5 * 500
            && let Ok(tree) = reader.read_words(list, version)
        {
            plain += usize::from(agree(&mut writer, tree));
            trees += 1;
        }
    }
    assert!(plain > 1_000 && trees - plain > 1_000, "{plain} of {trees}");
}

#[test]
fn of_any_small_tree() {
    // Three of a host: their lower eight bits are `-`, `;` and a number's.
    let ops = [
        4, 6, 7, 9, 36, 40, 45, 59, 60, 61, 71, 73, 74, 75, 77, 262, 585, 829,
    ];
    let ops = ops.map(|op| Op::new(op).expect("one"));
    let (mut rng, mut writer) = (Rng(3), Writer::new());
    let mut plain = 0;
    for _ in 0..200_000 {
        let node = |rng: &mut Rng| {
            let op = ops[rng.below(ops.len())];
            (Token::bare(op, Span::default()), rng.below(4))
        };
        let mut missing = 1;
        let nodes = std::iter::from_fn(|| {
            let (token, children) = node(&mut rng);
            let children = if missing > 4 { 0 } else { children };
            missing = (missing > 0).then_some(missing + children)? - 1;
            Some((token, children))
        });
        let tree = Tree::from_nodes(nodes).expect("one tree");
        plain += usize::from(agree(&mut writer, tree.view()));
    }
    assert!(plain > 1_000, "{plain}");
}

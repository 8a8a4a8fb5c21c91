//! Nothing lost in the brackets (card 13): the card's three sentences over the operators of a list and the nodes of trees,
//! and the library's answers beside them.
//!
//! A call answers with one tree or with messages. So that the trees of a list are seen where there are several, its trees are
//! also read with a comma between each two: nothing is open there, and the commas stand over the trees.

use oracle::generate::alphabets::Alphabet;
use oracle::words::TreeNode;

/// The six brackets and a float.
pub static BRACKETS: Alphabet = Alphabet {
    name: "brackets",
    ops: &[0, 1, 2, 3, 4, 5, 61],
    ending: &[],
    versions_differ: false,
};

const COMMA: u16 = 75;

fn is_opener(op: u16) -> bool {
    matches!(op, 0 | 2 | 4)
}

fn is_closer(op: u16) -> bool {
    matches!(op, 1 | 3 | 5)
}

/// Every closer met inside an open section matches the innermost, and no section is open at the end.
pub fn matched(ops: &[u16]) -> bool {
    let mut open = Vec::new();
    for &op in ops {
        if is_opener(op) {
            open.push(op);
        } else if is_closer(op) && open.pop().is_some_and(|opener| opener + 1 != op) {
            return false;
        }
    }
    open.is_empty()
}

/// How many sections are open after each token of a matched list.
fn open_after(ops: &[u16]) -> impl Iterator<Item = usize> {
    ops.iter().scan(0usize, |open, &op| {
        if is_opener(op) {
            *open += 1;
        } else if is_closer(op) {
            *open = open.saturating_sub(1);
        }
        Some(*open)
    })
}

/// The places of the closers of a matched list that are met with nothing open.
pub fn lone_closers(ops: &[u16]) -> Vec<usize> {
    let before = std::iter::once(0).chain(open_after(ops));
    let met = ops.iter().zip(before).enumerate();
    met.filter(|(_, (op, open))| is_closer(**op) && *open == 0)
        .map(|(place, _)| place)
        .collect()
}

/// A matched list with a comma between its trees.
pub fn with_commas(ops: &[u16]) -> Vec<u16> {
    let mut list = Vec::new();
    for (&op, open) in ops.iter().zip(open_after(ops)) {
        list.push(op);
        if open == 0 {
            list.push(COMMA);
        }
    }
    list.pop();
    list
}

/// The trees of a list, each as its nodes in preorder.
fn trees(mut nodes: &[TreeNode]) -> Vec<&[TreeNode]> {
    let mut trees = Vec::new();
    while !nodes.is_empty() {
        let (mut awaited, mut len) = (1, 0);
        while awaited > 0 {
            awaited = awaited - 1 + nodes[len].children;
            len += 1;
        }
        let (tree, rest) = nodes.split_at(len);
        trees.push(tree);
        nodes = rest;
    }
    trees
}

/// Each node, then its children, then for each opener its closer.
fn spelled(tree: &[TreeNode]) -> Vec<u16> {
    let mut ops = Vec::new();
    // The nodes whose children are not all spelled, with how many are left.
    let mut above: Vec<(u16, u32)> = Vec::new();
    for node in tree {
        ops.push(node.token.op);
        above.push((node.token.op, node.children));
        while let Some(&(op, 0)) = above.last() {
            if is_opener(op) {
                ops.push(op + 1);
            }
            above.pop();
            if let Some((_, left)) = above.last_mut() {
                *left -= 1;
            }
        }
    }
    ops
}

/// What is lost of a matched list in the trees that were made of it: a tree does not spell what stands at its place, or a
/// closer met with nothing open is no leaf there.
pub fn lost(ops: &[u16], nodes: &[TreeNode]) -> Option<String> {
    let (mut at, mut leaves) = (0, Vec::new());
    for tree in trees(nodes) {
        let spelled = spelled(tree);
        if !ops[at..].starts_with(&spelled) {
            return Some(format!("the tree at token {at} spells {spelled:?}"));
        }
        if is_closer(tree[0].token.op) && tree.len() == 1 {
            leaves.push(at);
        }
        at += spelled.len();
    }
    if at != ops.len() {
        return Some(format!("the trees spell the first {at} tokens"));
    }
    let lone = lone_closers(ops);
    (leaves != lone).then(|| format!("closers are leaves at {leaves:?} and not at {lone:?}"))
}

#[cfg(library)]
pub use beside::Matching;

#[cfg(library)]
mod beside {
    use super::{BRACKETS, COMMA, lone_closers, lost, matched, with_commas};
    use crate::library::Read;
    use crate::reading::{Buffers, expected};
    use crate::smallest::shown;
    use oracle::generate::dress;
    use oracle::refusal::Call;
    use oracle::words::{Case, decode_tree, exact_set};

    /// How many lists were read, how many of them are matched, and how many of these have a closer met with nothing open.
    #[derive(Default)]
    pub struct Matching {
        buffers: Buffers,
        pub lists: u64,
        pub matched: u64,
        pub lone: u64,
    }

    impl Matching {
        /// Compares every list of up to `most` brackets and floats; `progress` is called for each.
        pub fn all(&mut self, most: usize, mut progress: impl FnMut()) -> Result<(), String> {
            for (number, ops) in BRACKETS.every_list(most).enumerate() {
                let version = 4 + (number % 3) as i16;
                self.list(&ops, version)
                    .map_err(|why| format!("{why}\nof the operators {ops:?}"))?;
                progress();
            }
            Ok(())
        }

        /// Reads a list, beside the Rust where it is at hand. The openers are in the used set, so the bracket step runs.
        fn read(&mut self, ops: &[u16], version: i16) -> Result<Read, String> {
            let tokens = dress::plain(ops);
            let used = exact_set(&[tokens.clone(), dress::plain(&[0, 2, 4])].concat());
            let call = Call::of(&Case {
                used,
                ..Case::exact(tokens, version)
            });
            let read = self.buffers.call(&call, &expected(&call));
            read.map_err(|why| format!("{why}\n{}", shown(&call)))
        }

        /// Compares the answers to a list, and to its trees with commas between them, with the three sentences.
        fn list(&mut self, ops: &[u16], version: i16) -> Result<(), String> {
            self.lists += 1;
            let read = self.read(ops, version)?;
            let records = match read {
                Read::Messages(count) => self.buffers.records(count),
                _ => Vec::new(),
            };
            let numbers: Vec<u32> = records.iter().map(|record| record[0]).collect();
            let matched = matched(ops);
            // Messages 4 and 5, or 6 and 5, are the bracket step's; 1 is that of no root or several.
            let sound = match numbers[..] {
                [4 | 6, 5] => !matched,
                [] | [1] => matched,
                _ => false,
            };
            if !sound {
                return Err(format!("{read:?} with the messages {numbers:?}"));
            }
            if !matched {
                return Ok(());
            }
            self.matched += 1;
            self.lone += u64::from(!lone_closers(ops).is_empty());
            match ops {
                [] => Ok(()),
                _ => self.trees(ops, version),
            }
        }

        /// Compares the trees of a matched list with the sentences about them.
        fn trees(&mut self, ops: &[u16], version: i16) -> Result<(), String> {
            let list = with_commas(ops);
            let read = self.read(&list, version)?;
            let Read::Tree(nodes) = read else {
                return Err(format!("{read:?} with commas between the trees"));
            };
            let nodes = decode_tree(self.buffers.tree(nodes)).ok_or("the words are no tree")?;
            let commas = list.len() - ops.len();
            let (above, nodes) = nodes.split_at(commas);
            if above.iter().any(|node| node.token.op != COMMA) {
                return Err(format!("{commas} commas do not stand over the trees"));
            }
            lost(ops, nodes).map_or(Ok(()), Err)
        }
    }
}

#[cfg(test)]
mod tests {
    use super::*;
    use crate::plain_trees::bare;

    /// The nodes of a list of trees: each operator with how many children follow.
    fn nodes(shape: &[(u16, u32)]) -> Vec<TreeNode> {
        shape.iter().map(|&(op, kids)| bare(op, kids)).collect()
    }

    #[test]
    fn brackets_match_the_innermost_and_close_by_the_end() {
        for ops in [&[][..], &[4, 5], &[0, 2, 61, 3, 1], &[5, 4, 5, 3], &[61]] {
            assert!(matched(ops), "{ops:?}");
        }
        for ops in [&[4][..], &[4, 3], &[0, 2, 1, 3], &[5, 4], &[4, 4, 5]] {
            assert!(!matched(ops), "{ops:?}");
        }
    }

    #[test]
    fn a_closer_is_lone_where_nothing_is_open() {
        assert_eq!(lone_closers(&[5, 4, 5, 5, 61, 1]), [0, 3, 5]);
        assert_eq!(with_commas(&[5, 4, 5, 61]), [5, 75, 4, 5, 75, 61]);
        assert_eq!(with_commas(&[4, 61, 61, 5]), [4, 61, 61, 5]);
    }

    #[test]
    fn trees_that_lose_nothing_are_told_from_those_that_do() {
        let ops = [4, 61, 2, 3, 5, 5, 61];
        let whole = [(4, 2), (61, 0), (2, 0), (5, 0), (61, 0)];
        assert_eq!(lost(&ops, &nodes(&whole)), None);
        let slips: [&[(u16, u32)]; 5] = [
            // The lone closer is dropped, or stands in a section before it.
            &[(4, 2), (61, 0), (2, 0), (61, 0)],
            &[(4, 3), (61, 0), (2, 0), (5, 0), (61, 0)],
            // The contents are in reverse, or stand beside their section.
            &[(4, 2), (2, 0), (61, 0), (5, 0), (61, 0)],
            &[(4, 0), (61, 0), (2, 0), (5, 0), (61, 0)],
            // What stands last is lost.
            &[(4, 2), (61, 0), (2, 0), (5, 0)],
        ];
        for slip in slips {
            assert!(lost(&ops, &nodes(slip)).is_some(), "{slip:?}");
        }
        // `( ) )` is spelled by a bracket with a closer in it, too.
        assert!(lost(&[4, 5, 5], &nodes(&[(4, 1), (5, 0)])).is_some());
        assert_eq!(lost(&[4, 5, 5], &nodes(&[(4, 0), (5, 0)])), None);
    }
}

//! Which nodes of a tree another tree does not have so, where the second list came of the first by an edit that may have moved its text.

use crate::{Node, Span, Token, Tree};
use std::collections::HashMap;

/// The tokens that two lists share: so many in front, and so many at the back, whose spans are moved by as much.
struct Shared {
    front: usize,
    back: usize,
    /// How many tokens the first list has more than the second; below 0 where it has fewer.
    fewer: isize,
    moved: i64,
}

impl Shared {
    fn between(old: &[Token], new: &[Token]) -> Self {
        let pairs = old.iter().zip(new);
        let front = pairs.take_while(|(old, new)| old == new).count();
        let moved = match (old.last(), new.last()) {
            (Some(old), Some(new)) => i64::from(new.span.end()) - i64::from(old.span.end()),
            _ => 0,
        };
        let is_moved = |(old, new): &(&Token, &Token)| {
            (old.op, old.payload) == (new.op, new.payload)
                && old.span.moved(moved) == Some(new.span)
        };
        let pairs = old[front..].iter().rev().zip(new[front..].iter().rev());
        Self {
            front,
            back: pairs.take_while(is_moved).count(),
            fewer: old.len() as isize - new.len() as isize,
            moved,
        }
    }

    /// The token of the first list that a token of the second, of so many, is.
    fn old(&self, token: usize, of: usize) -> Option<usize> {
        if token < self.front {
            return Some(token);
        }
        (token >= of - self.back).then_some(token.wrapping_add_signed(self.fewer))
    }

    /// Whether two places are one, moved with the text or not.
    fn is_same_place(&self, old: u32, new: u32) -> bool {
        old == new || i64::from(old) + self.moved == i64::from(new)
    }
}

/// A node by its token, and by which of the token's nodes it is in preorder.
type Name = (usize, usize);

/// The names of a tree's nodes; none for a node whose span no token has.
fn names(list: &[Token], tree: &Tree) -> Vec<Option<Name>> {
    let mut tokens: HashMap<Span, usize> = HashMap::with_capacity(list.len());
    for (number, token) in list.iter().enumerate() {
        tokens.entry(token.span).or_insert(number);
    }
    let mut counts = vec![0; list.len()];
    let name = |node: Node<'_>| {
        let token = *tokens.get(&node.span())?;
        counts[token] += 1;
        Some((token, counts[token] - 1))
    };
    tree.nodes().map(name).collect()
}

/// A list with its tree, and the names of the nodes.
struct Reading<'r> {
    tree: &'r Tree,
    names: Vec<Option<Name>>,
}

impl Reading<'_> {
    /// The names of a node's parent and of its children; none where one of them has no name. The root has no parent.
    fn around(&self, node: Node<'_>) -> Option<(Option<Name>, Vec<Name>)> {
        let parent = match node.parent() {
            Some(parent) => Some(self.names[parent.number()]?),
            None => None,
        };
        let children = node.children().map(|child| self.names[child.number()]);
        Some((parent, children.collect::<Option<_>>()?))
    }
}

/// The nodes of the second tree that the first does not have so.
pub(crate) fn between<'n>(
    (before, old): (&[Token], &Tree),
    (after, new): (&[Token], &'n Tree),
) -> Vec<Node<'n>> {
    let shared = Shared::between(before, after);
    let (old_names, new_names) = (names(before, old), names(after, new));
    let named = old_names.iter().enumerate();
    let by_name: HashMap<Name, usize> = named
        .filter_map(|(number, name)| Some(((*name)?, number)))
        .collect();
    let old_reading = Reading {
        tree: old,
        names: old_names,
    };
    // The second tree's nodes by the names that they have in the first.
    let in_old = |name: Option<Name>| {
        let (token, which) = name?;
        Some((shared.old(token, after.len())?, which))
    };
    let new_reading = Reading {
        tree: new,
        names: new_names.into_iter().map(in_old).collect(),
    };
    let is_kept = |node: Node<'_>| -> Option<bool> {
        let name = new_reading.names[node.number()]?;
        let was = old_reading.tree.node(*by_name.get(&name)?)?;
        Some(
            (was.op(), was.payload()) == (node.op(), node.payload())
                && shared.is_same_place(was.close(), node.close())
                && old_reading.around(was)? == new_reading.around(node)?,
        )
    };
    let nodes = new_reading.tree.nodes();
    nodes.filter(|node| is_kept(*node) != Some(true)).collect()
}

//! A tree as lines, a node a line.

use crate::bracketed::label;
use sorbrudder::{Difference, Rule, TreeRef};

/// The levels whose branches are drawn; a deeper node's level is given as a number.
const DEEPEST: usize = 60;

/// A line of a drawing.
pub struct Row {
    pub node: usize,
    pub depth: usize,
    /// The branches that lead to the node.
    pub branches: String,
    pub label: String,
    /// The rule that made the node, where the tree was read with rules.
    pub rule: Option<Rule>,
}

impl Row {
    /// The line, with the rule behind what stands for the node.
    pub fn line(&self) -> String {
        let rule = self.rule.map_or(String::new(), |rule| named(rule.name()));
        format!("{}{}{rule}", self.branches, self.label)
    }
}

/// The name of a rule as it stands behind a node.
pub fn named(rule: &str) -> String {
    format!(" [{rule}]")
}

/// The lines of a tree.
pub fn rows(tree: TreeRef<'_>, source: &str) -> Vec<Row> {
    // For each node above: how many of its children are still to come.
    let mut open: Vec<usize> = Vec::new();
    let mut rows = Vec::with_capacity(tree.len());
    for node in tree.nodes() {
        rows.push(Row {
            node: node.number(),
            depth: open.len(),
            branches: branches(&open),
            label: label(node, Some(source)),
            rule: node.rule(),
        });
        if let Some(left) = open.last_mut() {
            *left -= 1;
        }
        open.push(node.child_count());
        while open.last() == Some(&0) {
            open.pop();
        }
    }
    rows
}

/// The branches before a node under these, with so many children of each to come, the node among them.
fn branches(open: &[usize]) -> String {
    let Some((last, above)) = open.split_last() else {
        return String::new();
    };
    let own = if *last > 1 { "├─ " } else { "└─ " };
    if open.len() > DEEPEST {
        return format!("[level {}] {own}", open.len());
    }
    let above = above
        .iter()
        .map(|left| if *left > 0 { "│  " } else { "   " });
    above.chain([own]).collect()
}

/// Which nodes of a tree lie in a part that differs, by number.
pub fn marked<'t>(
    len: usize,
    differences: impl Iterator<Item = Difference<'t>>,
    of: impl Fn(Difference<'t>) -> sorbrudder::Node<'t>,
) -> Vec<bool> {
    let mut marked = vec![false; len];
    for difference in differences {
        for node in of(difference).subtree() {
            marked[node.number()] = true;
        }
    }
    marked
}

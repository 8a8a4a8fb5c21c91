//! By which rule two versions read a list otherwise. Which rule made a node is the library's answer; here stands what each of the rules
//! that a version changes says before and after.

use sorbrudder::{Rule, Tree};
use std::collections::BTreeSet;
use std::ops::RangeInclusive;

/// What changes at a version: the rules that pair otherwise from there on, and what they say before and after.
struct Change {
    at: i16,
    rules: &'static [Rule],
    /// The operators that these rules pair.
    ops: RangeInclusive<u16>,
    text: &'static str,
}

const CHANGES: [Change; 3] = [
    Change {
        at: 6,
        rules: &[Rule::Comparison, Rule::Equality],
        ops: 50..=55,
        text: "below version 6 the comparisons are paired one sign after the other (< == >= > <= !=), \
               from 6 on comparisons before equalities",
    },
    Change {
        at: 6,
        rules: &[Rule::And, Rule::Or],
        ops: 56..=57,
        text: "up to version 5 `||` is paired before `&&`, from 6 on `&&` before `||`",
    },
    Change {
        at: 5,
        rules: &[Rule::Conditional],
        ops: 59..=60,
        text: "below version 5 every `:` is paired, then every `?` from the left; \
               from 5 on `?` and `:` belong together, nested to the right",
    },
];

/// What changes between two versions.
fn changes(one: i16, other: i16) -> impl Iterator<Item = &'static Change> {
    let (low, high) = (one.min(other), one.max(other));
    CHANGES
        .iter()
        .filter(move |change| low < change.at && change.at <= high)
}

/// The rule by which two versions differ where nodes were made by these.
pub fn between(one: i16, other: i16, rules: &[Rule]) -> Option<&'static str> {
    let mut at_work =
        changes(one, other).filter(|change| rules.iter().any(|rule| change.rules.contains(rule)));
    at_work.next().map(|change| change.text)
}

/// All rules by which two versions read trees that differ, both read with rules. Nodes that one rule makes never change how far the
/// operands of another's reach, so a rule is at work where the reach of a node that it made is another.
pub fn all_between((one, first): (i16, &Tree), (other, second): (i16, &Tree)) -> Vec<&'static str> {
    let at_work =
        changes(one, other).filter(|change| reaches(first, change) != reaches(second, change));
    at_work.map(|change| change.text).collect()
}

/// Why versions read a list alike.
#[derive(Clone, Copy, Debug, PartialEq, Eq)]
pub enum WhyAlike {
    /// They have the same rules.
    SameRules,
    /// The list has none of the operators that they pair otherwise.
    NoSuchOperator,
    /// It has some, and they are paired alike where they stand.
    Paired,
}

impl WhyAlike {
    /// Why two versions, and those between them, read a list of these operators alike.
    pub fn of(one: i16, other: i16, mut ops: impl Iterator<Item = u16>) -> Self {
        if changes(one, other).next().is_none() {
            return Self::SameRules;
        }
        let is_changed = |op: u16| changes(one, other).any(|change| change.ops.contains(&op));
        if ops.any(is_changed) {
            Self::Paired
        } else {
            Self::NoSuchOperator
        }
    }

    /// One word for it.
    pub fn word(self) -> &'static str {
        match self {
            Self::SameRules => "same-rules",
            Self::NoSuchOperator => "no-such-operator",
            Self::Paired => "paired-alike",
        }
    }

    pub fn text(self) -> &'static str {
        match self {
            Self::SameRules => "These versions have the same rules.",
            Self::NoSuchOperator => {
                "Nothing changes: no operator in it is one that these versions pair otherwise."
            }
            Self::Paired => {
                "Nothing changes: what these versions may pair otherwise is paired alike here, by its brackets or by what stands beside it."
            }
        }
    }
}

/// The nodes that a change's rules made, with where each stands and how far its operands reach.
fn reaches(tree: &Tree, change: &Change) -> BTreeSet<[u32; 5]> {
    let is_made = |rule: Option<Rule>| rule.is_some_and(|rule| change.rules.contains(&rule));
    let made = tree.nodes().filter(|node| is_made(node.rule()));
    let reach = made.map(|node| {
        let (own, all) = (node.span(), node.subtree_span());
        let op = u32::from(node.op().number());
        [op, own.start(), own.end(), all.start(), all.end()]
    });
    reach.collect()
}

#[cfg(test)]
mod tests {
    use super::{all_between, between};
    use sorbrudder::{Op, Payload, Reader, Rule, Span, Token, Tree};

    /// Three operands with two operators between them, read with rules.
    fn read(reader: &mut Reader, ops: [u16; 2], version: i16) -> Option<Tree> {
        let [first, second] = ops.map(|number| Op::new(number).expect("an operator"));
        let list: Vec<Token> = [Op::FLOAT, first, Op::FLOAT, second, Op::FLOAT]
            .into_iter()
            .zip(0..)
            .map(|(op, at)| Token {
                op,
                payload: Payload::None,
                span: Span::new(at, at + 1).expect("a span"),
            })
            .collect();
        reader.read_with_rules(&list, version).ok()
    }

    #[test]
    fn two_versions_differ_exactly_where_a_rule_is_named() {
        let mut reader = Reader::new();
        let mut differing = 0;
        for (one, other) in [(4, 5), (5, 6), (4, 6)] {
            for ops in (0..=110).flat_map(|first| (0..=110).map(move |second| [first, second])) {
                let trees = [one, other].map(|version| read(&mut reader, ops, version));
                let [Some(old), Some(new)] = &trees else {
                    continue;
                };
                let named = all_between((one, old), (other, new));
                assert_eq!(named.is_empty(), old == new, "{ops:?} at {one} and {other}");
                let Some(first) = old.differences(new).next() else {
                    continue;
                };
                let rules: Vec<Rule> = [first.old, first.new]
                    .iter()
                    .filter_map(|node| node.rule())
                    .collect();
                assert_eq!(between(one, other, &rules), Some(named[0]), "{ops:?}");
                differing += 1;
            }
        }
        assert!(differing > 10, "{differing}");
    }
}

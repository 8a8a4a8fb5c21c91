//! The hosts' own names (card 7), numbers 256 to 1,023. The Rust has no such numbers: it is given 76
//! in their stead, under the same used set, and the nodes that it makes of them get their numbers
//! back. Which token a node was made of is known as in `closing`: the list is read again with each
//! token's number as its span.

#[cfg(molangx)]
use crate::words::Answer;
use crate::words::{Case, Record, RustNode, is_host};

/// What stands in a host's stead.
pub const STAND_IN: u16 = 76;

/// Whether a list has a host's number.
pub fn has_hosts(case: &Case) -> bool {
    case.tokens.iter().any(|token| is_host(token.op))
}

/// The case with 76 in the stead of each host; the used set stays as it is.
pub fn hostless(case: &Case) -> Case {
    let mut without = case.clone();
    for token in without.tokens.iter_mut().filter(|t| is_host(t.op)) {
        token.op = STAND_IN;
    }
    without
}

/// The nodes of the case without hosts with the hosts' numbers put back; `names` are the starts of
/// the nodes of the numbered case without hosts. No node was made of a 76 but itself, a leaf.
pub fn hosted(case: &Case, nodes: &[RustNode], names: &[u32]) -> Vec<RustNode> {
    assert_eq!(nodes.len(), names.len(), "another tree of {case:?}");
    let named = nodes.iter().zip(names).map(|(&node, &name)| {
        let mut node = node;
        if node.token.op == STAND_IN {
            assert_eq!(node.children, 0, "{case:?}");
            node.token.op = case.tokens[name as usize].op;
            assert!(node.token.op == STAND_IN || is_host(node.token.op));
        }
        node
    });
    named.collect()
}

/// The arguments of a message that are operators.
pub fn operators_in(record: &Record) -> &[u32] {
    match record[0] {
        4 => &record[4..7],
        5 => &record[3..5],
        6 => &record[4..6],
        7..=9 | 12 | 15..=17 => &record[3..4],
        _ => &[],
    }
}

/// What the Rust answers to a case, its hosts put in as 76. No message names an operand, so only
/// nodes have a host's number.
#[cfg(molangx)]
pub(crate) fn answered(rust: impl Fn(&Case) -> Answer, case: &Case) -> Answer {
    if !has_hosts(case) {
        return rust(case);
    }
    let without = hostless(case);
    match rust(&without) {
        Answer::Tree(nodes) => {
            let named = rust(&crate::closing::numbered(&without));
            let names: Vec<u32> = named.nodes().iter().map(|node| node.token.start).collect();
            Answer::Tree(hosted(case, &nodes, &names))
        }
        Answer::Messages(records) => {
            let mut operators = records.iter().flat_map(operators_in);
            assert!(
                operators.all(|&op| op != u32::from(STAND_IN)),
                "a message names a 76: {without:?}"
            );
            Answer::Messages(records)
        }
    }
}

#[cfg(test)]
mod tests {
    use super::*;
    use crate::lines::case_of;

    #[test]
    fn only_hosts_are_put_in_another_stead() {
        let case = case_of("a + 256 * 1023 - 76");
        let without = hostless(&case);
        let ops: Vec<u16> = without.tokens.iter().map(|token| token.op).collect();
        assert_eq!(ops, [61, 9, 76, 31, 76, 6, 76]);
        assert_eq!(without.used, case.used);
        assert!(has_hosts(&case) && !has_hosts(&without));
    }

    #[test]
    fn each_leaf_gets_the_number_of_its_own_token() {
        let case = case_of("300 + 76 + 301");
        let node = |place: usize, children| RustNode {
            token: hostless(&case).tokens[place],
            children,
        };
        let nodes = [node(1, 2), node(0, 0), node(3, 2), node(2, 0), node(4, 0)];
        let named = hosted(&case, &nodes, &[1, 0, 3, 2, 4]);
        let ops: Vec<u16> = named.iter().map(|node| node.token.op).collect();
        assert_eq!(ops, [9, 300, 9, 76, 301]);
    }

    #[cfg(molangx)]
    mod with_the_rust {
        use super::*;
        use crate::generate::hosts::Hosted;
        use crate::words::number_in;

        /// The numbers of the leaves in tree order are those of the list in its order.
        #[test]
        fn no_host_is_lost_made_or_moved() {
            let (mut trees, mut messages) = (0, 0);
            for case in Hosted::new(41, 20).take(60_000) {
                let answer = crate::answer_case(&case);
                if !answer.records().is_empty() {
                    messages += 1;
                    continue;
                }
                trees += 1;
                let hosts = |op: &u16| is_host(*op);
                let given = case.tokens.iter().map(|token| token.op).filter(hosts);
                let kept = answer.nodes().iter().map(|node| node.token.op);
                assert!(kept.filter(hosts).eq(given), "{case:?}");
            }
            assert!(trees > 10_000 && messages > 10_000, "{trees}, {messages}");
        }

        /// With the bit of 76 in the used set and without it a list reads alike, and so does one
        /// with any other operand that no pass looks for.
        #[test]
        fn what_stands_in_a_hosts_stead_is_looked_for_by_no_pass() {
            for case in Hosted::new(42, 16).take(20_000) {
                let answer = crate::answer_case(&case);
                let mut flipped = case.clone();
                flipped.used.1 ^= crate::words::bit(STAND_IN).1;
                assert_eq!(crate::answer_case(&flipped), answer, "{case:?}");
                let mut others = case.clone();
                for token in others.tokens.iter_mut().filter(|t| is_host(t.op)) {
                    token.op = 256 + (token.op - 255) % 768;
                }
                let other = crate::answer_case(&others);
                assert_eq!(other.records(), answer.records(), "{case:?}");
                let nodes = other.nodes().iter().zip(answer.nodes());
                for (other, node) in nodes {
                    let (other, node) = (other.token.words(), node.token.words());
                    assert_eq!(other[1..], node[1..], "{case:?}");
                    let (other, node) = (number_in(other[0]), number_in(node[0]));
                    assert!(other == node || is_host(other) && is_host(node));
                }
            }
        }
    }
}

//! Where each node of a tree closes: its seventh word (card 2), which the Rust does not have. It is
//! found from the source list alone. A stack of brackets says where each opener's section closes,
//! and the list read again with each token's number as its span says which token a node was made of:
//! the passes look at operators only, so that reading has the same nodes.

use crate::words::{Case, RustNode, Token, TreeNode, has};

/// Whether a token opens a section.
fn is_opener(op: u16) -> bool {
    matches!(op, 0 | 2 | 4)
}

/// Where the section of each token would close, given the used set; of anything else, its own end.
/// Which closer is met says nothing here: one that does not match leaves no tree.
pub fn closes(tokens: &[Token], used: (u64, u64)) -> Vec<u32> {
    let mut closes: Vec<u32> = tokens.iter().map(|token| token.end).collect();
    // The pass runs for all three kinds or not at all.
    if ![0, 2, 4].into_iter().any(|op| has(used, op)) {
        return closes;
    }
    let mut open = Vec::new();
    for (place, token) in tokens.iter().enumerate() {
        if is_opener(token.op) {
            open.push(place);
        } else if let (1 | 3 | 5, Some(opener)) = (token.op, open.last()) {
            closes[*opener] = token.end;
            open.pop();
        }
    }
    closes
}

/// The case with each token's number as the start and end of its span.
pub fn numbered(case: &Case) -> Case {
    let mut numbered = case.clone();
    for (number, token) in numbered.tokens.iter_mut().enumerate() {
        (token.start, token.end) = (number as u32, number as u32);
    }
    numbered
}

/// The nodes of a case's tree with where each closes; `names` are the starts of the nodes of the
/// numbered case's tree. A node that a pass made closes at its own end, whatever its token opens.
pub fn closed(case: &Case, nodes: &[RustNode], names: &[u32]) -> Vec<TreeNode> {
    assert_eq!(nodes.len(), names.len(), "another tree of {case:?}");
    let closes = closes(&case.tokens, case.used);
    let close = |node: &RustNode, name: u32| {
        let token = case.tokens[name as usize];
        let span = (node.token.start, node.token.end);
        assert_eq!(span, (token.start, token.end), "{case:?}");
        if is_opener(node.token.op) {
            closes[name as usize]
        } else {
            node.token.end
        }
    };
    let closed = nodes.iter().zip(names).map(|(node, &name)| TreeNode {
        token: node.token,
        children: node.children,
        close: close(node, name),
    });
    closed.collect()
}

/// The tree that the Rust makes of a case, with where each node closes; none where it has messages.
#[cfg(molangx)]
pub fn tree(case: &Case) -> Option<Vec<TreeNode>> {
    use crate::words::Answer;
    let Answer::Tree(nodes) = crate::answer_case(case) else {
        return None;
    };
    let named = crate::answer_case(&numbered(case));
    let names: Vec<u32> = named.nodes().iter().map(|node| node.token.start).collect();
    Some(closed(case, &nodes, &names))
}

#[cfg(test)]
mod tests {
    use super::*;
    use crate::lines::case_of;
    use crate::words::bit;

    /// The closes of a list in the notation, under its exact set.
    fn of(list: &str) -> Vec<u32> {
        let case = case_of(list);
        closes(&case.tokens, case.used)
    }

    #[test]
    fn a_section_closes_with_its_closer_and_anything_else_at_its_end() {
        assert_eq!(of("( a )"), [3, 2, 3]);
        assert_eq!(of("{ [ ( ) ] }"), [6, 5, 4, 4, 5, 6]);
        assert_eq!(of("( ) ( )"), [2, 2, 4, 4]);
        assert_eq!(of(") ( )"), [1, 3, 3], "a closer with nothing open");
    }

    #[test]
    fn the_pass_runs_for_all_three_kinds_or_for_none() {
        let tokens = case_of("{ ( a ) }").tokens;
        for op in [0, 2, 4] {
            assert_eq!(closes(&tokens, bit(op)), [5, 4, 3, 4, 5], "{op}");
        }
        for used in [(0, 0), bit(61), bit(1), bit(5)] {
            assert_eq!(closes(&tokens, used), [1, 2, 3, 4, 5]);
        }
    }

    #[cfg(molangx)]
    mod with_the_rust {
        use super::*;
        use crate::lines::notation;

        /// Operator, end and close of each node.
        fn shown(case: &Case) -> Vec<(u16, u32, u32)> {
            let nodes = tree(case).expect("a tree");
            let shown = nodes.iter();
            shown
                .map(|node| (node.token.op, node.token.end, node.close))
                .collect()
        }

        #[test]
        fn an_opener_that_was_never_closed_closes_at_its_own_end() {
            let mut case = case_of("36 (");
            case.used = bit(36);
            assert_eq!(shown(&case), [(36, 1, 1), (4, 2, 2)]);
            let mut sum = case_of("[ + ]");
            sum.used = bit(9);
            assert_eq!(shown(&sum), [(9, 2, 2), (2, 1, 1), (3, 3, 3)]);
        }

        #[test]
        fn a_statement_does_not_close_with_the_section_it_begins_with() {
            let nodes = shown(&case_of("( a ) + b ;"));
            assert_eq!(nodes[0], (73, 6, 6));
            assert_eq!(nodes[1], (73, 1, 1), "the span of the opener");
            assert_eq!(nodes[3], (4, 1, 3));
        }

        #[test]
        fn nodes_that_passes_make_close_at_their_own_end() {
            let minus = shown(&case_of("( a ) - b"));
            let wanted = [(9, 4, 4), (4, 1, 3), (61, 2, 2), (6, 4, 4), (61, 5, 5)];
            assert_eq!(minus, wanted);
            let array = shown(&case_of("41 [ a ]"));
            assert_eq!(array, [(63, 1, 1), (61, 3, 3)]);
        }

        #[test]
        fn equal_spans_are_told_apart_by_their_tokens() {
            let mut case = case_of("( ( a ) + [ b ] )");
            for token in &mut case.tokens {
                (token.start, token.end) = (7, 3);
            }
            case.tokens[3].end = 11;
            case.tokens[7].end = 12;
            case.tokens[8].end = 13;
            let nodes = tree(&case).expect("a tree");
            let closes: Vec<u32> = nodes.iter().map(|node| node.close).collect();
            assert_eq!(
                notation(crate::answer_case(&case).nodes()),
                "4(9(4(a),2(b)))"
            );
            assert_eq!(closes, [13, 3, 11, 3, 12, 3]);
        }

        #[test]
        fn each_node_of_a_numbered_reading_has_the_span_of_its_token() {
            let mut trees = 0;
            for case in crate::generate::Mixed::new(31, 24).take(60_000) {
                trees += usize::from(tree(&case).is_some());
            }
            assert!(trees > 10_000, "only {trees} trees");
        }
    }
}

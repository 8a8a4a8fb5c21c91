//! Document 01's section 'Lists and their trees', and what was found beside it.

use oracle::lines::{case_of, findings, lines, notation, tokens_of};
use oracle::words::RustNode;

#[cfg(molangx)]
mod with_the_rust {
    use super::*;
    use oracle::answer_case;
    use oracle::lines::Line;

    fn check(line: &Line, version: i16) {
        let answer = answer_case(&line.at_version(version));
        assert!(
            line.agrees(&answer),
            "{} at {version}: {:?} says otherwise than {:?} ({})",
            line.story,
            answer.records(),
            line.says,
            notation(answer.nodes()),
        );
    }

    #[test]
    fn every_line_of_document_01_is_the_rusts_answer() {
        for line in lines() {
            for version in line.versions.clone() {
                check(&line, version);
            }
        }
    }

    #[test]
    fn every_finding_is_the_rusts_answer() {
        for line in findings() {
            for version in line.versions.clone() {
                check(&line, version);
            }
        }
    }

    fn tree(list: &str) -> Vec<RustNode> {
        answer_case(&case_of(list)).nodes().to_vec()
    }

    #[test]
    fn a_binary_minus_gives_its_payload_to_the_plus_and_none_to_the_negation() {
        let mut case = case_of("a - b");
        (case.tokens[1].variant, case.tokens[1].value) = (5, 0xDEAD_BEEF);
        let answer = answer_case(&case);
        let nodes = answer.nodes();
        assert_eq!(notation(nodes), "9(a,6(b))");
        let (plus, negation) = (nodes[0].token, nodes[2].token);
        assert_eq!((plus.variant, plus.value), (5, 0xDEAD_BEEF));
        assert_eq!((negation.variant, negation.value), (0, 0));
        assert_eq!((plus.start, plus.end), (1, 2));
        assert_eq!((negation.start, negation.end), (1, 2));
    }

    #[test]
    fn of_two_minuses_the_left_one_survives_as_a_plus() {
        let plus = tree("a - - b")[0].token;
        assert_eq!((plus.op, plus.start, plus.end), (9, 1, 2));
    }

    #[test]
    fn statements_have_no_payload_and_an_array_keeps_its_names() {
        let mut case = case_of("41 [ a ] ;");
        (case.tokens[0].variant, case.tokens[0].value) = (7, 41);
        (case.tokens[4].variant, case.tokens[4].value) = (7, 73);
        let answer = answer_case(&case);
        let nodes = answer.nodes();
        assert_eq!(notation(nodes), "73(73(63(a)))");
        assert_eq!((nodes[0].token.variant, nodes[0].token.value), (0, 0));
        assert_eq!((nodes[1].token.variant, nodes[1].token.value), (0, 0));
        assert_eq!((nodes[2].token.variant, nodes[2].token.value), (7, 41));
        assert_eq!((nodes[0].token.start, nodes[1].token.start), (4, 0));
    }

    #[test]
    fn every_payload_comes_back_bit_for_bit() {
        let values = [
            0,
            1,
            0x7F80_0001,
            0x7FC0_0000,
            0xFFFF_FFFF,
            0x8000_0000,
            0xFF80_0001,
        ];
        for variant in 1..=12 {
            for value in values {
                let mut case = case_of("a");
                (case.tokens[0].variant, case.tokens[0].value) = (variant, value);
                let nodes = answer_case(&case).nodes().to_vec();
                assert_eq!(nodes.len(), 1, "one token is one tree");
                assert_eq!(nodes[0].token, case.tokens[0]);
            }
        }
    }

    #[test]
    fn the_math_calls_are_the_numbers_of_document_01() {
        for op in 0..=110 {
            let listed = matches!(op, 8 | 10..=19 | 21..=30 | 32..=39 | 78..=110);
            assert_eq!(oracle::is_math_call(op), listed, "operator {op}");
        }
    }

    #[test]
    fn the_effective_version_ends_at_minus_1_and_13() {
        for raw in i16::MIN..=i16::MAX {
            assert_eq!(oracle::effective_version(raw), raw.clamp(-1, 13));
        }
    }
}

#[test]
fn a_line_holds_at_the_version_it_names_and_is_kept_there() {
    for line in lines().iter().chain(&findings()) {
        let named = line.case.version;
        assert!(line.versions.contains(&named), "{}", line.story);
        assert!(line.kept_versions().any(|version| version == named));
    }
}

#[test]
fn lists_and_trees_are_written_as_document_01_writes_them() {
    let case = case_of("a ? ( 40 . ) : - b ;");
    let ops: Vec<u16> = case.tokens.iter().map(|token| token.op).collect();
    assert_eq!(ops, [61, 59, 4, 40, 45, 5, 60, 6, 61, 73]);
    let node = |sign: &str, children| RustNode {
        token: tokens_of(sign)[0],
        children,
    };
    let nodes = [
        node("+", 3),
        node("a", 0),
        node("-", 1),
        node("(", 0),
        node("b", 0),
    ];
    assert_eq!(notation(&nodes), "9(a,6(4),b)");
}

//! Which rule made a node (card 5): 0 for a leaf, else the number of the pass that first gave it
//! children. The Rust says it by its passes, in a copy in which they mark the nodes ([`marked`]). The
//! table [`of_node`] says it by the operator and the version, for where the Rust is not at hand; the
//! tests hold it to the marks.

#[cfg(molangx)]
use crate::hosts::hostless;
use crate::words::{Case, Token};

/// The greatest number of a rule.
pub const LAST_RULE: u8 = 20;

/// The rule of a node with this token and so many children, of a tree that was read at this raw
/// version; none where no pass gives such a token children.
pub fn of_node(token: &Token, children: u32, version: i16) -> Option<u8> {
    if children == 0 {
        return Some(0);
    }
    Some(match token.op {
        45 => 1,
        0 | 2 | 4 => 2,
        40 | 67 | 68 => 3,
        73 => 4,
        63 => 5,
        72 => 6,
        8 | 10..=19 | 21..=30 | 32..=39 | 78..=110 => 7,
        6 | 7 => 8,
        20 => 9,
        31 => 10,
        9 => 11,
        50..=53 => 12,
        54 | 55 if version < 6 => 12,
        54 | 55 => 13,
        57 => 14,
        56 => 15,
        59 | 60 => 16,
        58 => 17,
        75 => 18,
        71 => 19,
        74 => 20,
        _ => return None,
    })
}

/// The rules of the tree with these nodes, each a token and how many children it has, that a case is
/// read as: the marks where the Rust is at hand, else by the table. None where they are not the
/// nodes of such a tree.
pub fn of_tree<'n>(case: &Case, nodes: impl Iterator<Item = (&'n Token, u32)>) -> Option<Vec<u8>> {
    #[cfg(molangx)]
    {
        let marks = marked(case)?;
        (marks.len() == nodes.count()).then_some(marks)
    }
    #[cfg(not(molangx))]
    {
        let rules = nodes.map(|(token, children)| of_node(token, children, case.version));
        rules.collect()
    }
}

/// The rules of the tree that the Rust makes of a case, in tree order, as its passes mark the nodes;
/// none where it has messages. Hosts' own names are put in as 76 (`hosts`), a leaf as they are.
#[cfg(molangx)]
pub fn marked(case: &Case) -> Option<Vec<u8>> {
    Some(crate::marked::tree(&hostless(case))?.1)
}

#[cfg(test)]
mod tests {
    use super::*;
    use crate::lines::tokens_of;

    /// The rule of a sign that has children, at a version.
    fn rule(sign: &str, version: i16) -> Option<u8> {
        of_node(&tokens_of(sign)[0], 1, version)
    }

    #[test]
    fn the_rules_of_signs() {
        let signs = [
            (".", 1),
            ("{", 2),
            ("[", 2),
            ("(", 2),
            ("40", 3),
            (";", 4),
            ("63", 5),
            ("->", 6),
            ("36", 7),
            ("109", 7),
            ("-", 8),
            ("!", 8),
            ("/", 9),
            ("*", 10),
            ("+", 11),
            ("<", 12),
            (">=", 12),
            ("&&", 14),
            ("||", 15),
            ("?", 16),
            (":", 16),
            ("??", 17),
            (",", 18),
            ("=", 19),
            ("return", 20),
        ];
        for (sign, number) in signs {
            for version in [i16::MIN, -1, 0, 4, 5, 6, 13, i16::MAX] {
                assert_eq!(rule(sign, version), Some(number), "{sign} at {version}");
            }
        }
    }

    #[test]
    fn equality_is_a_rule_of_its_own_from_version_6_on() {
        for sign in ["==", "!="] {
            for version in [i16::MIN, -1, 0, 5] {
                assert_eq!(rule(sign, version), Some(12), "{sign} at {version}");
            }
            for version in [6, 7, 13, 14, i16::MAX] {
                assert_eq!(rule(sign, version), Some(13), "{sign} at {version}");
            }
        }
    }

    #[test]
    fn what_has_no_children_is_a_leaf_and_operands_never_have_any() {
        for sign in ["a", "(", "36", "+", "41", ";", "62"] {
            assert_eq!(of_node(&tokens_of(sign)[0], 0, 6), Some(0), "{sign}");
        }
        let childless = [
            "a", "62", "41", "43", "69", "76", "77", "}", "]", ")", "256", "260", "1023",
        ];
        for sign in childless {
            assert_eq!(rule(sign, 6), None, "{sign}");
        }
    }

    #[cfg(molangx)]
    mod with_the_rust {
        use super::*;
        use crate::generate::alphabets::ALPHABETS;
        use crate::generate::hosts::Hosted;
        use crate::generate::shapes::SHAPES;
        use crate::generate::{Mixed, brackets, dress};
        use crate::lines::{case_of, findings, lines};
        use crate::words::{Answer, FULL_SET, bit};

        /// The rules of a list in the notation at a version.
        fn rules(list: &str, version: i16) -> Vec<u8> {
            let case = Case {
                version,
                ..case_of(list)
            };
            marked(&case).expect("a tree")
        }

        /// Holds the marked copy to the Rust as it stands, and the table to the marks; how many
        /// nodes have each rule.
        fn compared(cases: impl Iterator<Item = Case>) -> [usize; LAST_RULE as usize + 1] {
            let mut counts = [0; LAST_RULE as usize + 1];
            for case in cases {
                let without = hostless(&case);
                let tree = crate::marked::tree(&without);
                let Answer::Tree(nodes) = crate::answer_case(&case) else {
                    assert_eq!(tree, None, "{case:?}");
                    continue;
                };
                let (same, marks) = tree.expect("the same tree");
                let unmarked = crate::answer_case(&without);
                assert_eq!(same, unmarked.nodes(), "the marks changed {case:?}");
                for (node, mark) in nodes.iter().zip(&marks) {
                    let rule = of_node(&node.token, node.children, case.version);
                    assert_eq!(rule, Some(*mark), "{node:?} of {case:?}");
                    counts[usize::from(*mark)] += 1;
                }
            }
            counts
        }

        #[test]
        fn each_pass_marks_what_it_gave_children() {
            // 9(a,6(b)): the minus and its operand are the unary pass's, the sum is the sum's.
            assert_eq!(rules("a - b", 6), [11, 0, 8, 0]);
            // 36(4), with nothing in the bracket.
            assert_eq!(rules("36 ( )", 6), [7, 0]);
            assert_eq!(rules("36 ( a )", 6), [7, 2, 0]);
            // 73(73(71(43,a)),73(74(43)))
            let script = "43 = a ; return 43 ;";
            assert_eq!(rules(script, 6), [4, 4, 19, 0, 0, 4, 20, 0]);
            // 63(b): the bracket's own node is gone.
            assert_eq!(rules("41 [ b ]", 6), [5, 0]);
            assert_eq!(rules("43 . -> 43", 6), [6, 1, 0, 0]);
            assert_eq!(rules("40 ( a , b )", 6), [3, 2, 18, 0, 0]);
        }

        #[test]
        fn versions_mark_by_their_own_passes() {
            let mixed = "a < b == c && d || e";
            assert_eq!(rules(mixed, 5), [14, 12, 12, 0, 0, 0, 15, 0, 0]);
            assert_eq!(rules(mixed, 6), [15, 14, 13, 12, 0, 0, 0, 0, 0]);
            let ladder = "a ? b : c ? d : e";
            assert_eq!(rules(ladder, 4), [16, 16, 0, 16, 0, 0, 16, 0, 0]);
            assert_eq!(rules(ladder, 5), [16, 0, 16, 0, 16, 0, 16, 0, 0]);
        }

        #[test]
        fn a_pass_that_does_not_run_marks_nothing() {
            let mut case = case_of("36 (");
            case.used = bit(36);
            assert_eq!(marked(&case), Some(vec![7, 0]));
            let mut sum = case_of("[ + ]");
            sum.used = bit(9);
            assert_eq!(marked(&sum), Some(vec![11, 0, 0]));
            assert_eq!(marked(&case_of("a b")), None);
        }

        #[test]
        fn the_table_is_what_the_passes_mark() {
            let counts = compared(Mixed::new(51, 24).take(300_000));
            assert!(counts.iter().all(|&count| count > 100), "{counts:?}");
            let long = compared(Mixed::new(52, 600).take(3_000));
            assert!(long[0] > 10_000, "{long:?}");
            let mut rng = crate::generate::Rng::new(53);
            let lists = std::iter::from_fn(|| Some(brackets::case(&mut rng, 24)));
            let sections = compared(lists.take(60_000));
            assert!(sections[2] > 20_000, "{sections:?}");
            let hosted = compared(Hosted::new(54, 24).take(60_000));
            assert!(hosted[0] > 10_000, "{hosted:?}");
        }

        #[test]
        fn the_table_is_what_the_passes_mark_of_short_lists_and_shapes() {
            let lists = ALPHABETS.iter().flat_map(|alphabet| alphabet.every_list(4));
            let cases = lists
                .flat_map(|ops| [4, 5, 6].map(|version| Case::exact(dress::plain(&ops), version)));
            compared(cases);
            let shapes = SHAPES.iter().flat_map(|shape| {
                let tokens = dress::plain(&shape.ops(1_000));
                let cases = [4, 5, 6].map(|version| Case::exact(tokens.clone(), version));
                let full = cases.clone().map(|case| Case {
                    used: FULL_SET,
                    ..case
                });
                cases.into_iter().chain(full)
            });
            compared(shapes);
        }

        #[test]
        fn the_table_is_what_the_passes_mark_at_every_version() {
            let lists = [
                "a < b == c != d >= e",
                "a == b && c || d",
                "a ? b : c ? d : e",
            ];
            for list in lists {
                let case = case_of(list);
                compared((i16::MIN..=i16::MAX).map(|version| Case {
                    version,
                    ..case.clone()
                }));
            }
            for line in lines().into_iter().chain(findings()) {
                compared(
                    [-1, 0, 4, 5, 6, 13, 14]
                        .map(|version| line.at_version(version))
                        .into_iter(),
                );
            }
        }
    }
}

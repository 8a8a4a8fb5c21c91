//! The write entry: the model by itself over document 01's lines, then the library beside it.

use compare::plain_trees::{self, bare, every_tree};
use compare::writer_model::{self, Tree, Written};
use oracle::generate::{Mixed, Rng};
use oracle::words::{Case, NODE_WORDS, Token, TreeNode, decode_list, exact_set, tree_words, word};

fn float(place: u32) -> TreeNode {
    node(61, 0, place)
}

fn node(op: u16, children: u32, start: u32) -> TreeNode {
    let mut node = bare(op, children);
    node.token.start = start;
    node.token.end = start + 1;
    node.close = start + 1;
    node
}

/// Operator and start of each token of a plain tree.
fn written(nodes: &[TreeNode]) -> Vec<(u16, u32)> {
    let list = Tree::of(nodes).written();
    list.iter().map(|token| (token.op, token.start)).collect()
}

fn refusal(words: &[u32]) -> Written {
    writer_model::write(words, usize::MAX).0
}

/// Operator, start and end of each token of a plain tree.
fn spans(nodes: &[TreeNode]) -> Vec<(u16, u32, u32)> {
    let list = Tree::of(nodes).written();
    let spans = list.iter();
    spans
        .map(|token| (token.op, token.start, token.end))
        .collect()
}

#[test]
fn a_product_under_a_sum_gets_a_pair_that_covers_the_product() {
    let nodes = [node(9, 2, 1), float(0), node(31, 2, 3), float(2), float(4)];
    let list = [(61, 0), (9, 1), (4, 2), (61, 2), (31, 3), (61, 4), (5, 5)];
    assert_eq!(written(&nodes), list);
    let found = spans(&nodes);
    assert_eq!((found[2], found[6]), ((4, 2, 5), (5, 5, 5)));
}

#[test]
fn the_smallest_operand_that_is_wider_than_its_operator() {
    // ! ! a, of which docs/DIFFERENCES.md speaks.
    let found = spans(&[node(7, 1, 0), node(7, 1, 1), float(2)]);
    let list = [(7, 0, 1), (4, 1, 3), (7, 1, 2), (61, 2, 3), (5, 3, 3)];
    assert_eq!(found, list);
}

#[test]
fn a_pair_takes_in_the_pairs_below_it_and_nothing_beside_it() {
    // (!((a + b) * c)) > d, of the list ! a + b * c > d.
    let nodes = [
        node(53, 2, 6),
        node(7, 1, 0),
        node(31, 2, 4),
        node(9, 2, 2),
        float(1),
        float(3),
        float(5),
        float(7),
    ];
    let found = spans(&nodes);
    let openers = [found[0], found[2], found[3]];
    assert_eq!(openers, [(4, 0, 6), (4, 1, 6), (4, 1, 4)]);
    let closers = [found[7], found[10], found[11]];
    assert_eq!(closers, [(5, 4, 4), (5, 6, 6), (5, 6, 6)]);
}

#[test]
fn an_added_pair_covers_all_below_it_wherever_it_stands() {
    // The lowest start and the highest end stand in the inner pair's leaves, a start above its end among them.
    let mut nodes = [
        node(6, 1, 50),
        node(9, 2, 40),
        float(30),
        node(31, 2, 35),
        float(20),
        float(33),
    ];
    (nodes[4].token.start, nodes[4].token.end) = (90, 7);
    (nodes[5].token.start, nodes[5].token.end) = (12, 60);
    let found = spans(&nodes);
    assert_eq!((found[1], found[9]), ((4, 12, 60), (5, 60, 60)));
    assert_eq!((found[4], found[8]), ((4, 12, 60), (5, 60, 60)));
    // What stands beside an operand is none of its extent: the pair of the product begins where the product does.
    let nodes = [node(9, 2, 1), float(0), node(31, 2, 8), float(7), float(9)];
    assert_eq!(spans(&nodes)[2], (4, 7, 10));
}

#[test]
fn a_comma_left_of_a_comma_and_a_colon_right_of_its_question_stand_alone() {
    let commas = [node(75, 2, 3), node(75, 2, 1), float(0), float(2), float(4)];
    let list = [(61, 0), (75, 1), (61, 2), (75, 3), (61, 4)];
    assert_eq!(written(&commas), list);
    let conditional = [node(59, 2, 1), float(0), node(60, 2, 3), float(2), float(4)];
    let list = [(61, 0), (59, 1), (61, 2), (60, 3), (61, 4)];
    assert_eq!(written(&conditional), list);
    let right = [node(75, 2, 1), float(0), node(75, 2, 3), float(2), float(4)];
    assert_eq!(
        written(&right).len(),
        7,
        "a comma right of a comma is paired"
    );
}

/// A bracket of this span and payload that closes at 40, over the product of `b` and `c`, right of a sum's `a`.
fn bracketed_product() -> [TreeNode; 6] {
    let mut bracket = node(4, 1, 2);
    (bracket.token.variant, bracket.token.value) = (12, 0xFFFE_0001);
    bracket.close = 40;
    let (sum, product) = (node(9, 2, 1), node(31, 2, 4));
    [sum, float(0), bracket, product, float(3), float(5)]
}

#[test]
fn the_closer_of_a_section_starts_and_ends_where_the_section_closes() {
    let nodes = bracketed_product();
    let list = Tree::of(&nodes).written();
    let closer = Token {
        op: 5,
        variant: 0,
        value: 0,
        start: 40,
        end: 40,
    };
    assert_eq!((list[2], list[6]), (nodes[2].token, closer));
}

#[test]
fn where_a_node_closes_does_not_count_in_an_extent() {
    let mut nodes = [
        node(6, 1, 0),
        node(31, 2, 2),
        node(4, 1, 1),
        float(2),
        float(3),
    ];
    for close in [0, 99] {
        (nodes[1].close, nodes[2].close, nodes[3].close) = (close, close, close);
        let found = spans(&nodes);
        assert_eq!((found[1], found[7]), ((4, 1, 4), (5, 4, 4)));
        assert_eq!(found[4], (5, close, close), "the section's own closer");
    }
}

#[test]
fn a_bracket_that_stays_keeps_where_it_closes_and_one_taken_away_loses_it() {
    let nodes = bracketed_product();
    let away = Tree::of(&nodes).taken_away();
    assert_eq!(away, [&nodes[..2], &nodes[3..]].concat());
    let mut call = nodes.to_vec();
    call[0] = node(40, 1, 1);
    call.remove(1);
    assert_eq!(Tree::of(&call).taken_away(), call);
}

#[test]
fn a_lone_colon_is_not_plain() {
    let nodes = [bare(60, 2), bare(61, 0), bare(61, 0)];
    assert_eq!(refusal(&tree_words(&nodes)), Written::Refused(13, 0));
}

/// The answer to a tree of operators and child counts, all of payload 0 and span 0 to 0.
fn answer(nodes: &[(u16, u32)]) -> Written {
    let nodes: Vec<TreeNode> = nodes.iter().map(|&(op, below)| bare(op, below)).collect();
    refusal(&tree_words(&nodes))
}

#[test]
fn answer_13_blames_a_semicolon_only_where_its_child_could_not_be() {
    let places: [(&[(u16, u32)], usize); 17] = [
        // 73(a), 73(73(41),a), 73
        (&[(73, 1), (61, 0)], 0),
        (&[(73, 2), (73, 1), (41, 0), (61, 0)], 0),
        (&[(73, 0)], 0),
        // 73(73(73(a))), 73(73(a,b)), 73(73), 73(73(a),73)
        (&[(73, 1), (73, 1), (73, 1), (61, 0)], 1),
        (&[(73, 1), (73, 2), (61, 0), (61, 0)], 1),
        (&[(73, 1), (73, 0)], 1),
        (&[(73, 2), (73, 1), (61, 0), (73, 0)], 3),
        // 73(73(41)), 73(73(69)) of `break ;`, 73(73(60(a,b)))
        (&[(73, 1), (73, 1), (41, 0)], 2),
        (&[(73, 1), (73, 1), (69, 0)], 2),
        (&[(73, 1), (73, 1), (60, 2), (61, 0), (61, 0)], 2),
        // 73(73(71(a))), 73(73(74(a,b))), 73(73(74))
        (&[(73, 1), (73, 1), (71, 1), (61, 0)], 2),
        (&[(73, 1), (73, 1), (74, 2), (61, 0), (61, 0)], 2),
        (&[(73, 1), (73, 1), (74, 0)], 2),
        // 73(73(4(71(a,b)))), 73(73(74(74(a)))), 4(73(73(a)))
        (&[(73, 1), (73, 1), (4, 1), (71, 2), (61, 0), (61, 0)], 3),
        (&[(73, 1), (73, 1), (74, 1), (74, 1), (61, 0)], 3),
        (&[(4, 1), (73, 1), (73, 1), (61, 0)], 1),
        // 71(a,b)
        (&[(71, 2), (61, 0), (61, 0)], 0),
    ];
    for (nodes, place) in places {
        assert_eq!(answer(nodes), Written::Refused(13, place), "{nodes:?}");
    }
    // 73(73(71(a,71(b,c))))
    let chain = [
        (73, 1),
        (73, 1),
        (71, 2),
        (61, 0),
        (71, 2),
        (61, 0),
        (61, 0),
    ];
    assert_eq!(answer(&chain), Written::Refused(13, 4));
    assert_eq!(answer(&[(74, 1), (61, 0)]), Written::Refused(13, 0));
}

#[test]
fn each_statement_is_written_with_a_semicolon_of_its_childs_span() {
    // v = a ? b : c ; return - x ; ( y ) ;
    let mut nodes = [
        node(73, 3, 1),
        node(73, 1, 0),
        node(71, 2, 1),
        float(0),
        node(59, 2, 3),
        float(2),
        node(60, 2, 5),
        float(4),
        float(6),
        node(73, 1, 8),
        node(74, 1, 8),
        node(6, 1, 9),
        float(10),
        node(73, 1, 12),
        node(4, 1, 12),
        float(13),
    ];
    nodes[14].close = 15;
    for node in &mut nodes {
        (node.token.variant, node.token.value) = (3, 7);
    }
    let list = [
        (61, 0, 1),
        (71, 1, 2),
        (4, 2, 7),
        (61, 2, 3),
        (59, 3, 4),
        (61, 4, 5),
        (60, 5, 6),
        (61, 6, 7),
        (5, 7, 7),
        (73, 1, 2),
        (74, 8, 9),
        (4, 9, 11),
        (6, 9, 10),
        (61, 10, 11),
        (5, 11, 11),
        (73, 8, 9),
        (4, 12, 13),
        (61, 13, 14),
        (5, 15, 15),
        (73, 12, 13),
    ];
    assert_eq!(spans(&nodes), list);
    let written = Tree::of(&nodes).written();
    let made = written.iter().filter(|token| token.variant == 0);
    let made: Vec<u16> = made.map(|token| token.op).collect();
    assert_eq!(made, [4, 5, 73, 4, 5, 73, 5, 73], "these have payload 0");
}

#[test]
fn semicolons_are_compared_by_their_operators_under_a_semicolon_alone() {
    let (statement, leaf) = (node(73, 1, 5), float(3));
    let script = [node(73, 1, 4), statement, leaf];
    let blank = |children| bare(73, children);
    let compared = Tree::of(&script).compared();
    assert_eq!(compared, [blank(1), blank(1), leaf]);
    // Not of a block, nor of a lone statement in a call's bracket.
    for root in [0, 36] {
        let other = [node(root, 1, 4), statement, leaf];
        assert_eq!(Tree::of(&other).compared(), other);
    }
}

/// Leaves, brackets, `?`, `:`, what a statement holds, semicolons and what is never plain.
const OF_SCRIPTS: [u16; 8] = [61, 4, 59, 60, 71, 73, 74, 41];

#[test]
fn small_trees_are_judged_alike_from_the_root_down_and_a_node_at_a_time() {
    let (mut plain, mut scripts) = (0, 0);
    every_tree(&OF_SCRIPTS, 5, |nodes| {
        let bares: Vec<TreeNode> = nodes.iter().map(|&(op, below)| bare(op, below)).collect();
        let tree = Tree::of(&bares);
        assert_eq!(tree.unplain(), tree.unplain_by_the_sentence(), "{nodes:?}");
        if tree.unplain().is_none() {
            plain += 1;
            scripts += usize::from(nodes[0].0 == 73);
        }
    });
    assert!(
        plain > 20 && scripts > 5,
        "{plain} plain, {scripts} scripts"
    );
}

#[test]
fn a_host_is_plain_as_a_leaf_only() {
    for host in [256, 262, 296, 1_023] {
        assert_eq!(answer(&[(host, 0)]), Written::Tokens(1));
        let sum = [(9, 2), (host, 0), (31, 2), (host, 0), (61, 0)];
        assert_eq!(answer(&sum), Written::Tokens(7));
        let statement = [(73, 1), (73, 1), (71, 2), (host, 0), (host, 0)];
        assert_eq!(answer(&statement), Written::Tokens(4));
        // Its lower eight bits make it no minus and no query.
        assert_eq!(answer(&[(host, 1), (61, 0)]), Written::Refused(13, 0));
        let call = [(7, 1), (host, 1), (4, 1), (61, 0)];
        assert_eq!(answer(&call), Written::Refused(13, 1));
        let over_two = [(host, 2), (61, 0), (61, 0)];
        assert_eq!(answer(&over_two), Written::Refused(13, 0));
        // An empty bracket is none that it calls with.
        assert_eq!(answer(&[(host, 1), (4, 0)]), Written::Refused(13, 0));
    }
}

#[test]
fn an_empty_bracket_is_plain_under_a_math_call_only() {
    let calls = |op| tree_words(&[bare(op, 1), bare(4, 0)]);
    assert_eq!(refusal(&calls(36)), Written::Tokens(3));
    assert_eq!(refusal(&calls(40)), Written::Refused(13, 1));
}

#[test]
fn words_that_are_not_one_tree_fail_where_no_tree_goes_on() {
    let sum = tree_words(&[bare(9, 2), bare(61, 0), bare(61, 0)]);
    assert_eq!(refusal(&[]), Written::Refused(12, 0));
    for cut in 1..sum.len() {
        assert_eq!(refusal(&sum[..cut]), Written::Refused(12, cut));
    }
    let longer = [&sum[..], &[0]].concat();
    assert_eq!(
        refusal(&longer),
        Written::Refused(12, 21),
        "a word after the tree"
    );
    let damaged = |place: usize, to: u32| {
        let mut words = sum.clone();
        words[place] = to;
        refusal(&words)
    };
    let edges = [
        (7, word(1, 111), "an operator above 110"),
        (7, word(1, 255), "a number below the hosts"),
        (7, word(1, 4 << 12), "a number above the hosts"),
        (7, word(1, 13 << 8 | 61), "a variant above 12"),
        (7, word(1, 1 << 16 | 61), "another bit"),
        (8, word(3, 0), "a wrong kind"),
        (10, word(4, 1), "an upper half under variant 0"),
        (11, word(5, 1), "a lower half under variant 0"),
        (12, word(6, 1 << 14), "a count of more than fourteen bits"),
        (12, word(6, 12_286), "a count that calls for 12,289 nodes"),
        (13, word(6, 0), "a seventh word of kind 6"),
        (13, word(1, 61), "the next node after six words"),
    ];
    for (place, to, edge) in edges {
        assert_eq!(damaged(place, to), Written::Refused(12, place), "{edge}");
    }
    assert_eq!(
        damaged(12, word(6, 12_285)),
        Written::Refused(12, 21),
        "12,288 nodes may come"
    );
}

/// As many tree words as a list of n tokens asks room for, some fewer, and some more.
#[test]
fn trees_of_three_nodes_a_token_at_each_number_of_words() {
    for tokens in [1, 2, 3, 100, 682] {
        let words = tree_words(&plain_trees::nested_brackets(3 * tokens - 1));
        assert_eq!(words.len(), 21 * tokens);
        for len in [18 * tokens, 20 * tokens, 21 * tokens - 1] {
            assert_eq!(refusal(&words[..len]), Written::Refused(12, len));
        }
        assert_eq!(refusal(&words), Written::Tokens(6 * tokens - 1));
        let longer = [&words[..], &[word(1, 61)]].concat();
        assert_eq!(refusal(&longer), Written::Refused(12, 21 * tokens));
    }
    let most = tree_words(&plain_trees::nested_brackets(12_287));
    let longer = [&most[..], &[word(1, 61)]].concat();
    assert_eq!(refusal(&longer), Written::Refused(12, 86_016));
}

#[test]
fn a_seventh_word_is_looked_at_for_its_kind_alone() {
    let words = tree_words(&bracketed_product());
    let sound = Written::Tokens(7);
    for place in (6..words.len()).step_by(NODE_WORDS) {
        for bit in 0..32 {
            let mut flipped = words.clone();
            flipped[place] ^= 1 << bit;
            let fault = Written::Refused(12, place);
            let wanted = if bit < 29 { sound } else { fault };
            assert_eq!(refusal(&flipped), wanted, "bit {bit} of word {place}");
        }
    }
}

#[test]
fn the_limits_of_nodes_and_tokens() {
    let deep = |levels| tree_words(&plain_trees::nested_brackets(levels));
    assert_eq!(refusal(&deep(2_047)), Written::Tokens(4_095));
    assert_eq!(refusal(&deep(2_048)), Written::Refused(14, 0));
    assert_eq!(refusal(&deep(12_287)), Written::Refused(14, 0));
    // The last bracket's count is one node too many.
    assert_eq!(refusal(&deep(12_288)), Written::Refused(12, 7 * 12_287 + 5));
    let not = [vec![bare(7, 1)], plain_trees::nested_brackets(2_047)].concat();
    assert_eq!(refusal(&tree_words(&not)), Written::Tokens(4_096));
    let commas = tree_words(&plain_trees::comma_list(2_048));
    assert_eq!(refusal(&commas), Written::Tokens(4_095));
    let statements = |count| tree_words(&plain_trees::short_statements(count));
    assert_eq!(refusal(&statements(1_000)), Written::Tokens(2_000));
    assert_eq!(refusal(&statements(2_048)), Written::Tokens(4_096));
    assert_eq!(refusal(&statements(2_049)), Written::Refused(14, 0));
    assert_eq!(refusal(&statements(6_143)), Written::Refused(14, 0));
    // The last statement's leaf is one node too many.
    let place = 7 * 12_287 + 5;
    assert_eq!(refusal(&statements(6_144)), Written::Refused(12, place));
    assert_eq!(refusal(&odd_script()), Written::Refused(14, 0));
}

/// 2,047 statements of a leaf and one of `! a`: 4,097 tokens.
fn odd_script() -> Vec<u32> {
    let mut nodes = plain_trees::short_statements(2_047);
    nodes[0].children += 1;
    nodes.extend([bare(73, 1), bare(7, 1), bare(61, 0)]);
    tree_words(&nodes)
}

/// Reads a list at a version, if the Rust source is at hand.
fn read_again(list: &[u32], version: i16) -> Option<Vec<TreeNode>> {
    let tokens = decode_list(list).expect("written words are legal");
    let case = Case {
        used: exact_set(&tokens),
        source_len: 7,
        version,
        tokens,
    };
    let tree = tree_if_at_hand(&case)?;
    Some(tree.unwrap_or_else(|| panic!("messages at {version} to {:?}", case.tokens)))
}

/// The tree of a case, none where it has messages, if the Rust source is at hand.
fn tree_if_at_hand(case: &Case) -> Option<Option<Vec<TreeNode>>> {
    #[cfg(rust_source)]
    return Some(oracle::closing::tree(case));
    #[cfg(not(rust_source))]
    {
        let _ = case;
        None
    }
}

/// The written list of a plain tree reads as the tree, brackets taken away and semicolons compared by their operators, at
/// four versions, and what was read is written as the same list: lifting twice is lifting once.
fn reads_as_written(rng: &mut Rng, nodes: &[TreeNode], list: &[u32]) {
    let compared = Tree::of(nodes).compared();
    for version in [4, 5, 6, rng.below(20) as i16 - 3] {
        if let Some(again) = read_again(list, version) {
            let again_compared = Tree::of(&again).compared();
            assert_eq!(again_compared, compared, "at version {version}");
            let (_, twice) = writer_model::write(&tree_words(&again), usize::MAX);
            assert_eq!(twice, list, "at version {version}");
        }
    }
}

#[test]
#[cfg_attr(not(rust_source), ignore = "the Rust source is not at hand")]
fn a_written_tree_reads_as_it_was() {
    let mut rng = Rng::new(11);
    for round in 0..20_000 {
        let size = 1 + rng.below(if round % 50 == 0 { 900 } else { 24 });
        let nodes = plain_trees::any(&mut rng, size);
        let (answer, list) = writer_model::write(&tree_words(&nodes), usize::MAX);
        if let Written::Tokens(_) = answer {
            reads_as_written(&mut rng, &nodes, &list);
        } else {
            assert_eq!(answer, Written::Refused(14, 0));
        }
    }
}

#[test]
#[cfg_attr(not(rust_source), ignore = "the Rust source is not at hand")]
fn a_tree_that_was_read_and_is_plain_reads_as_it_was() {
    let mut rng = Rng::new(12);
    let mut plain = 0;
    for case in Mixed::new(12, 24).take(60_000) {
        let Some(Some(nodes)) = tree_if_at_hand(&case) else {
            continue;
        };
        let (answer, list) = writer_model::write(&tree_words(&nodes), usize::MAX);
        if let Written::Tokens(_) = answer {
            plain += 1;
            reads_as_written(&mut rng, &nodes, &list);
        }
    }
    assert!(plain > 4_000, "only {plain} plain trees");
}

#[test]
#[cfg_attr(not(rust_source), ignore = "the Rust source is not at hand")]
fn an_opener_that_was_never_closed_is_written_with_a_closer_at_its_own_end() {
    let mut case = Case::exact(oracle::lines::tokens_of("36 ("), 6);
    case.used = oracle::words::bit(36);
    let Some(Some(nodes)) = tree_if_at_hand(&case) else {
        panic!("36(4)");
    };
    assert_eq!(nodes, [node(36, 1, 0), node(4, 0, 1)]);
    let (answer, list) = writer_model::write(&tree_words(&nodes), usize::MAX);
    assert_eq!(answer, Written::Tokens(3));
    assert_eq!(list[11..13], [word(2, 2), word(3, 2)]);
    for version in [4, 5, 6] {
        assert_eq!(read_again(&list, version), Some(nodes.clone()));
    }
}

#[test]
#[cfg_attr(not(rust_source), ignore = "the Rust source is not at hand")]
fn a_statement_that_begins_with_an_added_bracket_has_another_span_than_before() {
    let case = Case::exact(oracle::generate::dress::plain(&[7, 61, 71, 61, 73]), 6);
    let Some(Some(nodes)) = tree_if_at_hand(&case) else {
        panic!("73(73(71(7(a),b)))");
    };
    let (answer, list) = writer_model::write(&tree_words(&nodes), usize::MAX);
    assert_eq!(answer, Written::Tokens(7));
    let again = read_again(&list, 4).expect("the source is at hand");
    let span = |nodes: &[TreeNode]| (nodes[1].token.start, nodes[1].token.end);
    assert_eq!((span(&nodes), span(&again)), ((0, 1), (0, 2)));
    assert_eq!(Tree::of(&again).compared(), Tree::of(&nodes).compared());
}

#[cfg(library)]
mod library {
    use super::*;
    use compare::{library, writing};

    /// The library answers as the model does, and fills a list of so many words as that says.
    fn agrees_in(rng: &mut Rng, words: &[u32], room: usize) -> Written {
        match writing::write(rng, words, room) {
            Ok((answer, _)) => answer,
            Err(difference) => panic!("room {room}: {difference}"),
        }
    }

    /// The same in a list with room for all words, for one less, for more, or for any number.
    fn agrees(rng: &mut Rng, words: &[u32]) -> Written {
        let (_, full) = writer_model::write(words, usize::MAX);
        let room = match rng.below(4) {
            0 => full.len(),
            1 => full.len().saturating_sub(1),
            2 => full.len() + rng.below(9),
            _ => rng.below(full.len() + 1),
        };
        agrees_in(rng, words, room)
    }

    #[test]
    fn every_refusal_at_its_limits() {
        let mut rng = Rng::new(26);
        let not = |levels| [vec![bare(7, 1)], plain_trees::nested_brackets(levels)].concat();
        // 14: 4,096 tokens are written, 4,097 are not; 15: the room for them, one word less, none.
        let longest = tree_words(&not(2_047));
        let longer = tree_words(&plain_trees::nested_brackets(2_048));
        for (room, answer) in [
            (20_480, Written::Tokens(4_096)),
            (20_481, Written::Tokens(4_096)),
            (20_479, Written::Refused(15, 0)),
            (0, Written::Refused(15, 0)),
        ] {
            assert_eq!(agrees_in(&mut rng, &longest, room), answer);
            assert_eq!(agrees_in(&mut rng, &longer, room), Written::Refused(14, 0));
        }
        let script = tree_words(&plain_trees::short_statements(2_048));
        for (room, answer) in [
            (20_480, Written::Tokens(4_096)),
            (20_479, Written::Refused(15, 0)),
            (0, Written::Refused(15, 0)),
        ] {
            assert_eq!(agrees_in(&mut rng, &script, room), answer);
            let longer = agrees_in(&mut rng, &odd_script(), room);
            assert_eq!(longer, Written::Refused(14, 0));
        }
        let leaf = tree_words(&[bare(61, 0)]);
        for (room, answer) in [
            (5, Written::Tokens(1)),
            (4, Written::Refused(15, 0)),
            (0, Written::Refused(15, 0)),
        ] {
            assert_eq!(agrees_in(&mut rng, &leaf, room), answer);
        }
        // 13: the first, the last and any node between is the one that is not plain.
        let plain = not(40);
        for place in 0..plain.len() {
            let mut nodes = plain.clone();
            nodes[place].token.op = 63;
            let answer = agrees_in(&mut rng, &tree_words(&nodes), 1_000);
            assert_eq!(answer, Written::Refused(13, place));
        }
        // 12: no words, one word less, one word more.
        assert_eq!(agrees_in(&mut rng, &[], 9), Written::Refused(12, 0));
        let (less, more) = (&longest[..longest.len() - 1], [&longest[..], &[0]].concat());
        let cut = Written::Refused(12, less.len());
        assert_eq!(agrees_in(&mut rng, less, 20_480), cut);
        let grown = Written::Refused(12, longest.len());
        assert_eq!(agrees_in(&mut rng, &more, 20_480), grown);
    }

    #[test]
    fn each_bit_of_each_word_of_a_tree() {
        let mut rng = Rng::new(27);
        let nodes = plain_trees::plain(&mut rng, 12);
        let deep = plain_trees::nested_brackets(12_287);
        for (nodes, first) in [(&nodes, 0), (&deep, deep.len() - 2)] {
            let words = tree_words(nodes);
            let last = (words.len() - NODE_WORDS..words.len()).chain(0..NODE_WORDS);
            let places = (NODE_WORDS * first..words.len()).chain(last);
            for place in places {
                for bit in 0..32 {
                    let mut damaged = words.clone();
                    damaged[place] ^= 1 << bit;
                    agrees_in(&mut rng, &damaged, 300);
                }
            }
        }
    }

    #[test]
    fn each_bit_of_each_seventh_word_of_a_written_tree() {
        let mut rng = Rng::new(28);
        let mut trees: Vec<Vec<TreeNode>> = vec![bracketed_product().to_vec()];
        trees.extend((0..20).map(|_| plain_trees::plain(&mut rng, 30)));
        for nodes in trees {
            let words = tree_words(&nodes);
            let sound = agrees_in(&mut rng, &words, 1_000);
            assert!(matches!(sound, Written::Tokens(_)));
            for place in (6..words.len()).step_by(NODE_WORDS) {
                for bit in 0..32 {
                    let mut flipped = words.clone();
                    flipped[place] ^= 1 << bit;
                    let fault = Written::Refused(12, place);
                    let wanted = if bit < 29 { sound } else { fault };
                    assert_eq!(agrees_in(&mut rng, &flipped, 1_000), wanted);
                }
            }
        }
    }

    #[test]
    fn trees_of_three_nodes_a_token_at_each_number_of_words() {
        let mut rng = Rng::new(29);
        for tokens in [1, 2, 7, 682, 683, 4_096] {
            let words = tree_words(&plain_trees::nested_brackets(3 * tokens - 1));
            for len in [18 * tokens, 20 * tokens, 21 * tokens - 1, 21 * tokens] {
                agrees_in(&mut rng, &words[..len], 20_480);
            }
            let longer = [&words[..], &[word(1, 61)]].concat();
            let after = Written::Refused(12, 21 * tokens);
            assert_eq!(agrees_in(&mut rng, &longer, 20_480), after);
        }
    }

    #[test]
    fn plain_trees_and_disturbed_ones() {
        let mut rng = Rng::new(21);
        let mut answers = [0; 4];
        for round in 0..60_000 {
            let size = 1 + rng.below(if round % 50 == 0 { 6_000 } else { 20 });
            let mut nodes = plain_trees::any(&mut rng, size);
            if rng.chance(60) {
                nodes = plain_trees::disturbed(&mut rng, nodes);
            }
            match agrees(&mut rng, &tree_words(&nodes)) {
                Written::Tokens(_) => answers[0] += 1,
                Written::Refused(number, _) => answers[number as usize - 12] += 1,
            }
        }
        assert!(answers.iter().all(|&n| n > 20), "{answers:?}");
    }

    #[test]
    fn words_damaged_in_each_field() {
        let mut rng = Rng::new(22);
        for _ in 0..60_000 {
            let size = 1 + rng.below(12);
            let nodes = plain_trees::any(&mut rng, size);
            let words = plain_trees::damaged(&mut rng, tree_words(&nodes));
            agrees(&mut rng, &words);
        }
    }

    #[test]
    fn every_operator_over_every_child_count_under_every_parent() {
        let mut rng = Rng::new(23);
        // Hosts too: the first and the last, and some whose lower eight bits are a form's operator.
        let hosts = [256, 260, 262, 292, 296, 329, 571, 828, 1_023];
        for parent in (0..=110).chain(hosts) {
            for child in (0..=110).chain(hosts) {
                for (above, below) in [(1, 0), (1, 1), (2, 0), (2, 1), (2, 2), (3, 0)] {
                    let mut nodes = vec![bare(parent, above)];
                    for _ in 0..above {
                        nodes.push(bare(child, below));
                        nodes.extend((0..below).map(|_| bare([61, 4][below as usize % 2], 0)));
                    }
                    agrees(&mut rng, &tree_words(&nodes));
                    let script = [vec![bare(73, 1), bare(73, 1)], nodes];
                    agrees(&mut rng, &tree_words(&script.concat()));
                }
            }
        }
    }

    #[test]
    fn the_largest_trees() {
        let mut rng = Rng::new(24);
        let sizes = [
            1, 2, 1_366, 2_047, 2_048, 2_049, 4_096, 6_144, 6_145, 12_287, 12_288,
        ];
        for size in sizes {
            agrees(&mut rng, &tree_words(&plain_trees::nested_brackets(size)));
            agrees(&mut rng, &tree_words(&plain_trees::comma_list(size)));
            agrees(&mut rng, &tree_words(&plain_trees::right_sums(size)));
            agrees(&mut rng, &tree_words(&vec![bare(7, 1); size]));
            let statements = plain_trees::short_statements(size.div_ceil(2));
            agrees(&mut rng, &tree_words(&statements));
            let empty = [vec![bare(73, size as u32 - 1)], vec![bare(73, 0); size - 1]];
            agrees(&mut rng, &tree_words(&empty.concat()));
        }
    }

    #[test]
    fn every_small_tree_with_semicolons() {
        let mut rng = Rng::new(30);
        every_tree(&OF_SCRIPTS, 4, |nodes| {
            let dressed = nodes.iter().map(|&(op, below)| {
                let token = plain_trees::token(&mut rng, op);
                let (children, close) = (below, token.end);
                TreeNode {
                    token,
                    children,
                    close,
                }
            });
            let words = tree_words(&dressed.collect::<Vec<_>>());
            agrees(&mut rng, &words);
        });
    }

    #[test]
    fn scripts_of_a_thousand_statements_and_of_4096_tokens() {
        let mut rng = Rng::new(31);
        let mut longest = 0;
        for statements in [1, 2, 999, 1_000, 1_001, 1_024] {
            for most in [1, 4, 6] {
                let nodes = plain_trees::script(&mut rng, statements, most);
                for last in 0..3 {
                    let mut nodes = nodes.clone();
                    let disturbed = nodes.len() - 1 - last.min(nodes.len() - 1);
                    nodes[disturbed].token.op = [61, 73, 71][last];
                    agrees(&mut rng, &tree_words(&nodes));
                }
                if let Written::Tokens(tokens) = agrees(&mut rng, &tree_words(&nodes)) {
                    longest = longest.max(tokens);
                }
            }
        }
        assert!(longest > 2_000, "only {longest} tokens");
    }

    #[test]
    #[cfg_attr(not(rust_source), ignore = "the Rust source is not at hand")]
    fn trees_that_were_read() {
        let mut rng = Rng::new(25);
        for case in Mixed::new(25, 24).take(100_000) {
            if let Some(Some(nodes)) = tree_if_at_hand(&case) {
                agrees(&mut rng, &tree_words(&nodes));
            }
        }
    }

    #[test]
    fn tokens_are_copied_and_brackets_carry_the_extent_alone() {
        let paid = Token {
            op: 31,
            variant: 12,
            value: 0xFFFE_0001,
            start: 9,
            end: 3,
        };
        let mut product = bare(31, 2);
        (product.token, product.close) = (paid, 70);
        let nodes = [bare(6, 1), product, bare(61, 0), bare(62, 0)];
        let mut list = vec![0; 30];
        let answer = library::write(&tree_words(&nodes), &mut list);
        assert_eq!(answer, Written::Tokens(6));
        let list = decode_list(&list).expect("the list is legal");
        // The leaves are at 0 to 0: the lowest start is theirs, the highest end the product's.
        let bracket = |op, start| Token {
            op,
            variant: 0,
            value: 0,
            start,
            end: 3,
        };
        let pair = (bracket(4, 0), bracket(5, 3));
        assert_eq!((list[1], list[3], list[5]), (pair.0, paid, pair.1));
    }
}

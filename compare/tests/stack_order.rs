//! Stack order: the model by itself, over small trees and over every short word list of a small alphabet, then the library's export
//! and import beside it.

use compare::plain_trees::{self, bare, every_tree};
use compare::stack_model::{self, Reordered, on_deep_stack, stack_fault};
use compare::writer_model::MOST_NODES;
use oracle::words::{NODE_WORDS, TOKEN_WORDS, TreeNode, tree_words, word};
use std::collections::HashSet;

/// What the model answers where there is room.
fn export(words: &[u32]) -> (Reordered, Vec<u32>) {
    stack_model::export(words, words.len())
}

fn import(words: &[u32]) -> (Reordered, Vec<u32>) {
    stack_model::import(words, words.len())
}

/// The words in stack order of nodes that are one tree, parents first.
fn exported(nodes: &[TreeNode]) -> Vec<u32> {
    let (answer, stack) = export(&tree_words(nodes));
    assert_eq!(answer, Reordered::Nodes(nodes.len()));
    stack
}

/// Nodes of these operators and child counts, each with a place of its own.
fn nodes(given: &[(u16, u32)]) -> Vec<TreeNode> {
    let with_place = |(place, &(op, children)): (usize, &(u16, u32))| {
        let mut node = bare(op, children);
        (node.token.start, node.close) = (place as u32, place as u32 + 1);
        node
    };
    given.iter().enumerate().map(with_place).collect()
}

/// A sum of a leaf and a product.
fn sum() -> Vec<TreeNode> {
    nodes(&[(9, 2), (61, 0), (31, 2), (62, 0), (76, 0)])
}

#[test]
fn each_nodes_words_come_after_those_of_its_children_in_order() {
    let nodes = sum();
    let stack = exported(&nodes);
    let wanted = [1, 3, 4, 2, 0].map(|number: usize| nodes[number]);
    assert_eq!(stack, tree_words(&wanted));
    assert_eq!(
        import(&stack),
        (Reordered::Nodes(5), tree_words(&nodes)),
        "and back"
    );
    let leaf = tree_words(&[bare(61, 0)]);
    assert_eq!(export(&leaf), (Reordered::Nodes(1), leaf.clone()));
    assert_eq!(import(&leaf), (Reordered::Nodes(1), leaf));
}

/// Where each node stands in stack order, by its number, its depth and the nodes below it: before it come the nodes of lower numbers
/// that are not above it, and those below it.
fn places(nodes: &[(u16, u32)]) -> Vec<usize> {
    let end = |number: usize| {
        let (mut called, mut end) = (1, number);
        while called > 0 {
            called += nodes[end].1 as usize;
            called -= 1;
            end += 1;
        }
        end
    };
    let place = |number: usize| {
        let above = (0..number).filter(|&above| number < end(above)).count();
        end(number) - 1 - above
    };
    (0..nodes.len()).map(place).collect()
}

#[test]
fn every_tree_of_up_to_8_nodes_goes_where_its_counts_say_and_back() {
    let mut trees = 0;
    every_tree(&[61], 8, |shape| {
        trees += 1;
        let nodes = nodes(shape);
        let mut wanted = nodes.clone();
        for (node, place) in nodes.iter().zip(places(shape)) {
            wanted[place] = *node;
        }
        let stack = exported(&nodes);
        assert_eq!(stack, tree_words(&wanted), "{shape:?}");
        let back = import(&stack);
        assert_eq!(back, (Reordered::Nodes(nodes.len()), tree_words(&nodes)));
    });
    assert_eq!(trees, 626);
}

/// Words of small trees in every field, and words that no tree has.
const ALPHABET: [u32; 16] = [
    word(1, 61),
    word(1, 1 << 8 | 61),
    word(1, 111),
    word(2, 0),
    word(3, 9),
    word(4, 0),
    word(4, 1),
    word(5, 0),
    word(5, 1),
    word(6, 0),
    word(6, 1),
    word(6, 2),
    word(6, 3),
    word(6, 1 << 14),
    word(7, 5),
    0,
];

/// The nodes of so many children over the alphabet.
fn labels(children: usize) -> Vec<Vec<u32>> {
    let node = |op, upper, lower| {
        let (count, close) = (word(6, children as u32), word(7, 5));
        vec![op, word(2, 0), word(3, 9), upper, lower, count, close]
    };
    let mut labels = vec![node(word(1, 61), word(4, 0), word(5, 0))];
    for (upper, lower) in [(0, 0), (0, 1), (1, 0), (1, 1)] {
        labels.push(node(word(1, 1 << 8 | 61), word(4, upper), word(5, lower)));
    }
    labels
}

fn each_with_each(front: &[Vec<u32>], back: &[Vec<u32>]) -> Vec<Vec<u32>> {
    let joined = front
        .iter()
        .flat_map(|front| back.iter().map(|back| [&front[..], back].concat()));
    joined.collect()
}

/// The words in stack order of every tree of `size` nodes over the alphabet.
fn trees(size: usize) -> Vec<Vec<u32>> {
    let over = |children| each_with_each(&forests(children, size - 1), &labels(children));
    (0..size).flat_map(over).collect()
}

/// The same of every `count` trees of `size` nodes together.
fn forests(count: usize, size: usize) -> Vec<Vec<u32>> {
    if count == 0 {
        return if size == 0 { vec![vec![]] } else { vec![] };
    }
    let first = |first| each_with_each(&trees(first), &forests(count - 1, size - first));
    (1..=size).flat_map(first).collect()
}

/// Every word list over the alphabet that begins a tree of at most `most` nodes, and those with up to `more` words after it, each
/// with its place by card 14's sentence: the first word that cannot continue one of the trees, or the word count where they run out.
fn short_lists(most: usize, more: usize) -> Vec<(Vec<u32>, Option<usize>)> {
    let whole: HashSet<Vec<u32>> = (1..=most).flat_map(trees).collect();
    let prefixes: HashSet<&[u32]> = whole
        .iter()
        .flat_map(|tree| (0..=tree.len()).map(|len| &tree[..len]))
        .collect();
    let mut lists = Vec::new();
    for begins in &prefixes {
        let runs_out = (!whole.contains(*begins)).then_some(begins.len());
        lists.push((begins.to_vec(), runs_out));
        let next = ALPHABET.map(|word| [*begins, &[word]].concat());
        let ends = next.iter().filter(|next| !prefixes.contains(&next[..]));
        for ends in ends {
            lists.push((ends.clone(), Some(begins.len())));
            if more > 1 {
                let longer = ALPHABET.map(|word| [&ends[..], &[word]].concat());
                lists.extend(longer.map(|longer| (longer, Some(begins.len()))));
            }
        }
    }
    lists
}

#[test]
fn every_short_word_list_fails_where_no_tree_goes_on() {
    let mut count = 0;
    for (most, more) in [(1, 2), (2, 2), (3, 2), (4, 1)] {
        for (words, fault) in short_lists(most, more) {
            count += 1;
            assert_eq!(stack_fault(&words, most), fault, "{most}: {words:x?}");
        }
    }
    assert!(count > 500_000, "only {count} lists");
}

#[test]
fn the_limit_is_far_from_short_word_lists() {
    // What ends before a fourth node's count is joined by a fourth node at the latest.
    let lists = short_lists(4, 1).into_iter();
    for (words, fault) in lists.filter(|(words, _)| words.len() <= 3 * NODE_WORDS + TOKEN_WORDS) {
        assert_eq!(stack_fault(&words, MOST_NODES), fault, "{words:x?}");
    }
}

fn refused(words: &[u32]) -> Option<usize> {
    match import(words).0 {
        Reordered::Nodes(_) => None,
        Reordered::Refused(number, place) => {
            assert_eq!(number, 24);
            Some(place)
        }
    }
}

#[test]
fn words_that_are_not_one_tree_fail_where_no_tree_goes_on() {
    let stack = exported(&sum());
    assert_eq!(refused(&[]), Some(0));
    assert_eq!(refused(&stack), None);
    for cut in 1..stack.len() {
        // The first leaf alone is a tree.
        let wanted = (cut != NODE_WORDS).then_some(cut);
        assert_eq!(refused(&stack[..cut]), wanted);
    }
    let twice = [&stack[..], &stack[..]].concat();
    assert_eq!(refused(&twice), Some(twice.len()), "two trees run out");
    let longer = |more: u32| refused(&[&stack[..], &[more]].concat());
    assert_eq!(longer(0), Some(35), "a word that begins no node");
    assert_eq!(longer(word(1, 61)), Some(36), "a node begins, and runs out");
    let damaged = |place: usize, to: u32| {
        let mut words = stack.clone();
        words[place] = to;
        refused(&words)
    };
    let edges = [
        (7, word(1, 111), "an operator above 110"),
        (7, word(1, 255), "a number below the hosts"),
        (7, word(1, 4 << 12), "a number above the hosts"),
        (7, word(1, 13 << 8 | 61), "a variant above 12"),
        (7, word(1, 1 << 16 | 61), "another bit"),
        (8, word(3, 0), "a wrong kind"),
        (10, word(4, 1), "an upper half under variant 0"),
        (11, word(5, 1), "a lower half under variant 0"),
        (5, word(6, 1), "a first node with a child"),
        (12, word(6, 2), "a count of more trees than are done"),
        (12, word(6, 1 << 14), "a count of more than fourteen bits"),
        (13, word(6, 0), "a seventh word of kind 6"),
        (13, word(1, 61), "the next node after six words"),
    ];
    for (place, to, edge) in edges {
        assert_eq!(damaged(place, to), Some(place), "{edge}");
    }
    assert_eq!(damaged(33, word(6, 1)), Some(35), "the root leaves a tree");
    assert_eq!(damaged(6, word(7, 123)), None, "where a node closes");
}

#[test]
fn the_limits_of_nodes() {
    on_deep_stack(|| {
        let deep = |size| tree_words(&plain_trees::nested_brackets(size - 1));
        let flat = |size| tree_words(&plain_trees::flat(size));
        for size in [MOST_NODES - 1, MOST_NODES] {
            for words in [deep(size), flat(size)] {
                let (answer, stack) = export(&words);
                assert_eq!(answer, Reordered::Nodes(size));
                assert_eq!(import(&stack), (Reordered::Nodes(size), words));
            }
        }
        let (last, most) = (NODE_WORDS * (MOST_NODES - 1), NODE_WORDS * MOST_NODES);
        assert_eq!(export(&deep(12_289)).0, Reordered::Refused(12, last + 5));
        assert_eq!(export(&flat(12_289)).0, Reordered::Refused(12, 5));
        // In stack order a chain's 12,289th node may not begin, and of 12,288 leaves the last leaves none that would join them.
        let chain = [vec![bare(61, 0)], vec![bare(7, 1); MOST_NODES]].concat();
        assert_eq!(refused(&tree_words(&chain)), Some(most));
        let leaves = vec![bare(61, 0); MOST_NODES];
        assert_eq!(refused(&tree_words(&leaves)), Some(last + 5));
        let fewer = tree_words(&leaves[1..]);
        assert_eq!(refused(&fewer), Some(last), "a root may come");
    });
}

#[test]
fn a_short_output_is_seen_after_the_shape() {
    let words = tree_words(&sum());
    let stack = exported(&sum());
    let short = (Reordered::Refused(25, 0), Vec::new());
    for room in [0, 1, 34] {
        assert_eq!(stack_model::export(&words, room), short);
        assert_eq!(stack_model::import(&stack, room), short);
        let cut = (Reordered::Refused(12, 34), Vec::new());
        assert_eq!(stack_model::export(&words[..34], room), cut);
        let cut = (Reordered::Refused(24, 34), Vec::new());
        assert_eq!(stack_model::import(&stack[..34], room), cut);
    }
}

#[cfg(library)]
mod library {
    use super::*;
    use compare::library::Read;
    use compare::reading::{Buffers, Expected};
    use compare::reordering::{Way, reorder};
    use oracle::generate::{Mixed, Rng};
    use oracle::refusal::Call;

    /// The library answers as the model does, fills an output of so many words as that says, and the other call undoes it.
    fn agrees_in(rng: &mut Rng, way: Way, words: &[u32], room: usize) -> Reordered {
        match reorder(rng, way, words, room) {
            Ok(answer) => answer,
            Err(difference) => panic!("room {room}: {difference}"),
        }
    }

    /// The same in an output with room for all words, for one less, for more, or for any number.
    fn agrees(rng: &mut Rng, way: Way, words: &[u32]) -> Reordered {
        let room = match rng.below(5) {
            0 | 1 => words.len(),
            2 => words.len().saturating_sub(1),
            3 => words.len() + 1 + rng.below(20),
            _ => rng.below(words.len() + 1),
        };
        agrees_in(rng, way, words, room)
    }

    /// The tree's words in both orders, each with the call that takes it.
    fn both(nodes: &[TreeNode]) -> [(Way, Vec<u32>); 2] {
        let (words, stack) = (tree_words(nodes), exported(nodes));
        [(Way::Export, words), (Way::Import, stack)]
    }

    #[test]
    fn every_tree_of_up_to_8_nodes() {
        let mut rng = Rng::new(41);
        every_tree(&[61], 8, |shape| {
            let dressed = shape.iter().map(|&(op, children)| TreeNode {
                token: plain_trees::token(&mut rng, op),
                children,
                close: rng.below(1 << 29) as u32,
            });
            let dressed: Vec<TreeNode> = dressed.collect();
            for (way, words) in both(&dressed) {
                for room in [words.len(), words.len() + 1, words.len() + 9] {
                    let answer = agrees_in(&mut rng, way, &words, room);
                    assert_eq!(answer, Reordered::Nodes(shape.len()));
                }
                for room in [0, 1, words.len() - 1] {
                    let answer = agrees_in(&mut rng, way, &words, room);
                    assert_eq!(answer, Reordered::Refused(25, 0));
                }
            }
        });
    }

    #[test]
    fn every_short_word_list() {
        let mut rng = Rng::new(42);
        for (words, _) in short_lists(3, 1) {
            let room = words.len() + rng.below(2);
            agrees_in(&mut rng, Way::Import, &words, room);
        }
    }

    #[test]
    fn every_prefix_in_both_orders() {
        let mut rng = Rng::new(43);
        for size in [1, 2, 3, 8, 40, 200] {
            for (way, words) in both(&plain_trees::any_shape(&mut rng, size)) {
                for len in 0..=words.len() {
                    agrees(&mut rng, way, &words[..len]);
                }
                let kinds = [1, 2, 3, 4, 5, 6, 7, 0].map(|kind| word(kind, 0));
                for more in kinds {
                    let longer = [&words[..], &[more]].concat();
                    agrees_in(&mut rng, way, &longer, longer.len());
                }
            }
        }
    }

    #[test]
    fn each_bit_of_each_word_in_both_orders() {
        let mut rng = Rng::new(44);
        for size in [1, 3, 12] {
            for (way, words) in both(&plain_trees::any_shape(&mut rng, size)) {
                for (place, bit) in
                    (0..words.len()).flat_map(|at| (0..32).map(move |bit| (at, bit)))
                {
                    let mut damaged = words.clone();
                    damaged[place] ^= 1 << bit;
                    let room = words.len() + rng.below(3);
                    agrees_in(&mut rng, way, &damaged, room);
                }
            }
        }
    }

    #[test]
    fn words_damaged_in_each_field() {
        let mut rng = Rng::new(45);
        let mut answers = [0; 26];
        for _ in 0..60_000 {
            let size = 1 + rng.below(12);
            for (way, words) in both(&plain_trees::any_shape(&mut rng, size)) {
                let words = plain_trees::damaged(&mut rng, words);
                match agrees(&mut rng, way, &words) {
                    Reordered::Nodes(_) => answers[0] += 1,
                    Reordered::Refused(number, _) => answers[number as usize] += 1,
                }
            }
        }
        let seen = [0, 12, 24, 25].map(|number: usize| answers[number]);
        assert!(seen.iter().all(|&count| count > 500), "{seen:?}");
    }

    #[test]
    fn words_of_one_order_taken_for_the_other() {
        let mut rng = Rng::new(46);
        let mut taken = 0;
        for _ in 0..20_000 {
            let size = 1 + rng.below(8);
            let [(_, words), (_, stack)] = both(&plain_trees::any_shape(&mut rng, size));
            for (way, words) in [(Way::Export, stack), (Way::Import, words)] {
                let answer = agrees_in(&mut rng, way, &words, words.len());
                taken += usize::from(answer == Reordered::Nodes(size));
            }
        }
        assert!(taken > 1_000, "only leaves are trees in both orders");
    }

    #[test]
    fn the_largest_trees_flat_and_deep() {
        on_deep_stack(|| {
            let mut rng = Rng::new(47);
            for size in [1, 2, 1_000, 12_287, 12_288, 12_289] {
                let deep = plain_trees::nested_brackets(size - 1);
                let flat = plain_trees::flat(size);
                let two_each = plain_trees::right_sums(size.div_ceil(2));
                let lefts = plain_trees::comma_list(size.div_ceil(2));
                let any = plain_trees::any_shape(&mut rng, size);
                for nodes in [deep, flat, two_each, lefts, any] {
                    let words = tree_words(&nodes);
                    agrees_in(&mut rng, Way::Export, &words, words.len());
                    // From the last node to the first they are the mirrored tree in stack order.
                    let mirrored: Vec<TreeNode> = nodes.into_iter().rev().collect();
                    let stack = tree_words(&mirrored);
                    let answer = agrees_in(&mut rng, Way::Import, &stack, stack.len());
                    let fits = mirrored.len() <= MOST_NODES;
                    assert_eq!(answer == Reordered::Nodes(mirrored.len()), fits);
                    for (way, words) in [(Way::Export, words), (Way::Import, stack)] {
                        agrees(&mut rng, way, &words);
                        agrees(&mut rng, way, &words[..words.len() - 1]);
                        agrees(&mut rng, way, &[&words[..], &[word(1, 61)]].concat());
                        let damaged = plain_trees::damaged(&mut rng, words);
                        agrees(&mut rng, way, &damaged);
                    }
                }
            }
        });
    }

    #[test]
    fn trees_at_the_limit_with_trees_left_over() {
        on_deep_stack(|| {
            let mut rng = Rng::new(48);
            for size in MOST_NODES - 2..=MOST_NODES + 1 {
                for left in [1, 2, 3, 100] {
                    // A node that takes all leaves before it but some.
                    let leaves = size - 1;
                    let takes = bare(40, (leaves + 1 - left) as u32);
                    let stack = tree_words(&[vec![bare(61, 0); leaves], vec![takes]].concat());
                    agrees_in(&mut rng, Way::Import, &stack, stack.len());
                    let pairs = [bare(61, 0), bare(7, 1)].repeat(size / 2);
                    let stack = tree_words(&pairs[..pairs.len() - left % 2]);
                    agrees_in(&mut rng, Way::Import, &stack, stack.len());
                }
            }
        });
    }

    #[test]
    fn trees_of_any_shape() {
        on_deep_stack(|| {
            let mut rng = Rng::new(49);
            for round in 0..40_000 {
                let size = 1 + rng.below(if round % 100 == 0 { 4_000 } else { 40 });
                for (way, words) in both(&plain_trees::any_shape(&mut rng, size)) {
                    agrees(&mut rng, way, &words);
                }
            }
        });
    }

    #[test]
    fn trees_that_were_read() {
        let mut rng = Rng::new(50);
        let mut buffers = Buffers::default();
        let mut trees = 0;
        for case in Mixed::new(50, 24).take(60_000) {
            let read = buffers.call(&Call::of(&case), &Expected::Something);
            let Ok(Read::Tree(count)) = read else {
                continue;
            };
            trees += 1;
            let words = buffers.tree(count).to_vec();
            let (_, stack) = export(&words);
            agrees(&mut rng, Way::Export, &words);
            agrees(&mut rng, Way::Import, &stack);
        }
        assert!(trees > 10_000, "only {trees} trees");
    }
}

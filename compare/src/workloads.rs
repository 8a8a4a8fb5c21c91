//! The lists that reading and writing are timed over: all of them are trees at their version, by the Rust and by the library. And
//! the trees that export and import are timed over.

use crate::plain_trees::{self, bare};
use oracle::generate::{Rng, dress};
use oracle::words::{Case, TreeNode};

/// Lists that are read one after the other, with the name they are printed under.
pub struct Workload {
    pub name: &'static str,
    pub cases: Vec<Case>,
}

/// Makes a list of about so many operators, a random one from a seed.
type Make = fn(usize, u64) -> Vec<u16>;

/// As many lists as have 4,096 tokens together, each from its own seed: were one short random list read over and over, the
/// processor would learn its branches by heart, which it cannot for a long one.
fn workload(name: &'static str, make: Make, len: usize, version: i16) -> Workload {
    let lists = (4_096 / len).max(1) as u64;
    Workload {
        name,
        cases: (0..lists)
            .map(|seed| case(&make(len, seed), version))
            .collect(),
    }
}

fn case(ops: &[u16], version: i16) -> Case {
    let mut tokens = dress::plain(ops);
    // A float or nothing: what else the Rust would spend on names is no part of reading.
    for token in tokens.iter_mut().filter(|token| token.op != 61) {
        (token.variant, token.value) = (0, 0);
    }
    Case::exact(tokens, version)
}

/// `q.a * math.sin(v.b + 3) > 2 && !q.c(1, v.d) ? t.x - 4 / (c.y ?? 7) : -1`.
const EXPRESSION: [u16; 31] = [
    40, 31, 36, 4, 43, 9, 61, 5, 53, 61, 57, 7, 40, 4, 61, 75, 43, 5, 59, 44, 6, 61, 20, 4, 42, 58,
    61, 5, 60, 6, 61,
];

/// Statements of a typical script.
const STATEMENTS: [&[u16]; 4] = [
    &[43, 71, 43, 9, 36, 4, 40, 31, 61, 5, 73],
    &[44, 71, 40, 4, 61, 75, 43, 5, 53, 61, 59, 61, 60, 6, 61, 73],
    &[
        67, 4, 61, 75, 0, 43, 71, 43, 9, 61, 73, 44, 45, 71, 61, 31, 4, 43, 6, 61, 5, 73, 1, 5, 73,
    ],
    &[
        43, 71, 4, 43, 50, 61, 57, 7, 44, 5, 59, 4, 61, 9, 61, 5, 60, 41, 2, 43, 3, 73,
    ],
];

fn script(len: usize) -> Vec<u16> {
    let mut rng = Rng::new(5);
    let mut ops = Vec::new();
    while ops.len() + 25 < len {
        ops.extend(*rng.pick(&STATEMENTS));
    }
    ops.extend([74, 43, 73]);
    ops
}

/// `steps` of one list, then the middle, then as many of another, of about `len` operators.
fn nest(len: usize, step: &[u16], back: &[u16]) -> Vec<u16> {
    let times = (len - 1) / (step.len() + back.len());
    [&step.repeat(times)[..], &[61], &back.repeat(times)].concat()
}

fn flat_sum(len: usize, _: u64) -> Vec<u16> {
    nest(len, &[61, 9], &[])
}

fn brackets(len: usize, _: u64) -> Vec<u16> {
    nest(len, &[4], &[5])
}

fn sums_in_brackets(len: usize, _: u64) -> Vec<u16> {
    nest(len, &[4, 61, 9], &[5])
}

fn ladder(len: usize, _: u64) -> Vec<u16> {
    nest(len, &[61, 59, 61, 60], &[])
}

fn ladder_in_brackets(len: usize, _: u64) -> Vec<u16> {
    nest(len, &[61, 59, 61, 60, 4], &[5])
}

fn random_expression(len: usize, seed: u64) -> Vec<u16> {
    let mut rng = Rng::new(11 + seed);
    let mut ops = vec![61];
    while ops.len() + 60 < len {
        let mut part = vec![*rng.pick(&[9, 31, 20, 6, 50, 57, 56])];
        put_valid(&mut rng, &mut part, 5);
        if ops.len() + part.len() <= len {
            ops.extend(part);
        }
    }
    ops
}

/// A random expression of exactly so many tokens.
fn random_of(len: usize, seed: u64) -> Vec<u16> {
    let mut rng = Rng::new(17 + seed);
    let mut ops = vec![61];
    while ops.len() < len {
        let mut part = vec![*rng.pick(&[9, 31, 20, 6, 50, 57, 56, 53, 54])];
        put_valid(&mut rng, &mut part, 2);
        if ops.len() + part.len() <= len {
            ops.extend(part);
        }
        if ops.len() + 1 == len {
            // No part is so short.
            ops.truncate(1);
        }
    }
    ops
}

fn random_script(len: usize, seed: u64) -> Vec<u16> {
    let mut rng = Rng::new(13 + seed);
    let mut ops = Vec::new();
    while ops.len() + 60 < len {
        let mut part = vec![43, 71];
        put_valid(&mut rng, &mut part, 4);
        part.push(73);
        if ops.len() + part.len() <= len {
            ops.extend(part);
        }
    }
    ops
}

/// An expression that is read as a tree wherever an operand may stand.
fn put_valid(rng: &mut Rng, ops: &mut Vec<u16>, depth: usize) {
    for operand in 0..1 + rng.below(4) {
        if operand > 0 {
            ops.push(*rng.pick(&[9, 31, 20, 6, 50, 53, 54, 56, 57, 9]));
        }
        if rng.chance(12) {
            ops.push(*rng.pick(&[6, 7]));
        }
        let inner = depth.saturating_sub(1);
        match if depth == 0 { 0 } else { rng.below(7) } {
            0 | 1 => ops.push(*rng.pick(&[61, 43, 44, 40])),
            2 => put_within(rng, ops, &[4], inner, 5),
            3 => put_within(rng, ops, &[40, 4], inner, 5),
            4 => put_within(rng, ops, &[36, 4], inner, 5),
            5 => {
                ops.push(4);
                put_valid(rng, ops, inner);
                ops.push(59);
                put_valid(rng, ops, inner);
                put_within(rng, ops, &[60], inner, 5);
            }
            _ => put_within(rng, ops, &[41, 2], inner, 3),
        }
    }
}

fn put_within(rng: &mut Rng, ops: &mut Vec<u16>, before: &[u16], depth: usize, after: u16) {
    ops.extend(before);
    put_valid(rng, ops, depth);
    ops.push(after);
}

const LONG: [(&str, Make, i16); 9] = [
    ("flat sum", flat_sum, 6),
    ("nested brackets", brackets, 6),
    ("(a+(a+(..)))", sums_in_brackets, 6),
    ("ladder of conditionals at 4", ladder, 4),
    ("ladder of conditionals at 6", ladder, 6),
    ("ladder in brackets at 4", ladder_in_brackets, 4),
    ("ladder in brackets at 6", ladder_in_brackets, 6),
    ("random expression", random_expression, 6),
    ("random script", random_script, 6),
];

/// The short ones: a typical expression and a typical script.
pub fn short() -> Vec<Workload> {
    let one = |name, ops: &[u16]| Workload {
        name,
        cases: vec![case(ops, 6)],
    };
    vec![
        one("typical expression", &EXPRESSION),
        one("typical script", &script(320)),
    ]
}

/// Lists of 31 tokens, which `liftcount` and `liftlists` are timed over: a typical expression again and again, and random ones.
pub fn of_31_tokens() -> Vec<Workload> {
    let random = (0..2_048).map(|seed| case(&random_of(31, seed), 6));
    vec![
        Workload {
            name: "typical expression",
            cases: vec![case(&EXPRESSION, 6)],
        },
        Workload {
            name: "random expressions",
            cases: random.collect(),
        },
    ]
}

/// The ones whose growth is measured, of about `len` tokens.
pub fn long(len: usize) -> Vec<Workload> {
    let made = LONG.iter();
    made.map(|&(name, make, version)| workload(name, make, len, version))
        .collect()
}

/// Sums and products of equal depth, all in brackets: a list whose tree is plain.
fn balanced(len: usize, _: u64) -> Vec<u16> {
    let mut ops = vec![61];
    let mut round = 0;
    while 2 * ops.len() + 3 <= len {
        let between = [9, 31][round % 2];
        ops = [&[4], &ops[..], &[between], &ops[..], &[5]].concat();
        round += 1;
    }
    ops
}

fn arguments(len: usize, _: u64) -> Vec<u16> {
    [&[40, 4], &nest(len - 3, &[61, 75], &[])[..], &[5]].concat()
}

/// A ladder without brackets, of two thirds of the tokens: each step but the first is written in an added pair.
fn paired_ladder(len: usize, seed: u64) -> Vec<u16> {
    ladder((2 * len).div_ceil(3), seed)
}

/// A sum without brackets, of half of the tokens: each sum but the last is the next one's left side, in an added pair.
fn paired_sums(len: usize, seed: u64) -> Vec<u16> {
    flat_sum(len.div_ceil(2), seed)
}

/// Statements of a bracket each, `( a ) ;`: of 4,000 tokens a thousand of them.
fn short_statements(len: usize, _: u64) -> Vec<u16> {
    [4, 61, 5, 73].repeat(len / 4)
}

/// The same tokens as one expression, with commas for semicolons but for the last.
fn same_with_commas(len: usize, _: u64) -> Vec<u16> {
    let mut ops = [4, 61, 5, 75].repeat(len / 4);
    ops.pop();
    ops
}

/// `v = a ;`, over and over.
fn assignments(len: usize, _: u64) -> Vec<u16> {
    [43, 71, 61, 73].repeat(len / 4)
}

/// The names of a script and of the same tokens as one expression, which `bench` holds beside each other.
pub const SCRIPT: &str = "script of short statements";
pub const SAME_AS_ONE: &str = "the same as one expression";

const PLAIN: [(&str, Make); 9] = [
    ("balanced sums and products", balanced),
    ("nested brackets", brackets),
    ("many arguments", arguments),
    ("ladder in brackets", ladder_in_brackets),
    ("ladder in added pairs", paired_ladder),
    ("sum in added pairs", paired_sums),
    (SCRIPT, short_statements),
    (SAME_AS_ONE, same_with_commas),
    ("script of assignments", assignments),
];

/// Lists whose trees the writer takes, of about `len` written tokens.
pub fn plain(len: usize) -> Vec<Workload> {
    let made = PLAIN.iter();
    made.map(|&(name, make)| workload(name, make, len, 6))
        .collect()
}

/// Trees that are exported and imported one after the other, with the name they are printed under.
pub struct Trees {
    pub name: &'static str,
    pub is_random: bool,
    pub trees: Vec<Vec<TreeNode>>,
}

/// Makes a tree of about so many nodes.
type MakeTree = fn(usize) -> Vec<TreeNode>;

/// Two children each, with as many nodes below the one as below the other, or one more.
fn balanced_tree(size: usize) -> Vec<TreeNode> {
    let (left, right) = (size / 2, (size - 1) / 2);
    let below = [left, right].into_iter().filter(|&below| below > 0);
    let children = below.clone().count();
    let op = [61, 6, 9][children];
    let below = below.flat_map(balanced_tree);
    [bare(op, children as u32)]
        .into_iter()
        .chain(below)
        .collect()
}

const SHAPES: [(&str, MakeTree); 5] = [
    ("flat", plain_trees::flat),
    ("deep", |size| plain_trees::nested_brackets(size - 1)),
    ("to the left", |size| {
        plain_trees::comma_list(size.div_ceil(2))
    }),
    ("to the right", |size| {
        plain_trees::right_sums(size.div_ceil(2))
    }),
    ("balanced", balanced_tree),
];

/// The most children of a node, in random trees.
const RANDOM: [(&str, usize); 2] = [("random, 0-2 children", 2), ("random, 0-8 children", 8)];

/// Trees of about `size` nodes each. Of one shape they have 12,288 nodes together; random ones, each from its own seed, four times as
/// many, since the processor would learn the branches of fewer by heart.
pub fn trees(size: usize) -> Vec<Trees> {
    let count = 12_288 / size;
    let shapes = SHAPES.iter().map(|&(name, make)| Trees {
        name,
        is_random: false,
        trees: vec![make(size); count],
    });
    let random = RANDOM.iter().map(|&(name, most)| Trees {
        name,
        is_random: true,
        trees: (0..4 * count as u64)
            .map(|seed| plain_trees::of_children(&mut Rng::new(seed), size, most))
            .collect(),
    });
    shapes.chain(random).collect()
}

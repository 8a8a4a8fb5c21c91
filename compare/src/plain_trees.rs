//! Trees from a seed: plain ones, plain ones with one thing changed, any shape, damaged words, and those of a given shape.

use oracle::generate::{Rng, hosts};
use oracle::words::{LAST_PLACE, Token, TreeNode, low, with_number, word};

const LEAVES: [u16; 11] = [40, 42, 43, 44, 46, 47, 48, 49, 61, 62, 76];
const BINARIES: [u16; 14] = [9, 20, 31, 50, 51, 52, 53, 54, 55, 56, 57, 58, 75, 75];
const MATH_CALLS: [u16; 8] = [8, 10, 19, 21, 39, 78, 109, 110];

/// Numbers on both sides of where operators end and hosts begin and end.
const EDGES: [u16; 6] = [110, 111, 255, 256, 1_023, 1_024];

/// A leaf that is plain: one in four is a host's.
fn leaf(rng: &mut Rng) -> u16 {
    let op = *rng.pick(&LEAVES);
    if rng.chance(25) {
        hosts::number(rng, op)
    } else {
        op
    }
}

/// Any operator: one in eight is a host's.
fn any_operator(rng: &mut Rng) -> u16 {
    let op = rng.below(111) as u16;
    if rng.chance(12) {
        hosts::number(rng, op)
    } else {
        op
    }
}

/// Somewhere in a source, often at its ends.
fn place(rng: &mut Rng) -> u32 {
    match rng.below(4) {
        0 => LAST_PLACE,
        1 => 0,
        _ => rng.below(1000) as u32,
    }
}

/// A token of this operator with any payload and span.
pub fn token(rng: &mut Rng, op: u16) -> Token {
    let variant = rng.below(13) as u8;
    let (start, end) = (place(rng), place(rng));
    let value = if variant == 0 { 0 } else { rng.bits() as u32 };
    Token {
        op,
        variant,
        value,
        start,
        end,
    }
}

/// A node of this operator, payload 0 and span 0 to 0, that closes at 0.
pub fn bare(op: u16, children: u32) -> TreeNode {
    let token = Token {
        op,
        ..Token::default()
    };
    TreeNode {
        token,
        children,
        close: 0,
    }
}

/// What may come next in a plain tree: an operand, the bracket of a call, what stands right of `?`, a statement, or what a
/// statement holds.
#[derive(Copy, Clone)]
enum Wanted {
    Operand,
    QueryBracket,
    MathBracket,
    RightOfQuestion,
    Statement,
    Held,
}

/// Puts a plain tree of about `size` nodes after others. As in every tree that is read, only brackets close elsewhere than
/// at their own end.
fn put_plain(rng: &mut Rng, nodes: &mut Vec<TreeNode>, size: usize, root: Wanted) {
    use Wanted::{Held, MathBracket, Operand, QueryBracket, RightOfQuestion, Statement};
    let size = nodes.len() + size;
    let mut wanted = vec![root];
    while let Some(next) = wanted.pop() {
        let grows = nodes.len() + wanted.len() < size;
        let (op, below): (u16, &[Wanted]) = match next {
            Statement => (73, &[Held]),
            Held if rng.chance(50) => (71, &[Operand, Operand]),
            Held if rng.chance(30) => (74, &[Operand]),
            MathBracket if !grows || rng.chance(30) => (4, &[]),
            MathBracket | QueryBracket => (4, &[Operand]),
            RightOfQuestion if rng.chance(70) => (60, &[Operand, Operand]),
            _ if !grows => (leaf(rng), &[]),
            _ => match rng.below(12) {
                0 => (leaf(rng), &[]),
                1 => (4, &[Operand]),
                2 => (6, &[Operand]),
                3 => (7, &[Operand]),
                4 => (40, &[QueryBracket]),
                5 => (*rng.pick(&MATH_CALLS), &[MathBracket]),
                6 | 7 => (59, &[Operand, RightOfQuestion]),
                _ => (*rng.pick(&BINARIES), &[Operand, Operand]),
            },
        };
        let token = token(rng, op);
        nodes.push(TreeNode {
            token,
            children: below.len() as u32,
            close: if op == 4 { place(rng) } else { token.end },
        });
        wanted.extend(below.iter().rev());
    }
}

/// A plain expression of about `size` nodes.
pub fn plain(rng: &mut Rng, size: usize) -> Vec<TreeNode> {
    let mut nodes = Vec::new();
    put_plain(rng, &mut nodes, size, Wanted::Operand);
    nodes
}

/// A script of so many statements, each of at most about `most` nodes.
pub fn script(rng: &mut Rng, statements: usize, most: usize) -> Vec<TreeNode> {
    let token = token(rng, 73);
    let mut nodes = vec![TreeNode {
        token,
        children: statements as u32,
        close: token.end,
    }];
    for _ in 0..statements {
        let size = 1 + rng.below(most);
        put_plain(rng, &mut nodes, size, Wanted::Statement);
    }
    nodes
}

/// A plain tree: two in three are expressions, the others scripts.
pub fn any(rng: &mut Rng, size: usize) -> Vec<TreeNode> {
    if rng.chance(67) {
        return plain(rng, size);
    }
    let statements = 1 + rng.below(size.div_ceil(4));
    script(rng, statements, size.div_ceil(statements))
}

/// Has every node close anywhere: a writer looks at the closes of brackets alone.
pub fn close_anywhere(rng: &mut Rng, nodes: &mut [TreeNode]) {
    for node in nodes {
        node.close = place(rng);
    }
}

/// The tree with one node's operator or child count changed, as often plain as not; now and then its nodes close anywhere.
pub fn disturbed(rng: &mut Rng, mut nodes: Vec<TreeNode>) -> Vec<TreeNode> {
    if rng.chance(30) {
        close_anywhere(rng, &mut nodes);
    }
    let node = rng.below(nodes.len());
    if rng.chance(80) {
        nodes[node].token.op = match rng.below(3) {
            0 => any_operator(rng),
            1 => *rng.pick(&[4, 40, 60, 75, 59, 8, 110, 71, 73, 74, 41]),
            _ => leaf(rng),
        };
    } else {
        nodes[node].children = rng.below(4) as u32;
    }
    nodes
}

/// A tree of `size` nodes of any operator and shape, each of which closes anywhere.
pub fn any_shape(rng: &mut Rng, size: usize) -> Vec<TreeNode> {
    // Now and then few children each, so that the tree is deep, or many.
    let most = *rng.pick(&[1, 2, 4, size]);
    of_children(rng, size, most)
}

/// The same with at most so many children each.
pub fn of_children(rng: &mut Rng, size: usize, most: usize) -> Vec<TreeNode> {
    let mut called = 1;
    let mut nodes: Vec<TreeNode> = Vec::new();
    while nodes.len() < size {
        let is_last = called == nodes.len() + 1;
        let children = rng.below(1 + most.min(size - called));
        let children = children.max(usize::from(is_last && called < size));
        called += children;
        let op = any_operator(rng);
        nodes.push(TreeNode {
            token: token(rng, op),
            children: children as u32,
            close: place(rng),
        });
    }
    nodes
}

/// The words with one or two of them damaged, in any field; now and then cut off, or with one more.
pub fn damaged(rng: &mut Rng, mut words: Vec<u32>) -> Vec<u32> {
    for _ in 0..1 + rng.below(2) {
        let place = rng.below(words.len());
        words[place] = match rng.below(5) {
            0 => words[place] ^ 1 << rng.below(32),
            4 => with_number(words[place], *rng.pick(&EDGES)),
            1 => word(rng.below(8) as u32, low(words[place])),
            2 => word(6, *rng.pick(&[0, 1, 2, 3, 12_286, 12_287, 12_288, 16_383])),
            _ => rng.bits() as u32,
        };
    }
    if rng.chance(20) {
        words.truncate(rng.below(words.len() + 1));
    }
    if rng.chance(10) {
        words.push(rng.bits() as u32);
    }
    words
}

/// Every tree of at most `most` nodes, as its nodes' operators and child counts.
pub fn every_tree(ops: &[u16], most: usize, mut each: impl FnMut(&[(u16, u32)])) {
    /// Adds the nodes that are still called for.
    fn grow(
        ops: &[u16],
        most: usize,
        called: usize,
        nodes: &mut Vec<(u16, u32)>,
        each: &mut impl FnMut(&[(u16, u32)]),
    ) {
        if called == nodes.len() {
            return each(nodes);
        }
        for &op in ops {
            for below in 0..=most - called {
                nodes.push((op, below as u32));
                grow(ops, most, called + below, nodes, each);
                nodes.pop();
            }
        }
    }
    grow(ops, most, 1, &mut Vec::new(), &mut each);
}

/// Brackets in brackets round a leaf.
pub fn nested_brackets(levels: usize) -> Vec<TreeNode> {
    let mut nodes = vec![bare(4, 1); levels];
    nodes.push(bare(61, 0));
    nodes
}

/// A script of statements that hold a leaf each.
pub fn short_statements(statements: usize) -> Vec<TreeNode> {
    let mut nodes = vec![bare(73, statements as u32)];
    nodes.extend([bare(73, 1), bare(61, 0)].repeat(statements));
    nodes
}

/// Commas each of which is the left side of the next, over leaves.
pub fn comma_list(leaves: usize) -> Vec<TreeNode> {
    let mut nodes = vec![bare(75, 2); leaves - 1];
    nodes.extend(vec![bare(61, 0); leaves]);
    nodes
}

/// Sums whose right side is a sum.
pub fn right_sums(leaves: usize) -> Vec<TreeNode> {
    let mut nodes = [bare(9, 2), bare(61, 0)].repeat(leaves - 1);
    nodes.push(bare(61, 0));
    nodes
}

/// A node over leaves, of so many nodes together.
pub fn flat(size: usize) -> Vec<TreeNode> {
    let mut nodes = vec![bare(61, 0); size];
    nodes[0] = bare(40, size as u32 - 1);
    nodes
}

//! By way of a third version (card 12), through the C convention: trees from anywhere are written and the lists lifted further, and studios
//! with a mistake put in are found out. Without the static library nothing of this is built.
#![cfg(library)]

use compare::lifting_again::{Library, Lifting, Studio, Tally};
use compare::plain_trees::{self, bare, close_anywhere, every_tree};
use compare::reading::Expected;
use compare::rereading::{Lists, reread};
use compare::writer_model::{self, Tree, Written};
use oracle::generate::Rng;
use oracle::lines::case_of;
use oracle::refusal::Call;
use oracle::words::{
    Case, NODE_WORDS, Token, TreeNode, decode_list, decode_tree, list_words, tree_words,
};

/// Plain trees of any spans, a third of them scripts, in half of which every node closes anywhere.
fn trees(seed: u64) -> impl Iterator<Item = Vec<TreeNode>> {
    let mut rng = Rng::new(seed);
    std::iter::from_fn(move || {
        let most = if rng.chance(2) { 600 } else { 20 };
        let size = 1 + rng.below(most);
        let mut nodes = plain_trees::any(&mut rng, size);
        if rng.chance(50) {
            close_anywhere(&mut rng, &mut nodes);
        }
        Some(nodes)
    })
}

/// Writes a tree and lifts what is written.
fn lifted(lifting: &mut Lifting<impl Studio>, nodes: &[TreeNode]) -> Result<Written, String> {
    // No node is written as more than four tokens.
    lifting.tree(&tree_words(nodes), 20 * nodes.len())
}

/// What came of trees that are all lifted without a difference.
fn all_lifted(trees: impl Iterator<Item = Vec<TreeNode>>) -> Tally {
    let mut lifting = Lifting::new(3);
    for nodes in trees {
        if let Err(difference) = lifted(&mut lifting, &nodes) {
            panic!("{difference}\nof {nodes:?}");
        }
    }
    lifting.tally
}

#[test]
fn trees_that_close_anywhere() {
    let tally = all_lifted(trees(1).take(60_000));
    assert!(tally.lists > 50_000, "{tally:?}");
    assert!(tally.unsettled > 20_000, "{tally:?}");
    assert!(tally.too_deep > 50_000, "{tally:?}");
}

#[test]
fn every_small_tree() {
    let mut small = Vec::new();
    every_tree(&[4, 7, 9, 40, 61, 73, 71], 5, |nodes| {
        // No two spans are alike, and no node closes where it ends.
        let dressed = nodes.iter().zip(0..).map(|(&(op, children), place)| {
            let mut node = bare(op, children);
            (node.token.start, node.token.end) = (2 * place, 2 * place + 1);
            node.close = 99 - place;
            node
        });
        small.push(dressed.collect());
    });
    let tally = all_lifted(small.into_iter());
    assert!(tally.lists > 200, "{tally:?}");
    assert_eq!(tally.lists, tally.unsettled, "{tally:?}");
}

#[test]
fn the_longest_lists() {
    let not = |levels| [vec![bare(7, 1)], plain_trees::nested_brackets(levels)].concat();
    let longest = [
        not(2_047),
        plain_trees::comma_list(2_048),
        plain_trees::short_statements(2_048),
        plain_trees::right_sums(1_025),
    ];
    assert_eq!(all_lifted(longest.into_iter()).lists, 4);
}

/// The words of the tree that a list is read as.
fn read(library: &mut Library, list: &str, version: i16) -> Vec<u32> {
    let case = Case {
        version,
        ..case_of(list)
    };
    let tree = library.read(&Call::of(&case), &Expected::Something);
    tree.expect("a sound call").expect("a tree")
}

#[test]
fn a_list_that_gets_deeper_than_a_limit_is_turned_back_there() {
    // The list is within the limit 1; what is written of it, ((a + b) + c) + d, is not.
    let mut library = Library::new(2);
    let tree = read(&mut library, "a + b + c + d", 6);
    let (answer, list) = library.write(&tree, 55).expect("the model's list");
    assert_eq!(answer, Written::Tokens(11));
    let tokens = decode_list(&list).expect("a list");
    let brackets: Vec<usize> = (0..11).filter(|&token| tokens[token].op == 4).collect();
    for version in [4, 5, 6] {
        let call = Call::of(&Case::exact(tokens.clone(), version));
        let deep = call.clone().at_limit(1);
        let turned_back = library.read(&deep, &Expected::Refused(18, brackets[1]));
        assert_eq!(turned_back, Ok(None), "at version {version}");
        let within = library.read(&call.at_limit(2), &Expected::Something);
        let again = within.expect("a sound call").expect("a tree");
        let written = library.write(&again, 55);
        assert_eq!(written, Ok((answer, list.clone())), "at version {version}");
    }
}

/// What a wrong studio does otherwise.
#[derive(Copy, Clone, Debug, PartialEq, Eq)]
enum Slip {
    /// Nothing: it makes no mistake.
    Nothing,
    /// A right, or left, operand that is a bracket gets a pair like any other.
    BracketOnTheRight,
    BracketOnTheLeft,
    /// Every operand that is a bracket gets a pair, the bracket of a call too.
    AnyBracket,
    /// An added closer covers the whole extent.
    CloserOverTheExtent,
    /// A bracket's own closer covers what the bracket covers.
    OwnCloserOverTheBracket,
    /// A semicolon has the span of its statement.
    SpanOfTheStatement,
    /// A semicolon has the payload of its statement.
    PayloadOfTheStatement,
    /// A leaf ends where it closes.
    LeafEndsAtItsClose,
    /// The reader has a bracket close at its own end.
    ReadClosesAtTheOpener,
    /// The reader takes one bracket fewer, or any number.
    ReadTooStrictly,
    ReadWithoutALimit,
}

/// A node over its children.
struct Branch {
    node: TreeNode,
    below: Vec<Branch>,
}

impl Branch {
    fn next(nodes: &mut impl Iterator<Item = TreeNode>) -> Self {
        let node = nodes.next().expect("one whole tree");
        let below = (0..node.children).map(|_| Self::next(nodes)).collect();
        Self { node, below }
    }

    fn op(&self) -> u16 {
        self.node.token.op
    }

    /// The lowest start and the highest end.
    fn extent(&self) -> (u32, u32) {
        let Token { start, end, .. } = self.node.token;
        let below = self.below.iter().map(Self::extent);
        below.fold((start, end), |(low, high), (start, end)| {
            (low.min(start), high.max(end))
        })
    }
}

fn bracket(op: u16, start: u32, end: u32) -> Token {
    Token {
        op,
        start,
        end,
        ..Token::default()
    }
}

impl Slip {
    /// The tokens of a plain tree, as a writer with this mistake has them.
    fn written(self, tree: &Branch, list: &mut Vec<Token>) {
        let own = tree.node.token;
        match &tree.below[..] {
            [] if self == Self::LeafEndsAtItsClose && own.op != 4 => list.push(Token {
                end: tree.node.close,
                ..own
            }),
            [left, right] => {
                let comma = own.op == 75 && left.op() == 75;
                let colon = own.op == 59 && right.op() == 60;
                self.operand(left, comma, &[Self::BracketOnTheLeft], list);
                list.push(own);
                self.operand(right, colon, &[Self::BracketOnTheRight], list);
            }
            [only] if own.op != 4 => {
                list.push(own);
                self.operand(only, false, &[], list);
            }
            below => {
                list.push(own);
                below.iter().for_each(|child| self.written(child, list));
            }
        }
        if own.op == 4 {
            let close = tree.node.close;
            let start = match self {
                Self::OwnCloserOverTheBracket => own.start,
                _ => close,
            };
            list.push(bracket(5, start, close));
        }
    }

    /// The same of an operand, which stands alone or gets a pair; these mistakes give one to a bracket here.
    fn operand(self, operand: &Branch, stands: bool, here: &[Self], list: &mut Vec<Token>) {
        let slips = self == Self::AnyBracket || here.contains(&self);
        let alone = if operand.op() == 4 {
            !slips
        } else {
            stands || operand.below.is_empty()
        };
        if alone {
            return self.written(operand, list);
        }
        let (low, high) = operand.extent();
        list.push(bracket(4, low, high));
        self.written(operand, list);
        let start = match self {
            Self::CloserOverTheExtent => low,
            _ => high,
        };
        list.push(bracket(5, start, high));
    }

    /// The tokens of a script.
    fn script(self, root: &Branch) -> Vec<Token> {
        let mut list = Vec::new();
        for statement in &root.below {
            let held = &statement.below[0];
            self.written(held, &mut list);
            let (own, held) = (statement.node.token, held.node.token);
            let span = match self {
                Self::SpanOfTheStatement => own,
                _ => held,
            };
            let semicolon = bracket(73, span.start, span.end);
            list.push(match self {
                Self::PayloadOfTheStatement => Token {
                    variant: own.variant,
                    value: own.value,
                    ..semicolon
                },
                _ => semicolon,
            });
        }
        list
    }

    fn list(self, nodes: Vec<TreeNode>) -> Vec<Token> {
        let tree = Branch::next(&mut nodes.into_iter());
        if tree.op() == 73 {
            return self.script(&tree);
        }
        let mut list = Vec::new();
        self.written(&tree, &mut list);
        list
    }
}

/// The library with a mistake put in.
struct Slipped {
    library: Library,
    slip: Slip,
}

impl Studio for Slipped {
    fn read(&mut self, call: &Call, expected: &Expected) -> Result<Option<Vec<u32>>, String> {
        let mut call = call.clone();
        match self.slip {
            Slip::ReadTooStrictly => call.limit -= u32::from(call.limit > 1),
            Slip::ReadWithoutALimit => call.limit = oracle::nesting::MOST_NESTING,
            _ => {}
        }
        let mut tree = self.library.read(&call, expected)?;
        if let (Slip::ReadClosesAtTheOpener, Some(words)) = (self.slip, &mut tree) {
            for node in words.chunks_mut(NODE_WORDS) {
                node[6] = 7 << 29 | oracle::words::low(node[2]);
            }
        }
        Ok(tree)
    }

    fn write(&mut self, tree: &[u32], room: usize) -> Result<(Written, Vec<u32>), String> {
        let refused = |number, place| (Written::Refused(number, place), Vec::new());
        if let (Written::Refused(number @ (12 | 13), place), _) = writer_model::write(tree, room) {
            return Ok(refused(number, place));
        }
        let list = self.slip.list(decode_tree(tree).expect("one tree"));
        let count = list.len();
        if count > writer_model::MOST_TOKENS {
            return Ok(refused(14, 0));
        }
        if 5 * count > room {
            return Ok(refused(15, 0));
        }
        Ok((Written::Tokens(count), list_words(&list)))
    }
}

fn slipped(slip: Slip) -> Lifting<Slipped> {
    let library = Library::new(4);
    Lifting::by(Slipped { library, slip }, 5)
}

#[test]
fn the_writer_that_mistakes_are_put_into_has_none() {
    for nodes in trees(6).take(20_000) {
        let list = Tree::of(&nodes).written();
        assert_eq!(Slip::Nothing.list(nodes), list);
    }
    let mut lifting = slipped(Slip::Nothing);
    for nodes in trees(7).take(5_000) {
        lifted(&mut lifting, &nodes).expect("no difference");
    }
}

/// How the first of these differs that does; that is printed (`--nocapture`).
fn first_difference(name: &str, all: impl Iterator<Item = Result<(), String>>) -> Option<String> {
    let mut all = all.enumerate();
    let (number, why) = all.find_map(|(number, one)| Some((number, one.err()?)))?;
    println!("{name}: after {number}\n{why}");
    Some(why)
}

/// Whether a difference is found in lists that are read and written with this mistake, and in trees that are written with it.
fn differences(slip: Slip) -> [Option<String>; 2] {
    let mut lifting = slipped(slip);
    let lists = Lists::new(8).zip(Lists::scripts(9));
    let lists = lists.flat_map(|(one, other)| [one, other]).take(10_000);
    let lists = lists.map(|case| reread(&mut lifting, &case).map(|_| ()));
    let of_lists = first_difference(&format!("{slip:?}, lists"), lists);
    let mut lifting = slipped(slip);
    let trees = trees(10).take(10_000);
    let trees = trees.map(|nodes| lifted(&mut lifting, &nodes).map(|_| ()));
    let of_trees = first_difference(&format!("{slip:?}, trees"), trees);
    [of_lists, of_trees]
}

#[test]
fn mistakes_are_found() {
    use Slip::*;
    const LIST: Option<&str> = Some("another list after");
    const TREE: Option<&str> = Some("another tree of");
    const DEPTH: Option<&str> = Some("the answer is");
    // What tells of each mistake, in lists that are read and in trees from anywhere.
    let slips = [
        // The list grows with each lift, and no tree tells: demand 3 holds of these two.
        (BracketOnTheRight, LIST, LIST),
        (BracketOnTheLeft, LIST, LIST),
        (AnyBracket, TREE, TREE),
        (CloserOverTheExtent, LIST, LIST),
        (OwnCloserOverTheBracket, LIST, LIST),
        (SpanOfTheStatement, LIST, LIST),
        // What no reading gives is in trees from anywhere only.
        (PayloadOfTheStatement, None, LIST),
        (LeafEndsAtItsClose, None, TREE),
        (ReadClosesAtTheOpener, None, TREE),
        (ReadTooStrictly, DEPTH, DEPTH),
        (ReadWithoutALimit, DEPTH, DEPTH),
    ];
    for (slip, of_lists, of_trees) in slips {
        let found = differences(slip);
        for (found, told) in found.iter().zip([of_lists, of_trees]) {
            let as_told = match (found, told) {
                (Some(why), Some(told)) => why.starts_with(told),
                (found, told) => found.is_none() && told.is_none(),
            };
            assert!(as_told, "{slip:?}: {found:?} and not {told:?}");
        }
    }
}

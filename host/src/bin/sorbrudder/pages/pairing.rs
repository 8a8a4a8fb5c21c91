//! Which nodes two versions pair otherwise, and the parts of the list that these make up. Trees here are of a numbered list.

use sorbrudder::{Node, Reader, Rule, Tokens, Tree};
use std::collections::HashMap;
use std::ops::Range;

/// The rules that pair one kind of operators. What a version changes, it changes within one family.
#[derive(Copy, Clone, Debug, PartialEq, Eq, PartialOrd, Ord, Hash)]
pub enum Family {
    Conditional,
    AndOr,
    Comparison,
    Other,
}

impl Family {
    /// The family of the rule that the library names.
    pub fn of(rule: Rule) -> Self {
        match rule {
            Rule::Conditional => Self::Conditional,
            Rule::And | Rule::Or => Self::AndOr,
            Rule::Comparison | Rule::Equality => Self::Comparison,
            _ => Self::Other,
        }
    }

    pub fn name(self) -> &'static str {
        match self {
            Self::Conditional => "nested conditionals",
            Self::AndOr => "AND and OR",
            Self::Comparison => "comparisons and equality",
            Self::Other => "other rules",
        }
    }

    /// What a version does with the operators of the family: what it makes of a short list says so.
    pub fn habit(self, version: i16) -> &'static str {
        match self {
            Self::Conditional
                if has_rule_below("a ? b : c ? d : e", version, Rule::Conditional) =>
            {
                "pairs every `:` first, and then every `?` from the left"
            }
            Self::Conditional => "takes `?` and `:` together, nested to the right",
            Self::AndOr if has_rule_below("a && b || c", version, Rule::And) => {
                "pairs `&&` before `||`"
            }
            Self::AndOr => "pairs `||` before `&&`",
            Self::Comparison if has_rule_below("a > b == c", version, Rule::Comparison) => {
                "pairs comparisons before equalities, each from the left"
            }
            Self::Comparison => {
                "pairs comparisons one sign after the other, in the order `<` `==` `>=` `>` `<=` `!=`"
            }
            Self::Other => "pairs it by other rules",
        }
    }
}

/// Whether the left operand of a list's root was paired by this rule.
fn has_rule_below(list: &str, version: i16, rule: Rule) -> bool {
    let list: Tokens = list.parse().unwrap_or_default();
    let tree = Reader::new().read_with_rules(&list, version);
    tree.is_ok_and(|tree| tree.root().child(0).and_then(Node::rule) == Some(rule))
}

/// A part of a list that is paired otherwise: a row of operators of one family.
#[derive(Clone, Debug, PartialEq, Eq)]
pub struct Part {
    pub family: Family,
    /// The tokens that it reaches over.
    pub tokens: Range<usize>,
}

/// A node of a tree, for the pages.
#[derive(Clone, Debug)]
pub struct Mark {
    /// The number of the token that the node stands for.
    pub token: usize,
    /// The tokens that the node and all below it reach over.
    pub tokens: Range<usize>,
    /// The part that it belongs to.
    pub part: Option<usize>,
    /// Whether it is paired otherwise.
    pub differs: bool,
}

/// What two trees of a numbered list pair otherwise.
pub struct Pairing {
    pub parts: Vec<Part>,
    /// The nodes of the old tree and of the new one, by their numbers.
    pub marks: [Vec<Mark>; 2],
}

/// What stays the same of a node from version to version: its operator, its token, and how many such stand before it.
type Key = (u16, u32, usize);

impl Pairing {
    pub fn of(old: &Tree, new: &Tree) -> Self {
        let trees = [old, new];
        let mut marks = trees.map(marks);
        let keys = trees.map(keys);
        mark(trees, &keys, &mut marks);
        let mut runs = Runs::default();
        for (tree, keys) in trees.into_iter().zip(&keys) {
            runs.join(tree, keys);
        }
        let parts = runs.parts(trees, &keys, &mut marks);
        Self { parts, marks }
    }

    /// The marks of a tree that is compared with none.
    pub fn alone(tree: &Tree) -> Vec<Mark> {
        marks(tree)
    }
}

/// The nodes of a tree, none of them marked.
fn marks(tree: &Tree) -> Vec<Mark> {
    let mark = |node: Node<'_>| {
        let (start, end) = (node.span().start() as usize, node.span().end() as usize);
        Mark {
            token: start,
            tokens: start..end.max(node.close() as usize),
            part: None,
            differs: false,
        }
    };
    let mut marks: Vec<Mark> = tree.nodes().map(mark).collect();
    // A node comes after all that is above it, so from the end on every node is whole when it is added to its parent.
    for node in tree.nodes().rev() {
        if let Some(parent) = node.parent() {
            let below = marks[node.number()].tokens.clone();
            let tokens = &mut marks[parent.number()].tokens;
            *tokens = tokens.start.min(below.start)..tokens.end.max(below.end);
        }
    }
    marks
}

fn keys(tree: &Tree) -> Vec<Key> {
    let mut before: HashMap<(u16, u32), usize> = HashMap::new();
    let key = |node: Node<'_>| {
        let (op, token) = (node.op().number(), node.span().start());
        let count = before.entry((op, token)).or_default();
        *count += 1;
        (op, token, *count)
    };
    tree.nodes().map(key).collect()
}

/// Marks the nodes whose operands are not the same tokens in both trees.
fn mark([old, new]: [&Tree; 2], keys: &[Vec<Key>; 2], marks: &mut [Vec<Mark>; 2]) {
    let there: HashMap<Key, usize> = keys[1].iter().copied().zip(0..).collect();
    let mut is_met = vec![false; new.len()];
    for (number, key) in keys[0].iter().enumerate() {
        let other = there.get(key).copied();
        let reach = |tree: &Tree, marks: &[Mark], number: usize| {
            let children = tree.node(number).into_iter().flat_map(Node::children);
            children
                .map(|child| marks[child.number()].tokens.clone())
                .collect::<Vec<_>>()
        };
        let own = reach(old, &marks[0], number);
        let differs = other.map_or(!own.is_empty(), |other| own != reach(new, &marks[1], other));
        marks[0][number].differs = differs;
        if let Some(other) = other {
            marks[1][other].differs = differs;
            is_met[other] = true;
        }
    }
    for node in new
        .nodes()
        .filter(|node| !node.is_leaf() && !is_met[node.number()])
    {
        marks[1][node.number()].differs = true;
    }
}

/// Rows of operators of one family, as classes of keys.
#[derive(Default)]
struct Runs {
    number: HashMap<Key, usize>,
    /// For each key another of its row, or itself.
    above: Vec<usize>,
}

impl Runs {
    fn number(&mut self, key: Key) -> usize {
        let next = self.above.len();
        let number = *self.number.entry(key).or_insert(next);
        if number == next {
            self.above.push(next);
        }
        number
    }

    /// The key that stands for a key's row.
    fn first(&mut self, key: Key) -> usize {
        let mut number = self.number(key);
        while self.above[number] != number {
            self.above[number] = self.above[self.above[number]];
            number = self.above[number];
        }
        number
    }

    /// Joins each node with the one above it, where one family paired both.
    fn join(&mut self, tree: &Tree, keys: &[Key]) {
        for node in tree.nodes() {
            let family = |node: Node<'_>| node.rule().map(Family::of);
            let Some(parent) = node
                .parent()
                .filter(|parent| family(*parent) == family(node))
            else {
                continue;
            };
            let (one, other) = (
                self.first(keys[node.number()]),
                self.first(keys[parent.number()]),
            );
            self.above[one.max(other)] = one.min(other);
        }
    }

    /// The rows in which something is paired otherwise, those that reach farthest first, from the left.
    fn parts(
        &mut self,
        trees: [&Tree; 2],
        keys: &[Vec<Key>; 2],
        marks: &mut [Vec<Mark>; 2],
    ) -> Vec<Part> {
        let mut parts: HashMap<usize, Part> = HashMap::new();
        for ((tree, keys), marks) in trees.iter().zip(keys).zip(&*marks) {
            for (node, mark) in tree.nodes().zip(marks).filter(|(_, mark)| mark.differs) {
                let family = node.rule().map_or(Family::Other, Family::of);
                let tokens = mark.tokens.clone();
                let part = parts
                    .entry(self.first(keys[node.number()]))
                    .or_insert(Part { family, tokens });
                let tokens =
                    part.tokens.start.min(mark.tokens.start)..part.tokens.end.max(mark.tokens.end);
                part.tokens = tokens;
            }
        }
        let mut parts: Vec<(usize, Part)> = parts.into_iter().collect();
        parts.sort_by_key(|(run, part)| {
            (part.tokens.start, std::cmp::Reverse(part.tokens.end), *run)
        });
        let place: HashMap<usize, usize> = parts.iter().map(|(run, _)| *run).zip(0..).collect();
        for (keys, marks) in keys.iter().zip(marks) {
            for (key, mark) in keys.iter().zip(marks) {
                mark.part = place.get(&self.first(*key)).copied();
            }
        }
        parts.into_iter().map(|(_, part)| part).collect()
    }
}

#[cfg(test)]
mod tests {
    use super::{Family, Pairing, Part};
    use crate::pages::text::numbered;
    use sorbrudder::{Reader, Tokens, Tree};

    fn pairing(text: &str, versions: [i16; 2]) -> (Tokens, Pairing) {
        let list: Tokens = text.parse().expect("the notation");
        let read = |version| Reader::new().read_with_rules(&numbered(&list), version);
        let [old, new] = versions.map(|version| read(version).expect("a tree"));
        let pairing = Pairing::of(&old, &new);
        (list, pairing)
    }

    /// The operators that are paired otherwise, each with the number of its part, from the left.
    fn marked(text: &str, versions: [i16; 2]) -> String {
        let (list, pairing) = pairing(text, versions);
        let named = pairing.marks.map(|marks| {
            let mut marks: Vec<_> = marks.into_iter().filter(|mark| mark.differs).collect();
            marks.sort_by_key(|mark| mark.token);
            let name = |mark: super::Mark| {
                let part = mark.part.expect("what differs lies in a part") + 1;
                format!("{}{part}", list[mark.token].op)
            };
            marks.into_iter().map(name).collect::<Vec<_>>().join(" ")
        });
        assert_eq!(named[0], named[1], "{text}: both trees have the same marks");
        named[0].clone()
    }

    #[test]
    fn only_what_is_paired_otherwise_is_marked() {
        assert_eq!(marked("a + b * c", [4, 6]), "");
        assert_eq!(marked("a && b || c", [5, 6]), "&&1 ||1");
        assert_eq!(marked("x + y < z && b || c", [5, 6]), "&&1 ||1");
        // The last `:` has the same two operands at both versions.
        assert_eq!(marked("a ? b : c ? d : e", [4, 5]), "?1 :1 ?1");
        assert_eq!(marked("a && b && c || d", [5, 6]), "&&1 ||1");
        assert_eq!(marked("a > b == c", [5, 6]), ">1 ==1");
    }

    #[test]
    fn each_row_of_operators_is_a_part() {
        assert_eq!(
            marked("(a && b || c) + (a > b == c)", [5, 6]),
            "&&1 ||1 >2 ==2"
        );
        assert_eq!(
            marked("a && b || c ? d : e ? f : g", [4, 6]),
            "&&2 ||2 ?1 :1 ?1"
        );
        let (_, pairing) = pairing("a && b || c ? d : e ? f : g", [4, 6]);
        let part = |family, tokens| Part { family, tokens };
        assert_eq!(
            pairing.parts,
            [part(Family::Conditional, 0..13), part(Family::AndOr, 0..5)]
        );
    }

    /// A tree that no row of operators accounts for is none that a version reads: where trees differ, there is a part.
    #[test]
    fn trees_that_differ_have_a_part() {
        let signs = ["&&", "||", "<", "==", ">", "!=", "?", ":", "+", "-"];
        let mut differing = 0;
        for number in 0..signs.len().pow(4) {
            let sign = |place: u32| signs[number / signs.len().pow(place) % signs.len()];
            let text = format!("a {} b {} c {} d {} e", sign(0), sign(1), sign(2), sign(3));
            let list = numbered(&text.parse::<Tokens>().expect("the notation"));
            let read = |version| Reader::new().read_with_rules(&list, version);
            let trees: Vec<Tree> = [4, 5, 6].into_iter().flat_map(read).collect();
            for pair in trees.windows(2) {
                let parts = Pairing::of(&pair[0], &pair[1]).parts;
                assert_eq!(parts.is_empty(), pair[0] == pair[1], "{text}");
                assert!(
                    parts.iter().all(|part| part.family != Family::Other),
                    "{text}"
                );
                differing += usize::from(!parts.is_empty());
            }
        }
        assert!(differing > 1000, "{differing}");
    }

    /// The order that the sentence on comparisons names is the one that the library pairs them in.
    #[test]
    fn the_sentences_say_what_the_library_does() {
        let signs = ["<", "==", ">=", ">", "<=", "!="];
        for (place, first) in signs.iter().enumerate() {
            for later in &signs[place + 1..] {
                let list: Tokens = format!("a {later} b {first} c")
                    .parse()
                    .expect("the notation");
                let root = |version| {
                    Reader::new()
                        .read(&list, version)
                        .expect("a tree")
                        .root()
                        .op()
                        .text()
                };
                assert_eq!(root(5), *later, "{first} before {later}");
            }
        }
        let order = signs.map(|sign| format!("`{sign}`")).join(" ");
        for below in [-1, 0, 4, 5] {
            assert!(Family::Comparison.habit(below).ends_with(&order));
            assert_eq!(Family::AndOr.habit(below), "pairs `||` before `&&`");
        }
        for from in [6, 7, 13, 100] {
            assert!(
                Family::Comparison
                    .habit(from)
                    .starts_with("pairs comparisons before equalities")
            );
            assert_eq!(Family::AndOr.habit(from), "pairs `&&` before `||`");
        }
        assert!(
            Family::Conditional
                .habit(4)
                .starts_with("pairs every `:` first")
        );
        assert!(
            Family::Conditional
                .habit(5)
                .ends_with("nested to the right")
        );
    }
}

//! Plain, writing and taking away, from document 01's 'Writing a plain tree', lines 12 to 15 of its table, and cards 1,
//! 2, 3 and 7. Nothing here follows the library: trees are an arena of nodes, each with its parent, answer 12 asks of a prefix
//! of the words whether any tree goes on from it, and the extent of an operand is looked for anew at each added pair. Plain
//! is judged twice: a node at a time by its neighbours' operators, and from the root down by card 1's sentence.

use oracle::words::{NODE_WORDS, TOKEN_WORDS, Token, TreeNode, decode_tree, kind, list_words, low};

/// The most nodes of a tree, and the most tokens of a list.
pub const MOST_NODES: usize = 12_288;
pub const MOST_TOKENS: usize = 4_096;

/// A script's root and statements, and what is written after each.
pub const SEMICOLON: u16 = 73;

/// What the write entry answers.
#[derive(Copy, Clone, Debug, PartialEq, Eq)]
pub enum Written {
    /// So many tokens fill the list's front.
    Tokens(usize),
    /// An answer's number and its place.
    Refused(u32, usize),
}

/// A tree's nodes in tree order, each with its children and its position under its parent.
pub struct Tree {
    tokens: Vec<Token>,
    /// Where each node closes.
    closes: Vec<u32>,
    children: Vec<Vec<usize>>,
    /// The parent and which of its children this is; none for the root.
    parents: Vec<Option<(usize, usize)>>,
}

impl Tree {
    /// The tree of nodes that stand parent first.
    pub fn of(nodes: &[TreeNode]) -> Self {
        let mut tree = Self {
            tokens: nodes.iter().map(|node| node.token).collect(),
            closes: nodes.iter().map(|node| node.close).collect(),
            children: vec![Vec::new(); nodes.len()],
            parents: vec![None; nodes.len()],
        };
        // The nodes whose children are still coming.
        let mut open: Vec<usize> = Vec::new();
        for number in 0..nodes.len() {
            if let Some(&parent) = open.last() {
                tree.parents[number] = Some((parent, tree.children[parent].len()));
                tree.children[parent].push(number);
            }
            open.push(number);
            while let Some(&last) = open.last() {
                if tree.children[last].len() < nodes[last].children as usize {
                    break;
                }
                open.pop();
            }
        }
        tree
    }

    fn op(&self, node: usize) -> u16 {
        self.tokens[node].op
    }

    fn is_bracket(&self, node: usize) -> bool {
        self.op(node) == 4
    }

    fn is_semicolon(&self, node: usize) -> bool {
        self.op(node) == SEMICOLON
    }

    /// Whether the node has one of document 01's plain forms, all of them of expressions, or is a host's leaf.
    fn is_expression(&self, node: usize) -> bool {
        let op = self.op(node);
        let parent = self.parents[node].map(|(parent, child)| (self.op(parent), child));
        match *self.children[node] {
            [] => match op {
                40 | 42..=44 | 46..=49 | 61 | 62 | 76 | 256..=1023 => true,
                4 => parent.is_some_and(|(parent, _)| is_math_call(parent)),
                _ => false,
            },
            [only] => match op {
                4 | 6 | 7 => true,
                _ => is_call(op) && self.is_bracket(only),
            },
            [_, _] => match op {
                9 | 20 | 31 | 50..=59 | 75 => true,
                60 => parent == Some((59, 1)),
                _ => false,
            },
            _ => false,
        }
    }

    /// Whether the node has a plain form, by its own, its parent's and its children's operators. A semicolon is blamed only
    /// where its child could not be: as root for children that are none, else for a child that is one, or for their number.
    fn is_plain(&self, node: usize) -> bool {
        let under_semicolon = match self.parents[node] {
            None => false,
            Some((parent, _)) => self.is_semicolon(parent),
        };
        match (self.op(node), &self.children[node][..]) {
            (SEMICOLON, []) => false,
            (SEMICOLON, below) if node == 0 => below.iter().all(|&child| self.is_semicolon(child)),
            (SEMICOLON, &[only]) => under_semicolon && !self.is_semicolon(only),
            (SEMICOLON, _) => false,
            (71, [_, _]) | (74, [_]) => under_semicolon,
            _ => self.is_expression(node),
        }
    }

    /// The first of a tree's nodes that is no plain expression; the tree's numbers follow its root's.
    fn no_expression(&self, root: usize) -> Option<usize> {
        let mut last = root;
        while let Some(&child) = self.children[last].last() {
            last = child;
        }
        (root..=last).find(|&node| !self.is_expression(node))
    }

    /// What is not plain of a statement: it has one child, a plain expression, a 71 over two or a 74 over one.
    fn no_statement(&self, statement: usize) -> Option<usize> {
        let [held] = *self.children[statement] else {
            return Some(statement);
        };
        match (self.op(held), &self.children[held][..]) {
            (SEMICOLON, _) => Some(statement),
            (71, &[left, right]) => self
                .no_expression(left)
                .or_else(|| self.no_expression(right)),
            (74, &[only]) => self.no_expression(only),
            _ => self.no_expression(held),
        }
    }

    /// The number of the first node that is not plain, by card 1's sentence from the root down.
    pub fn unplain_by_the_sentence(&self) -> Option<usize> {
        if !self.is_semicolon(0) {
            return self.no_expression(0);
        }
        let statements = &self.children[0];
        if statements.is_empty() || !statements.iter().all(|&child| self.is_semicolon(child)) {
            return Some(0);
        }
        let mut faults = statements.iter();
        faults.find_map(|&statement| self.no_statement(statement))
    }

    /// Whether the node is written inside an added pair.
    fn is_paired(&self, node: usize) -> bool {
        let Some((parent, child)) = self.parents[node] else {
            return false;
        };
        if self.children[node].is_empty() || self.is_bracket(node) || self.is_bracket(parent) {
            return false;
        }
        if self.is_semicolon(parent) {
            return false;
        }
        !matches!(
            (self.op(parent), child, self.op(node)),
            (59, 1, 60) | (75, 0, 75)
        )
    }

    /// The lowest start and the highest end among the spans of a node and all below it.
    pub fn extent(&self, node: usize) -> (u32, u32) {
        let mut below = vec![node];
        let (mut low, mut high) = (u32::MAX, 0);
        while let Some(next) = below.pop() {
            low = low.min(self.tokens[next].start);
            high = high.max(self.tokens[next].end);
            below.extend(&self.children[next]);
        }
        (low, high)
    }

    /// The number of the first node that is not plain, a node at a time.
    pub fn unplain(&self) -> Option<usize> {
        (0..self.tokens.len()).find(|&node| !self.is_plain(node))
    }

    /// How many tokens a plain tree is written as: each node but the root of a script (a statement is its semicolon), a
    /// closer for each bracket, the added pairs.
    fn written_count(&self) -> usize {
        let tokens =
            |node| 1 + usize::from(self.is_bracket(node)) + 2 * usize::from(self.is_paired(node));
        let all: usize = (0..self.tokens.len()).map(tokens).sum();
        all - usize::from(self.is_semicolon(0))
    }

    /// The tokens of a plain tree.
    pub fn written(&self) -> Vec<Token> {
        enum Step {
            Node(usize),
            Put(Token),
        }
        let mut list = Vec::new();
        // What is still to be written, the next on top.
        let mut steps = vec![Step::Node(0)];
        while let Some(step) = steps.pop() {
            let node = match step {
                Step::Put(token) => {
                    list.push(token);
                    continue;
                }
                Step::Node(node) => node,
            };
            let own = self.tokens[node];
            let pair = self.is_paired(node).then(|| self.extent(node));
            let mut row = Vec::new();
            if let Some((start, end)) = pair {
                row.push(Step::Put(spanning(4, start, end)));
            }
            match *self.children[node] {
                _ if node == 0 && self.is_semicolon(node) => {
                    row.extend(self.children[node].iter().map(|&child| Step::Node(child)));
                }
                [held] if self.is_semicolon(node) => {
                    let span = self.tokens[held];
                    let semicolon = spanning(SEMICOLON, span.start, span.end);
                    row.extend([Step::Node(held), Step::Put(semicolon)]);
                }
                [left, right] => {
                    row.extend([Step::Node(left), Step::Put(own), Step::Node(right)]);
                }
                _ => {
                    row.push(Step::Put(own));
                    row.extend(self.children[node].iter().map(|&child| Step::Node(child)));
                }
            }
            if self.is_bracket(node) {
                // The closer of a bracket of the tree starts and ends where the bracket closes.
                row.push(Step::Put(spanning(5, self.closes[node], self.closes[node])));
            }
            if let Some((_, end)) = pair {
                row.push(Step::Put(spanning(5, end, end)));
            }
            steps.extend(row.into_iter().rev());
        }
        list
    }

    /// The nodes of the tree without the brackets that are taken away.
    pub fn taken_away(&self) -> Vec<TreeNode> {
        let stays = |node: usize| {
            !self.is_bracket(node)
                || self.children[node].len() != 1
                || self.parents[node].is_some_and(|(parent, _)| is_call(self.op(parent)))
        };
        // A bracket's one child stands in its place, so no count changes.
        let kept = (0..self.tokens.len()).filter(|&node| stays(node));
        kept.map(|node| TreeNode {
            token: self.tokens[node],
            children: self.children[node].len() as u32,
            close: self.closes[node],
        })
        .collect()
    }

    /// What is compared of the tree: its brackets are taken away, and where its root is a semicolon nothing but the operator
    /// and the children of a semicolon counts.
    pub fn compared(&self) -> Vec<TreeNode> {
        let mut nodes = self.taken_away();
        if nodes.first().is_some_and(|root| root.token.op == SEMICOLON) {
            for node in nodes.iter_mut().filter(|node| node.token.op == SEMICOLON) {
                (node.token, node.close) = (spanning(SEMICOLON, 0, 0), 0);
            }
        }
        nodes
    }
}

fn is_math_call(op: u16) -> bool {
    matches!(op, 8 | 10..=19 | 21..=30 | 32..=39 | 78..=110)
}

/// Whether the operator is a query or a math call.
pub fn is_call(op: u16) -> bool {
    op == 40 || is_math_call(op)
}

/// A token with payload 0.
fn spanning(op: u16, start: u32, end: u32) -> Token {
    Token {
        op,
        variant: 0,
        value: 0,
        start,
        end,
    }
}

/// Whether these are the seven words of a node.
pub fn is_node(words: &[u32]) -> bool {
    let (token, &[count, close]) = words.split_at(TOKEN_WORDS) else {
        return false;
    };
    let counts = kind(count) == 6 && low(count) < 1 << 14;
    Token::of_words(token).is_some() && counts && kind(close) == 7
}

/// A node that is cut off goes on with words that are legal after those it has; without its count it has so many children.
pub fn completed(cut: &[u32], children: usize) -> [u32; NODE_WORDS] {
    let mut whole = [1, 2, 3, 4, 5, 6, 7].map(|kind| kind << 29);
    whole[TOKEN_WORDS] |= children as u32;
    whole[..cut.len()].copy_from_slice(cut);
    whole
}

/// Whether some tree of at most 12,288 nodes begins with these words.
fn begins_a_tree(words: &[u32]) -> bool {
    let (mut called, mut begun) = (1, 0);
    for node in words.chunks(NODE_WORDS) {
        begun += 1;
        let whole = completed(node, 0);
        if !is_node(&whole) || called < begun {
            return false;
        }
        called += low(whole[TOKEN_WORDS]) as usize;
        if called > MOST_NODES {
            return false;
        }
    }
    true
}

/// How many of the words some tree begins with, where `begins` says it of a prefix of them. What begins no tree begins none however
/// it goes on.
pub fn longest_beginning(words: &[u32], begins: impl Fn(&[u32]) -> bool) -> usize {
    if begins(words) {
        return words.len();
    }
    let (mut good, mut bad) = (0, words.len());
    while bad - good > 1 {
        let middle = good.midpoint(bad);
        if begins(&words[..middle]) {
            good = middle;
        } else {
            bad = middle;
        }
    }
    good
}

/// Answer 12's place.
pub fn shape_fault(words: &[u32]) -> Option<usize> {
    let place = longest_beginning(words, begins_a_tree);
    (place < words.len() || decode_tree(words).is_none()).then_some(place)
}

/// What the write entry answers, and the words that it puts in front of a list of `room` words.
pub fn write(words: &[u32], room: usize) -> (Written, Vec<u32>) {
    let refused = |number, place| (Written::Refused(number, place), Vec::new());
    if let Some(place) = shape_fault(words) {
        return refused(12, place);
    }
    let tree = Tree::of(&decode_tree(words).expect("the words are one tree"));
    let unplain = tree.unplain();
    assert_eq!(unplain, tree.unplain_by_the_sentence(), "{words:x?}");
    if let Some(node) = unplain {
        return refused(13, node);
    }
    let count = tree.written_count();
    if count > MOST_TOKENS {
        return refused(14, 0);
    }
    if room < TOKEN_WORDS * count {
        return refused(15, 0);
    }
    let list = tree.written();
    assert_eq!(list.len(), count, "tokens of {words:x?}");
    (Written::Tokens(count), list_words(&list))
}

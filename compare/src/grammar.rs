//! Texts of the grammar with their trees, written from docs/GRAMMAR.md and not from the definition or the passes: its table of precedence,
//! its EBNF, what holds beside the ranks, and its table of trees. No pass is followed here: a text is drawn from the left, each token where
//! the grammar puts it, and its tree is laid from the text's own parts.

use oracle::generate::{Rng, dress};
use oracle::words::{Case, FULL_SET, LAST_OP, Token, TreeNode, bit, exact_set};

const MINUS: u16 = 6;
const NOT: u16 = 7;
const PLUS: u16 = 9;
const QUERY: u16 = 40;
const ARRAY: u16 = 41;
const ACCESSOR: u16 = 45;
const CHOICE: u16 = 59;
const ELSE: u16 = 60;
const INDEXED: u16 = 63;
const LOOPS: [u16; 2] = [67, 68];
const ASSIGN: u16 = 71;
const ARROW: u16 = 72;
const SEMICOLON: u16 = 73;
const RETURN: u16 = 74;
const BRACES: [u16; 2] = [0, 1];
const BRACKETS: [u16; 2] = [2, 3];
const PARENTHESES: [u16; 2] = [4, 5];

/// OPERAND, the hosts' own names apart.
const OPERANDS: [u16; 21] = [
    40, 41, 42, 43, 44, 46, 47, 48, 49, 61, 62, 63, 64, 65, 66, 67, 68, 69, 70, 76, 77,
];
/// OPERAND that no binary minus stands behind.
const NO_MINUS_AFTER: [u16; 5] = [67, 68, 69, 70, 77];
/// BASE of a member.
const BASES: [u16; 4] = [40, 42, 43, 44];

/// MATH: 8, 10-19, 21-30, 32-39, 78-110.
pub fn is_math(op: u16) -> bool {
    matches!(op, 8 | 10..=19 | 21..=30 | 32..=39 | 78..=110)
}

/// A row of the table of precedence.
#[derive(Copy, Clone)]
enum Level {
    /// Operators that bind alike and pair to the left.
    Left(&'static [u16]),
    /// `+` and the binary `-`.
    Sum,
    /// `? :`, to the right.
    Conditional,
}

/// The rows from division to assignment, the tightest first: up to 4, at 5 and from 6.
fn levels(version: i16) -> &'static [Level] {
    use Level::{Conditional, Left, Sum};
    const UP_TO_4: [Level; 16] = [
        Left(&[20]),
        Left(&[31]),
        Sum,
        Left(&[50]),
        Left(&[54]),
        Left(&[52]),
        Left(&[53]),
        Left(&[51]),
        Left(&[55]),
        Left(&[56]),
        Left(&[57]),
        Left(&[ELSE]),
        Left(&[CHOICE]),
        Left(&[58]),
        Left(&[75]),
        Left(&[ASSIGN]),
    ];
    const AT_5: [Level; 15] = [
        Left(&[20]),
        Left(&[31]),
        Sum,
        Left(&[50]),
        Left(&[54]),
        Left(&[52]),
        Left(&[53]),
        Left(&[51]),
        Left(&[55]),
        Left(&[56]),
        Left(&[57]),
        Conditional,
        Left(&[58]),
        Left(&[75]),
        Left(&[ASSIGN]),
    ];
    const FROM_6: [Level; 11] = [
        Left(&[20]),
        Left(&[31]),
        Sum,
        Left(&[50, 51, 52, 53]),
        Left(&[54, 55]),
        Left(&[57]),
        Left(&[56]),
        Conditional,
        Left(&[58]),
        Left(&[75]),
        Left(&[ASSIGN]),
    ];
    match version {
        i16::MIN..=4 => &UP_TO_4,
        5 => &AT_5,
        6.. => &FROM_6,
    }
}

/// A token's place in the list.
type Place = usize;

/// An expression; each token is named by its place.
enum Text {
    Operand(Place),
    /// A base and how many accessors follow it.
    Member(Place, usize),
    Section(Bracket),
    /// A query, a loop or a math call.
    Call(Place, Bracket),
    Index(Place, Box<List>),
    Arrow(Box<Text>, Place, Box<Text>),
    Prefix(Place, Box<Text>),
    Infix(Box<Text>, Place, Box<Text>),
    /// A binary minus.
    Minus(Box<Text>, Place, Box<Text>),
    /// The pair `- -`, named by its first.
    Minuses(Box<Text>, Place, Box<Text>),
    /// `a ? b`, from 5.
    Choice(Box<Text>, Place, Box<Text>),
    /// `a ? b : c`, from 5.
    Chosen(Box<Text>, Place, Box<Text>, Place, Box<Text>),
}

/// A bracket with what is in it; only a math call's is empty.
struct Bracket {
    opener: Place,
    list: Option<Box<List>>,
    closer: Place,
}

struct Statement {
    returned: Option<Place>,
    text: Text,
}

enum List {
    Statement(Statement),
    /// Statements, and the place of the first semicolon.
    Script(Vec<Statement>, Place),
}

impl Text {
    /// Whether a minus behind it is binary.
    fn ends_operand(&self, ops: &[u16]) -> bool {
        match self {
            Self::Operand(place) => !NO_MINUS_AFTER.contains(&ops[*place]),
            Self::Section(bracket) => ops[bracket.opener] != BRACES[0],
            Self::Call(name, _) => !LOOPS.contains(&ops[*name]),
            // The arrow is one item, whatever stands right of it.
            Self::Member(..) | Self::Index(..) | Self::Arrow(..) => true,
            Self::Prefix(_, last)
            | Self::Infix(_, _, last)
            | Self::Minus(_, _, last)
            | Self::Minuses(_, _, last)
            | Self::Choice(_, _, last)
            | Self::Chosen(_, _, _, _, last) => last.ends_operand(ops),
        }
    }

    /// Whether it has an open `?` at its end.
    fn is_open(&self) -> bool {
        match self {
            Self::Choice(..) => true,
            Self::Chosen(_, _, _, _, last) => last.is_open(),
            _ => false,
        }
    }

    /// The token whose span a statement has that begins with it.
    fn first(&self) -> Place {
        match self {
            Self::Operand(place) | Self::Prefix(place, _) => *place,
            Self::Member(base, accessors) => base + accessors,
            Self::Section(bracket) => bracket.opener,
            Self::Call(name, _) | Self::Index(name, _) => *name,
            Self::Arrow(first, ..)
            | Self::Infix(first, ..)
            | Self::Minus(first, ..)
            | Self::Minuses(first, ..)
            | Self::Choice(first, ..)
            | Self::Chosen(first, ..) => first.first(),
        }
    }
}

/// What may stand in a list.
#[derive(Copy, Clone)]
struct Allowed {
    semicolons: bool,
    assignments: bool,
    returns: bool,
}

/// Texts as they are drawn, from the left.
struct Drawing<'r> {
    rng: &'r mut Rng,
    levels: &'static [Level],
    ops: Vec<u16>,
}

impl Drawing<'_> {
    fn token(&mut self, op: u16) -> Place {
        self.ops.push(op);
        self.ops.len() - 1
    }

    /// A part of `size`, at least 1 and at most all but one.
    fn part(&mut self, size: usize) -> usize {
        1 + self.rng.below(size.max(3) - 2)
    }

    /// A list of about `size` tokens in a bracket.
    fn list(&mut self, size: usize, allowed: Allowed) -> List {
        if allowed.semicolons && self.rng.chance(30) {
            let ended = self.rng.chance(50);
            return self.script(size, allowed, ended);
        }
        List::Statement(self.statement(size, allowed))
    }

    /// Statements with their semicolons; the last one has none if the script is not `ended`.
    fn script(&mut self, size: usize, allowed: Allowed, ended: bool) -> List {
        let (mut statements, mut first) = (Vec::new(), None);
        let mut left = size.max(2);
        while left > 1 {
            let part = 1 + self.rng.below(left - 1);
            left -= part;
            statements.push(self.statement(part, allowed));
            for _ in 0..if self.rng.chance(15) {
                1 + self.rng.below(3)
            } else {
                1
            } {
                let place = self.token(SEMICOLON);
                first.get_or_insert(place);
                left = left.saturating_sub(1);
            }
        }
        if !ended {
            statements.push(self.statement(1 + left, allowed));
        }
        List::Script(statements, first.expect("a statement has a semicolon"))
    }

    fn statement(&mut self, size: usize, allowed: Allowed) -> Statement {
        let returned = (allowed.returns && self.rng.chance(8)).then(|| self.token(RETURN));
        let allowed = Allowed {
            returns: allowed.returns && returned.is_none(),
            ..allowed
        };
        let text = self.expression(size, allowed);
        Statement { returned, text }
    }

    fn expression(&mut self, size: usize, allowed: Allowed) -> Text {
        let levels = self.levels.len() - usize::from(!allowed.assignments);
        self.loose(levels, size, true, allowed)
    }

    /// `exp(n)` over the tightest `levels` rows; `minus` says whether it may begin with one.
    fn loose(&mut self, levels: usize, size: usize, minus: bool, allowed: Allowed) -> Text {
        if levels == 0 || size < 3 || self.rng.chance(15) {
            return self.unary(size, minus, allowed);
        }
        let level = self.level(levels);
        let part = self.part(size);
        let rest = size - 1 - part.min(size - 2);
        match self.levels[level] {
            Level::Left(ops) => {
                let left = self.loose(level + 1, part, minus, allowed);
                let op = *self.rng.pick(ops);
                let place = self.token(op);
                let right = self.loose(level, rest, true, allowed);
                Text::Infix(left.into(), place, right.into())
            }
            Level::Sum => {
                let left = self.loose(level + 1, part, minus, allowed);
                self.sum(left, level, rest, allowed)
            }
            Level::Conditional => {
                let asked = self.loose(level, part, minus, allowed);
                self.conditional(asked, level, rest, allowed)
            }
        }
    }

    /// One of the tightest `levels` rows; those that versions have otherwise more often, the conditional most of them.
    fn level(&mut self, levels: usize) -> usize {
        let rows = &self.levels[..levels];
        let weight = |level: &Level| match level {
            Level::Conditional | Level::Left([ELSE | CHOICE]) => 8,
            Level::Left([50..=57, ..]) => 2,
            _ => 1,
        };
        let weights: Vec<usize> = rows.iter().map(weight).collect();
        self.rng.weighted(&weights)
    }

    fn sum(&mut self, left: Text, level: usize, size: usize, allowed: Allowed) -> Text {
        let (left, minus) = (Box::new(left), self.rng.chance(60));
        if !(minus && left.ends_operand(&self.ops)) {
            let place = self.token(PLUS);
            let right = self.loose(level, size, true, allowed);
            return Text::Infix(left, place, right.into());
        }
        let place = self.token(MINUS);
        let pair = self.rng.chance(20);
        if pair {
            self.token(MINUS);
        }
        let right = Box::new(self.loose(level, size, false, allowed));
        if pair {
            Text::Minuses(left, place, right)
        } else {
            Text::Minus(left, place, right)
        }
    }

    fn conditional(&mut self, asked: Text, level: usize, size: usize, allowed: Allowed) -> Text {
        let choice = self.token(CHOICE);
        let part = self.part(size);
        let middle = self.loose(level + 1, part, true, allowed);
        if middle.is_open() || self.rng.chance(20) {
            return Text::Choice(asked.into(), choice, middle.into());
        }
        let other = self.token(ELSE);
        let rest = size.saturating_sub(part + 1).max(1);
        let last = self.loose(level + 1, rest, true, allowed);
        Text::Chosen(asked.into(), choice, middle.into(), other, last.into())
    }

    fn unary(&mut self, size: usize, minus: bool, allowed: Allowed) -> Text {
        if size > 1 && self.rng.chance(25) {
            let op = if minus && self.rng.chance(60) {
                MINUS
            } else {
                NOT
            };
            let place = self.token(op);
            let operand = self.unary(size - 1, op != MINUS, allowed);
            return Text::Prefix(place, operand.into());
        }
        if size > 2 && self.rng.chance(20) {
            let math: Vec<u16> = (0..=LAST_OP).filter(|op| is_math(*op)).collect();
            let op = *self.rng.pick(&math);
            let name = self.token(op);
            let empty = self.rng.chance(20);
            return Text::Call(name, self.bracket(PARENTHESES, size - 1, allowed, empty));
        }
        self.pointed(size, allowed)
    }

    fn pointed(&mut self, size: usize, allowed: Allowed) -> Text {
        if size < 3 || self.rng.chance(85) {
            return self.item(size, allowed);
        }
        let part = self.part(size);
        let left = self.pointed(part, allowed);
        let place = self.token(ARROW);
        let right = self.item(size - 1 - part, allowed);
        Text::Arrow(left.into(), place, right.into())
    }

    fn item(&mut self, size: usize, allowed: Allowed) -> Text {
        let forms: &[usize] = match size {
            0 | 1 => &[1, 0, 0, 0, 0, 0],
            2 => &[3, 2, 0, 0, 0, 0],
            3 | 4 => &[2, 1, 3, 2, 1, 2],
            _ => &[0, 0, 3, 2, 2, 2],
        };
        match self.rng.weighted(forms) {
            0 => self.operand(),
            1 => {
                let base = *self.rng.pick(&BASES);
                let base = self.token(base);
                let accessors = size - 1;
                (0..accessors).for_each(|_| {
                    self.token(ACCESSOR);
                });
                Text::Member(base, accessors)
            }
            2 => Text::Section(self.bracket(PARENTHESES, size, allowed, false)),
            3 => Text::Section(self.bracket(BRACES, size, allowed, false)),
            4 => self.index(size, allowed),
            _ => self.query(size, allowed),
        }
    }

    fn operand(&mut self) -> Text {
        let op = match self.rng.below(10) {
            0 => 256 + self.rng.below(768) as u16,
            1..4 => 61,
            _ => *self.rng.pick(&OPERANDS),
        };
        Text::Operand(self.token(op))
    }

    fn bracket(&mut self, kind: [u16; 2], size: usize, allowed: Allowed, empty: bool) -> Bracket {
        let opener = self.token(kind[0]);
        let size = size.saturating_sub(2).max(1);
        let list = (!empty).then(|| self.list(size, allowed).into());
        let closer = self.token(kind[1]);
        Bracket {
            opener,
            list,
            closer,
        }
    }

    fn index(&mut self, size: usize, allowed: Allowed) -> Text {
        let name = self.token(ARRAY);
        self.token(BRACKETS[0]);
        let allowed = Allowed {
            semicolons: false,
            ..allowed
        };
        let list = self.list(size.saturating_sub(3).max(1), allowed);
        self.token(BRACKETS[1]);
        Text::Index(name, list.into())
    }

    fn query(&mut self, size: usize, allowed: Allowed) -> Text {
        let op = *self.rng.pick(&[QUERY, QUERY, LOOPS[0], LOOPS[1]]);
        let name = self.token(op);
        let allowed = Allowed {
            semicolons: allowed.semicolons && op != QUERY,
            ..allowed
        };
        Text::Call(name, self.bracket(PARENTHESES, size - 1, allowed, false))
    }
}

/// The nodes of a text, parent first.
struct Laying<'t> {
    tokens: &'t [Token],
    nodes: Vec<TreeNode>,
}

impl Laying<'_> {
    /// A token as a node.
    fn node(&mut self, place: Place, children: u32) {
        self.made(self.tokens[place], children);
    }

    /// A node that closes at its own end.
    fn made(&mut self, token: Token, children: u32) {
        self.nodes.push(TreeNode {
            token,
            children,
            close: token.end,
        });
    }

    /// A node of another operator, without a payload, that has the span of a token.
    fn bare(&mut self, op: u16, place: Place, children: u32) {
        let token = Token {
            op,
            variant: 0,
            value: 0,
            ..self.tokens[place]
        };
        self.made(token, children);
    }

    fn list(&mut self, list: &List) {
        match list {
            List::Statement(statement) => self.statement(statement),
            List::Script(statements, semicolon) => {
                self.bare(SEMICOLON, *semicolon, statements.len() as u32);
                for statement in statements {
                    let first = statement.returned.unwrap_or_else(|| statement.text.first());
                    self.bare(SEMICOLON, first, 1);
                    self.statement(statement);
                }
            }
        }
    }

    fn statement(&mut self, statement: &Statement) {
        if let Some(place) = statement.returned {
            self.node(place, 1);
        }
        self.text(&statement.text, None);
    }

    /// A text, with the minus before it over its first operand.
    fn text(&mut self, text: &Text, minus: Option<Place>) {
        match text {
            Text::Infix(left, place, right) => {
                self.node(*place, 2);
                self.text(left, minus);
                self.text(right, None);
            }
            Text::Minus(left, place, right) | Text::Minuses(left, place, right) => {
                self.made(
                    Token {
                        op: PLUS,
                        ..self.tokens[*place]
                    },
                    2,
                );
                self.text(left, minus);
                let minus = matches!(text, Text::Minus(..)).then_some(*place);
                self.text(right, minus);
            }
            Text::Choice(asked, choice, middle) => {
                self.node(*choice, 2);
                self.text(asked, minus);
                self.text(middle, None);
            }
            Text::Chosen(asked, choice, middle, other, last) => {
                self.node(*choice, 2);
                self.text(asked, minus);
                self.node(*other, 2);
                self.text(middle, None);
                self.text(last, None);
            }
            _ => {
                if let Some(place) = minus {
                    self.bare(MINUS, place, 1);
                }
                self.operand(text);
            }
        }
    }

    /// What binds tighter than every operator between two operands.
    fn operand(&mut self, text: &Text) {
        match text {
            Text::Operand(place) => self.node(*place, 0),
            Text::Member(base, accessors) => {
                (1..=*accessors)
                    .rev()
                    .for_each(|accessor| self.node(base + accessor, 1));
                self.node(*base, 0);
            }
            Text::Section(bracket) => self.bracket(bracket),
            Text::Call(name, bracket) => {
                self.node(*name, 1);
                self.bracket(bracket);
            }
            Text::Index(name, list) => {
                self.made(
                    Token {
                        op: INDEXED,
                        ..self.tokens[*name]
                    },
                    1,
                );
                self.list(list);
            }
            Text::Arrow(left, place, right) => {
                self.node(*place, 2);
                self.operand(left);
                self.operand(right);
            }
            Text::Prefix(place, operand) => {
                self.node(*place, 1);
                self.operand(operand);
            }
            _ => self.text(text, None),
        }
    }

    /// A bracket's node, which closes at its closer's end.
    fn bracket(&mut self, bracket: &Bracket) {
        self.nodes.push(TreeNode {
            token: self.tokens[bracket.opener],
            children: u32::from(bracket.list.is_some()),
            close: self.tokens[bracket.closer].end,
        });
        if let Some(list) = &bracket.list {
            self.list(list);
        }
    }
}

/// A text of the grammar as it is spelled, and its tree.
pub struct Spelled {
    pub case: Case,
    pub tree: Vec<TreeNode>,
}

/// A text of about `size` tokens that is well-formed at a version, under a used set that serves it.
pub fn drawn(rng: &mut Rng, version: i16, size: usize) -> Spelled {
    let ended = rng.chance(40);
    let allowed = Allowed {
        semicolons: ended,
        assignments: ended,
        returns: true,
    };
    let mut drawing = Drawing {
        rng: &mut *rng,
        levels: levels(version),
        ops: Vec::with_capacity(size + 8),
    };
    let list = if ended {
        drawing.script(size, allowed, true)
    } else {
        List::Statement(drawing.statement(size, allowed))
    };
    let ops = drawing.ops;
    let tokens = if rng.chance(50) {
        dress::plain(&ops)
    } else {
        dress::wild(rng, &ops)
    };
    let mut laying = Laying {
        tokens: &tokens,
        nodes: Vec::with_capacity(2 * tokens.len()),
    };
    laying.list(&list);
    let tree = laying.nodes;
    let case = Case {
        used: serving(rng, &tokens, ended),
        source_len: dress::source_len(rng, &tokens),
        version,
        tokens,
    };
    Spelled { case, tree }
}

/// A used set with each operator of the tokens, and some, all or none of the others; `=` and `;` only if the list ends with `;`.
fn serving(rng: &mut Rng, tokens: &[Token], ended: bool) -> (u64, u64) {
    let exact = exact_set(tokens);
    let (mut first, mut second) = match rng.below(4) {
        0 => FULL_SET,
        1 => (rng.bits() & FULL_SET.0, rng.bits() & FULL_SET.1),
        _ => (0, 0),
    };
    if !ended {
        for op in [ASSIGN, SEMICOLON] {
            first &= !bit(op).0;
            second &= !bit(op).1;
        }
    }
    (exact.0 | first, exact.1 | second)
}

//! Lists with answers known beforehand: the lines of document 01's section 'Lists and their
//! trees' that a reader can answer, and what was found where document 01 can be read two ways.
//!
//! A list is written with a space between its tokens: `a` to `e` are floats (61), the other signs
//! are Molang's, `.` is a member accessor (45) and a number is an operator's. The i-th token
//! has the span i to i + 1. A tree is written as document 01 does: `9(a,6(b))`.

use crate::words::{Answer, Case, Record, RustNode, Token, bit};
use std::ops::RangeInclusive;

/// The signs of the notation and their operator numbers.
const SIGNS: [(&str, u16); 28] = [
    ("{", 0),
    ("}", 1),
    ("[", 2),
    ("]", 3),
    ("(", 4),
    (")", 5),
    ("-", 6),
    ("!", 7),
    ("+", 9),
    ("/", 20),
    ("*", 31),
    (".", 45),
    ("<", 50),
    ("<=", 51),
    (">=", 52),
    (">", 53),
    ("==", 54),
    ("!=", 55),
    ("||", 56),
    ("&&", 57),
    ("??", 58),
    ("?", 59),
    (":", 60),
    ("=", 71),
    ("->", 72),
    (";", 73),
    ("return", 74),
    (",", 75),
];

const KEPT_VERSIONS: [i16; 12] = [i16::MIN, -1, 0, 3, 4, 5, 6, 7, 12, 13, 14, i16::MAX];

const FLOAT: u16 = 61;
const LETTERS: &str = "abcde";

/// What a line says.
#[derive(Clone, Debug)]
pub enum Says {
    Tree(&'static str),
    Messages(Vec<Record>),
}

/// A list and what is answered to it.
#[derive(Clone, Debug)]
pub struct Line {
    pub story: &'static str,
    /// The list, at the version that the line names, or 6.
    pub case: Case,
    /// The raw versions at which it is answered like this.
    pub versions: RangeInclusive<i16>,
    pub says: Says,
}

impl Line {
    /// The case at another version.
    pub fn at_version(&self, version: i16) -> Case {
        Case {
            version,
            ..self.case.clone()
        }
    }

    /// The versions at which the line is kept among the vectors.
    pub fn kept_versions(&self) -> impl Iterator<Item = i16> {
        KEPT_VERSIONS
            .into_iter()
            .filter(|version| self.versions.contains(version))
    }

    /// Whether `answer` is what the line says.
    pub fn agrees(&self, answer: &Answer) -> bool {
        match &self.says {
            Says::Tree(tree) => notation(answer.nodes()) == *tree,
            Says::Messages(records) => answer.records() == records,
        }
    }
}

/// The operator number of a sign or number of the notation.
pub fn op_of(sign: &str) -> u16 {
    if LETTERS.contains(sign) {
        return FLOAT;
    }
    SIGNS
        .iter()
        .find(|(known, _)| *known == sign)
        .map_or_else(|| sign.parse().expect("a sign or a number"), |(_, op)| *op)
}

/// The tokens of a list in the notation.
pub fn tokens_of(list: &str) -> Vec<Token> {
    list.split_whitespace()
        .enumerate()
        .map(|(place, sign)| {
            let letter = LETTERS.find(sign);
            Token {
                op: op_of(sign),
                variant: u8::from(letter.is_some()),
                value: letter.map_or(0, |letter| (letter as f32 + 1.0).to_bits()),
                start: place as u32,
                end: place as u32 + 1,
            }
        })
        .collect()
}

/// The list with its exact used set and its length as source length, at version 6.
pub fn case_of(list: &str) -> Case {
    Case::exact(tokens_of(list), 6)
}

/// A tree in the notation.
pub fn notation(nodes: &[RustNode]) -> String {
    let mut text = String::new();
    let mut awaited: Vec<u32> = Vec::new();
    for node in nodes {
        let letter = (0..LETTERS.len()).find(|&letter| {
            let bits = (letter as f32 + 1.0).to_bits();
            (node.token.op, node.token.variant, node.token.value) == (FLOAT, 1, bits)
        });
        match letter {
            Some(letter) => text.push_str(&LETTERS[letter..=letter]),
            None => text.push_str(&node.token.op.to_string()),
        }
        if node.children > 0 {
            text.push('(');
            awaited.push(node.children);
            continue;
        }
        while let Some(left) = awaited.last_mut() {
            *left -= 1;
            if *left > 0 {
                text.push(',');
                break;
            }
            text.push(')');
            awaited.pop();
        }
    }
    text
}

fn record<const N: usize>(number: u32, span: (u32, u32), arguments: [u32; N]) -> Record {
    let mut record = [0; 8];
    (record[0], record[1], record[2]) = (number, span.0, span.1);
    record[3..3 + N].copy_from_slice(&arguments);
    record
}

fn line(list: &'static str, says: Says) -> Line {
    Line {
        story: list,
        case: case_of(list),
        versions: i16::MIN..=i16::MAX,
        says,
    }
}

fn tree(list: &'static str, tree: &'static str) -> Line {
    line(list, Says::Tree(tree))
}

fn messages<const N: usize>(list: &'static str, records: [Record; N]) -> Line {
    line(list, Says::Messages(records.to_vec()))
}

/// The line as it is answered up to a version.
fn to(version: i16, mut line: Line) -> Line {
    line.case.version = version;
    line.versions = i16::MIN..=version;
    line
}

/// The line as it is answered from a version on.
fn from(version: i16, mut line: Line) -> Line {
    line.case.version = version;
    line.versions = version..=i16::MAX;
    line
}

/// The lines of document 01 that a reader answers, in its order.
pub fn lines() -> Vec<Line> {
    vec![
        messages("", [record(1, (0, 0), [0])]),
        tree("a", "a"),
        messages("a b", [record(1, (0, 2), [2])]),
        tree("a - b", "9(a,6(b))"),
        tree("a - - b", "9(a,b)"),
        messages("- - b", [record(12, (0, 1), [9])]),
        tree("a * b / c", "31(a,20(b,c))"),
        to(5, tree("a && b || c", "57(a,56(b,c))")),
        from(6, tree("a && b || c", "56(57(a,b),c)")),
        to(5, tree("a > b == c", "53(a,54(b,c))")),
        from(6, tree("a > b == c", "54(53(a,b),c)")),
        to(4, tree("a ? b : c ? d : e", "59(59(a,60(b,c)),60(d,e))")),
        from(5, tree("a ? b : c ? d : e", "59(a,60(b,59(c,60(d,e))))")),
        tree("a + +", "9(a,9)"),
        tree(")", "5"),
        messages(
            "( a ]",
            [
                record(4, (0, 3), [1, 4, 5, 3, 2]),
                record(5, (0, 1), [5, 4]),
            ],
        ),
        tree("( a b )", "4(a,b)"),
        messages("a ->", [record(12, (1, 2), [72]), record(1, (0, 2), [0])]),
        messages("40 ( )", [record(7, (0, 2), [40])]),
        tree("36 ( )", "36(4)"),
        to(4, tree("a : b", "60(a,b)")),
        from(5, messages("a : b", [record(17, (1, 2), [60])])),
        tree("a + b", "9(a,b)"),
    ]
}

/// What was found where document 01 can be read two ways, each with a smallest list.
pub fn findings() -> Vec<Line> {
    vec![
        named(
            "return takes its operand as it is",
            tree("return ! return", "74(7(74))"),
        ),
        named(
            "return takes a bracket as it is",
            tree("return ( return a ) ;", "73(73(74(4(74,a))))"),
        ),
        named(
            "a brace with children makes the minus after it unary",
            messages("{ a } - b", [record(1, (0, 5), [2])]),
        ),
        named(
            "a loop with children makes the minus after it unary",
            messages("67 ( a ) - b", [record(1, (0, 6), [2])]),
        ),
        named(
            "a bracket with children is an operand before a minus",
            tree("( a ) - b", "9(4(a),6(b))"),
        ),
        named(
            "addition enters the operand that not took",
            messages("! +", [record(12, (1, 2), [9])]),
        ),
        named(
            "addition enters the operands that multiplication took",
            messages("a * +", [record(12, (2, 3), [9])]),
        ),
        named(
            "return enters the operands that addition took",
            tree("return + a", "9(74(a))"),
        ),
        named(
            "an unfolded left side is walked again and fails at its operator",
            messages("a + + + b", [record(12, (2, 3), [9])]),
        ),
        named(
            "the outer operator's missing operand is seen before the left side is walked again",
            messages("a + + +", [record(12, (3, 4), [9])]),
        ),
        named(
            "in a list with semicolons an index keeps its own as leaves",
            tree("[ ; ] ;", "73(73(2(73)))"),
        ),
        named(
            "in a list with semicolons a query's arguments keep theirs as leaves",
            tree("40 ( ; ) ;", "73(73(40(4(73))))"),
        ),
        named(
            "in a list without semicolons an index is entered",
            messages("( [ ; ] ) ;", [record(10, (2, 3), [])]),
        ),
        named(
            "in a list without semicolons a query's arguments are entered",
            tree("( 40 ( a ; ) ) ;", "73(73(4(40(4(73(73(a)))))))"),
        ),
        named(
            "an array takes the contents of all its sections",
            tree("41 [ a ] [ b ]", "63(a,b)"),
        ),
        named(
            "an array's name that ends one section takes the section that begins the next",
            tree("41 [ 41 ] [ [ a ] ]", "63(63(a))"),
        ),
        named(
            "with 67 alone in the used set the call pass does not run",
            with_used(messages("67 (", [record(1, (0, 2), [2])]), &[67]),
        ),
        named(
            "with a query beside it in the used set the call pass runs",
            with_used(messages("67 (", [record(7, (0, 2), [67])]), &[40, 67]),
        ),
        named(
            "a bracket that was not made a section is an empty argument list",
            with_used(tree("36 (", "36(4)"), &[36]),
        ),
        named(
            "a bracket that was not made a section is an empty index",
            with_used(messages("41 [", [record(11, (0, 2), [])]), &[41]),
        ),
        named(
            "with an empty used set no pass runs",
            with_used(tree("-", "6"), &[]),
        ),
        named(
            "an empty list that should end with a semicolon is told so over the whole source",
            with_used(messages("", [record(2, (0, 0), [])]), &[73]),
        ),
        named(
            "a used set with an assignment asks for a semicolon that the list has no use for",
            with_used(messages("a", [record(2, (0, 1), [])]), &[71]),
        ),
        named(
            "a closer is in no extent",
            messages("a ( )", [record(1, (0, 2), [2])]),
        ),
        backwards(),
        named(
            "a math call that is the last token names its host function's value",
            host_function(messages("109", [record(8, (0, 1), [109, 7])])),
        ),
        named(
            "the payload's variant decides over the value, not the operator",
            host_function(messages("36", [record(8, (0, 1), [36, 7])])),
        ),
        named(
            "a math call without a bracket names its host function's value",
            host_function(messages("36 a", [record(9, (0, 1), [36, 7])])),
        ),
        named(
            "messages other than 8 and 9 do not give the host function's value",
            host_function(messages("+", [record(12, (0, 1), [9])])),
        ),
        named(
            "a host's own name is an operand",
            tree("256 + a", "9(256,a)"),
        ),
        named(
            "a minus after a host's own name has two sides",
            tree("1023 - 262", "9(1023,6(262))"),
        ),
        named(
            "a host whose lower eight bits are a minus joins nothing",
            messages("a 262 b", [record(1, (0, 3), [3])]),
        ),
        named(
            "a host whose lower eight bits are a bracket opens and closes nothing",
            tree("( 260 + 261 )", "4(9(260,261))"),
        ),
        named(
            "a host is called with no brackets",
            messages("292 ( a )", [record(1, (0, 3), [2])]),
        ),
        named(
            "a host takes no index",
            messages("297 [ a ]", [record(1, (0, 3), [2])]),
        ),
        named(
            "a host whose lower eight bits are a semicolon ends no statement",
            messages("a = 329", [record(2, (2, 3), [])]),
        ),
        named(
            "a statement may hold a host",
            tree(
                "329 = 587 ; return 842 ;",
                "73(73(71(329,587)),73(74(842)))",
            ),
        ),
    ]
}

/// The first root's start and the last one's end, as they are.
fn backwards() -> Line {
    let mut line = messages("a b", [record(1, (9, 1), [2])]);
    (line.case.tokens[0].start, line.case.tokens[0].end) = (9, 7);
    (line.case.tokens[1].start, line.case.tokens[1].end) = (4, 1);
    named("the span of message 1 may run backwards", line)
}

fn named(story: &'static str, line: Line) -> Line {
    Line { story, ..line }
}

fn with_used(mut line: Line, ops: &[u16]) -> Line {
    line.case.used = ops.iter().fold((0, 0), |used, &op| {
        let bit = bit(op);
        (used.0 | bit.0, used.1 | bit.1)
    });
    line
}

/// The line with the first token's payload a host math function of value 7.
fn host_function(mut line: Line) -> Line {
    (line.case.tokens[0].variant, line.case.tokens[0].value) = (12, 7);
    line
}

//! Stands in for `compile/cx.rs`: messages are kept as records of eight numbers.
//!
//! The pass files hand over their arguments as things to print. The operator table names an
//! operator by its number and the catalogue a host math function by its value, so what they print
//! are numbers: `36`, or `36 '7'` where the node's payload is a host math function. Message 1
//! prints a line per root, so its lines are counted.

use super::ast::{Friendly, Name, Node, Payload, QueryRef, Span};
use super::parse;
use crate::catalog::{MathCatalog, MathRef, QueryIndex};
use crate::diag::LanguageMessage as Msg;
use crate::ops::{ExpressionOp, OpSet};
use crate::version::{MolangVersion, RawVersion};
use crate::words::{Answer, Case, Record, RustNode, Token};
use std::fmt::{Display, Write as _};

/// A pass failed; the reason is already logged.
pub(crate) struct Failed;

pub(crate) type Pass = Result<(), Failed>;

/// What the passes see of a compilation.
pub(crate) struct Cx<'o> {
    math: &'o MathCatalog,
    version: RawVersion,
    whole: Span,
    records: Vec<Record>,
    printed: String,
}

impl<'o> Cx<'o> {
    fn new(math: &'o MathCatalog, case: &Case) -> Self {
        Self {
            math,
            version: RawVersion(case.version),
            whole: Span::new(0, case.source_len),
            records: Vec::new(),
            printed: String::new(),
        }
    }

    pub(super) fn version(&self) -> MolangVersion {
        self.version.effective()
    }

    pub(super) fn whole(&self) -> Span {
        self.whole
    }

    pub(super) fn friendly(&self, node: &Node) -> Friendly<'o> {
        node.friendly(Some(self.math))
    }

    pub(super) fn language(&mut self, message: Msg, span: Span, args: &[&dyn Display]) {
        let number = number_of(message);
        let mut record = [0; 8];
        record[0] = number;
        record[1] = span.start;
        record[2] = span.end;
        for (place, arg) in args.iter().enumerate() {
            self.printed.clear();
            let _ = write!(self.printed, "{arg}");
            if number == 1 {
                record[3 + place] = self.printed.lines().count() as u32;
                continue;
            }
            let (shown, host) = numbers_in(&self.printed);
            record[3 + place] = shown;
            if matches!(number, 8 | 9) {
                record[4 + place] = host;
            }
        }
        self.records.push(record);
    }
}

/// Document 01's number of a message.
fn number_of(message: Msg) -> u32 {
    match message {
        Msg::MultipleRoots => 1,
        Msg::ComplexMustEndWithSemicolon => 2,
        Msg::LeadingMemberAccessor => 3,
        Msg::ClosingMismatch => 4,
        Msg::SectionNotClosed => 5,
        Msg::NoClosingSymbol => 6,
        Msg::EmptyParameterList => 7,
        Msg::MathAtEnd => 8,
        Msg::MathWithoutParenthesis => 9,
        Msg::LeadingSemicolon => 10,
        Msg::EmptyArrayIndex => 11,
        Msg::BinaryAtEnd => 12,
        Msg::NegateWithoutOperand => 13,
        Msg::NotWithoutOperand => 14,
        Msg::UnknownOperation => 15,
        Msg::UnaryWithoutOperand => 16,
        Msg::TernaryWithoutOperands => 17,
        other => panic!("the passes log no {other:?}"),
    }
}

/// The number an argument prints, and the host math function's value after it, or 0.
fn numbers_in(printed: &str) -> (u32, u32) {
    let number = |text: &str| -> u32 {
        text.parse()
            .unwrap_or_else(|_| panic!("an argument prints `{printed}`, not numbers"))
    };
    match printed.split_once(' ') {
        None => (number(printed), 0),
        Some((shown, host)) => (number(shown), number(host.trim_matches('\''))),
    }
}

/// The payload of a token: each variant keeps the 32-bit value as it came.
fn payload(token: &Token) -> Payload {
    let value = token.value;
    let name = || Name::new(value.to_string());
    match token.variant {
        0 => Payload::None,
        1 => Payload::Float(f32::from_bits(value)),
        2 => Payload::Hash(u64::from(value)),
        3 => Payload::Context(name()),
        4 => Payload::Entity(name()),
        5 => Payload::Temp(name()),
        6 => Payload::Member(name()),
        7 => Payload::ArrayVariable(name()),
        8 => Payload::Geometry(name()),
        9 => Payload::Material(name()),
        10 => Payload::Texture(name()),
        11 => Payload::Query(QueryRef {
            index: QueryIndex(value),
            impl_idx: 0,
        }),
        12 => Payload::HostMath(MathRef(value)),
        other => panic!("no payload variant {other}"),
    }
}

/// The variant and value of a payload.
fn variant_and_value(payload: &Payload) -> (u8, u32) {
    let index = |name: &Name| -> u32 { name.as_str().parse().expect("a name is its value") };
    match payload {
        Payload::None => (0, 0),
        Payload::Float(float) => (1, float.to_bits()),
        Payload::Hash(hash) => (2, *hash as u32),
        Payload::Context(name) => (3, index(name)),
        Payload::Entity(name) => (4, index(name)),
        Payload::Temp(name) => (5, index(name)),
        Payload::Member(name) => (6, index(name)),
        Payload::ArrayVariable(name) => (7, index(name)),
        Payload::Geometry(name) => (8, index(name)),
        Payload::Material(name) => (9, index(name)),
        Payload::Texture(name) => (10, index(name)),
        Payload::Query(query) => (11, query.index.0),
        Payload::HostMath(function) => (12, function.0),
    }
}

/// The Rust's operator of a number.
fn operator(number: u16) -> Option<ExpressionOp> {
    ExpressionOp::from_ordinal(u8::try_from(number).ok()?)
}

fn leaf(token: &Token) -> Node {
    let op = operator(token.op).expect("an operator of the Rust's");
    Node::token(op, payload(token), Span::new(token.start, token.end))
}

/// The nodes of a tree, parent first.
pub(crate) fn preorder(root: &Node) -> Vec<RustNode> {
    let mut nodes = Vec::new();
    let mut open = vec![root];
    while let Some(node) = open.pop() {
        let (variant, value) = variant_and_value(&node.value);
        nodes.push(RustNode {
            token: Token {
                op: u16::from(node.op.ordinal()),
                variant,
                value,
                start: node.span.start,
                end: node.span.end,
            },
            children: node.children.len() as u32,
        });
        open.extend(node.children.iter().rev());
    }
    nodes
}

/// What the Rust makes of a list.
pub(crate) fn answer(case: &Case) -> Answer {
    match root(case) {
        Ok(root) => Answer::Tree(preorder(&root)),
        Err(records) => Answer::Messages(records),
    }
}

/// The root that the Rust makes of a list, or its messages.
pub(crate) fn root(case: &Case) -> Result<Node, Vec<Record>> {
    let mut math = MathCatalog::default();
    for token in case.tokens.iter().filter(|token| token.variant == 12) {
        math.declare(token.value);
    }
    let mut cx = Cx::new(&math, case);
    match grouped(&mut cx, case) {
        Some(root) => {
            assert!(cx.records.is_empty(), "a tree comes without a message");
            Ok(root)
        }
        None => Err(cx.records),
    }
}

/// Builds the list, groups it and drops what came of it, with nothing around the Rust: for its timing. Whether it is a
/// tree. No host math function is declared, so no message may have to name one.
pub(crate) fn is_tree(case: &Case) -> bool {
    let math = MathCatalog::default();
    grouped(&mut Cx::new(&math, case), case).is_some()
}

fn grouped(cx: &mut Cx, case: &Case) -> Option<Node> {
    let list = case.tokens.iter().map(leaf).collect();
    let used = OpSet::from_words([case.used.0, case.used.1]);
    parse::group_tokens(cx, list, used)
}

/// Whether the pass of math calls takes this operator.
pub(crate) fn is_math_call(op: u16) -> bool {
    operator(op).is_some_and(parse::is_math_call)
}

//! Flat, deep and ladder lists of exactly a given length.

/// A shape that is repeated until the list has its length.
pub struct Shape {
    pub name: &'static str,
    before: &'static [u16],
    /// Repeated from the left.
    step: &'static [u16],
    middle: &'static [u16],
    /// Repeated as often as `step`.
    back: &'static [u16],
    after: &'static [u16],
    /// What fills the list up to its length.
    filler: Filler,
}

#[derive(Copy, Clone)]
enum Filler {
    /// `!` in front, which any expression takes.
    Nots,
    /// `;` at the end, which any script takes.
    Semicolons,
}

type Ops = &'static [u16];

/// `step`s, then `middle`: a list that does not nest.
const fn flat(name: &'static str, step: Ops, middle: Ops) -> Shape {
    nest(name, step, middle, &[])
}

/// As many `back`s as `step`s around `middle`.
const fn nest(name: &'static str, step: Ops, middle: Ops, back: Ops) -> Shape {
    Shape {
        name,
        before: &[],
        step,
        middle,
        back,
        after: &[],
        filler: Filler::Nots,
    }
}

const fn within(before: Ops, shape: Shape, after: Ops) -> Shape {
    Shape {
        before,
        after,
        ..shape
    }
}

const fn statements(shape: Shape) -> Shape {
    Shape {
        filler: Filler::Semicolons,
        ..shape
    }
}

pub const SHAPES: [Shape; 34] = [
    flat("flat sum", &[61, 9], &[61]),
    flat("flat product and quotient", &[61, 31, 61, 20], &[61]),
    flat("flat difference", &[61, 6], &[61]),
    flat("flat roots", &[61], &[61]),
    flat("minus run before a float", &[6], &[61]),
    within(&[61], flat("minus run after a float", &[6], &[61]), &[]),
    flat("not run", &[7], &[61]),
    flat("return run", &[74], &[61]),
    flat(
        "comparisons in turn",
        &[61, 50, 61, 54, 61, 52, 61, 53, 61, 51, 61, 55],
        &[61],
    ),
    flat("or and and in turn", &[61, 56, 61, 57], &[61]),
    flat(
        "every rank in turn",
        &[61, 58, 61, 57, 61, 54, 61, 50, 61, 9, 61, 31, 61, 20],
        &[61],
    ),
    flat("conditional ladder", &[61, 59, 61, 60], &[61]),
    flat("question run", &[61, 59], &[61]),
    flat("colon run", &[61, 60], &[61]),
    flat("coalescing chain", &[43, 58], &[61]),
    flat("pointer chain", &[43, 72], &[43]),
    within(&[43], flat("member chain", &[45], &[45]), &[]),
    within(&[41], flat("array chain", &[2, 61, 3], &[]), &[]),
    within(&[40, 4], flat("many arguments", &[61, 75], &[61]), &[5]),
    nest("nested brackets", &[4], &[61], &[5]),
    nest("sums to the right", &[61, 9, 4], &[61], &[5]),
    nest("sums to the left", &[4], &[61], &[9, 61, 5]),
    nest("nested conditionals", &[61, 59], &[61], &[60, 61]),
    nest("nested queries", &[40, 4], &[61], &[5]),
    nest("nested math calls", &[36, 4], &[61], &[5]),
    nest("nested arrays", &[41, 2], &[61], &[3]),
    nest("negations in brackets", &[6, 4], &[61], &[5]),
    flat("openers", &[4, 2, 0], &[61]),
    flat("closers", &[5, 3, 1], &[61]),
    statements(flat("statements", &[61, 73], &[61, 73])),
    statements(flat("assignments", &[43, 71, 61, 6, 61, 73], &[61, 73])),
    statements(within(
        &[],
        nest("nested blocks", &[0], &[61, 73], &[1, 73]),
        &[73],
    )),
    statements(within(
        &[],
        nest("nested loops", &[67, 4, 61, 75, 0], &[61, 73], &[1, 5, 73]),
        &[],
    )),
    statements(within(
        &[40, 4],
        flat("semicolons in arguments", &[61, 73], &[61]),
        &[5, 73],
    )),
];

impl Shape {
    /// The shape's list of `len` operators; a shorter one than its smallest is cut off.
    pub fn ops(&self, len: usize) -> Vec<u16> {
        let fixed = self.before.len() + self.middle.len() + self.after.len();
        let times = len.saturating_sub(fixed) / (self.step.len() + self.back.len());
        let shape = [
            self.before,
            &self.step.repeat(times),
            self.middle,
            &self.back.repeat(times),
            self.after,
        ]
        .concat();
        let missing = len.saturating_sub(shape.len());
        let mut ops = match self.filler {
            Filler::Nots => [vec![7; missing], shape].concat(),
            Filler::Semicolons => [shape, vec![73; missing]].concat(),
        };
        ops.truncate(len);
        ops
    }
}

//! Short lists with every operator in a certain place: before a minus, before a bracket, between
//! floats. What a reader knows of single operators stands in tables, and these show each entry.

const HOLE: u16 = u16::MAX;

/// Lists with one hole.
const ONE: [&[u16]; 12] = [
    &[HOLE],
    &[HOLE, 6, 61],
    &[61, HOLE, 6, 61],
    &[HOLE, 61],
    &[61, HOLE, 61],
    &[HOLE, 4, 61, 5],
    &[HOLE, 4, 5],
    &[HOLE, 4, 61, 5, 6, 61],
    &[HOLE, 45],
    &[HOLE, 2, 61, 3],
    &[4, HOLE, 61, 5],
    &[HOLE, 4, 61, 73, 5, 73],
];

/// The operators that stand between operands.
const BETWEEN: [u16; 19] = [
    6, 9, 20, 31, 50, 51, 52, 53, 54, 55, 56, 57, 58, 59, 60, 71, 72, 74, 75,
];

/// Each list with `op` in its hole.
pub fn around(op: u16) -> impl Iterator<Item = Vec<u16>> {
    ONE.iter().map(move |list| filled(list, op))
}

fn filled(list: &[u16], op: u16) -> Vec<u16> {
    let fill = |&place: &u16| if place == HOLE { op } else { place };
    list.iter().map(fill).collect()
}

/// `a X b Y c` for every two operators that stand between operands, with a semicolon where an
/// assignment asks for one.
pub fn pairs() -> impl Iterator<Item = Vec<u16>> {
    BETWEEN.iter().flat_map(|&first| {
        BETWEEN.iter().map(move |&second| {
            let mut ops = vec![61, first, 61, second, 61];
            if first == 71 || second == 71 {
                ops.push(73);
            }
            ops
        })
    })
}

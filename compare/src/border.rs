//! Border lists: lists on both sides of the border between texts of the grammar and lists that only the passes read. Each side of each
//! place where the border runs, in every surrounding, under used sets with one operator out or in; and texts that are one token away from
//! another list. They are compared as all lists are.

use crate::grammar::drawn;
use oracle::generate::{Rng, dress};
use oracle::lines::tokens_of;
use oracle::refusal::Call;
use oracle::words::{Case, FULL_SET, LAST_OP, MOST_TOKENS, Token, bit, exact_set};

/// A place of the border: a text, and a list that is none, as alike as can be. Some of the latter are texts below 5.
pub struct Place {
    pub name: &'static str,
    pub inside: &'static str,
    pub outside: &'static str,
}

const fn place(name: &'static str, inside: &'static str, outside: &'static str) -> Place {
    Place {
        name,
        inside,
        outside,
    }
}

/// The places of the border, in the notation of `oracle::lines`.
pub static PLACES: [Place; 58] = [
    place("an operand is missing behind", "a + b", "a +"),
    place("an operand is missing before", "a * b", "* b"),
    place("an operand is missing between", "a + b * c", "a + * c"),
    place("an operand stands beside another", "a , b", "a b"),
    place("a bracket stands beside an operand", "a * ( b )", "a ( b )"),
    place("an operand stands beside a bracket", "( a ) * b", "( a ) b"),
    place("a bracket is empty", "( a )", "( )"),
    place("a block is empty", "{ a }", "{ }"),
    place("a query's bracket is empty", "40 ( a )", "40 ( )"),
    place("a loop's bracket is empty", "67 ( a )", "67 ( )"),
    place("a math call's bracket is empty", "36 ( )", "36 [ ]"),
    place("an index is empty", "41 [ a ]", "41 [ ]"),
    place("a closer does not match", "( a )", "( a ]"),
    place("a closer is of a block", "{ a }", "( a }"),
    place("a closer is missing", "( a )", "( a"),
    place("an opener is missing", "( a )", "a )"),
    place("a semicolon leads", "a ; b ;", "; b ;"),
    place("a semicolon leads in a block", "{ a ; b } ;", "{ ; b } ;"),
    place("a semicolon is missing at the end", "a ; b ;", "a ; b"),
    place("an assignment has no semicolon", "43 = a ;", "43 = a"),
    place("two indices", "41 [ a ]", "41 [ a ] [ b ]"),
    place(
        "two indices and a minus",
        "41 [ a - b ]",
        "41 [ a ] [ - b ]",
    ),
    place("an index without an array", "41 [ a ]", "43 [ a ]"),
    place("square brackets alone", "( a )", "[ a ]"),
    place("a semicolon in a query", "67 ( a ; b ) ;", "40 ( a ; b ) ;"),
    place(
        "a semicolon deep in a query",
        "67 ( { a ; } ) ;",
        "40 ( { a ; } ) ;",
    ),
    place(
        "a semicolon in an index",
        "36 ( a ; b ) ;",
        "41 [ a ; b ] ;",
    ),
    place(
        "a return behind an operator",
        "return a + b",
        "a + return b",
    ),
    place(
        "a return in a return",
        "return ( a )",
        "return ( return a )",
    ),
    place("two returns", "return a", "return return a"),
    place("a return without an operand", "return a ;", "return ;"),
    place("a minus behind a block", "( a ) - b", "{ a } - b"),
    place(
        "a minus behind a loop's bracket",
        "40 ( a ) - b",
        "67 ( a ) - b",
    ),
    place("a minus behind for_each", "a -> 68 - b", "68 - b"),
    place("a minus behind loop", "66 - b", "67 - b"),
    place("a minus behind break", "63 - b", "69 - b"),
    place("a minus behind continue", "64 - b", "70 - b"),
    place("a minus behind 77", "76 - b", "77 - b"),
    place("three minuses", "a - - b", "a - - - b"),
    place("two minuses without a left operand", "- a", "- - a"),
    place("two minuses behind an operator", "a * - b", "a * - - b"),
    place("two minuses in a bracket", "( a - - b )", "( - - b )"),
    place("a minus without an operand", "a - b", "a -"),
    place("a not without an operand", "! a", "!"),
    place(
        "an arrow behind a math call",
        "40 ( a ) -> b",
        "36 ( a ) -> b",
    ),
    place(
        "an arrow before a math call",
        "a -> 40 ( b )",
        "a -> 36 ( b )",
    ),
    place("an arrow before a prefix", "- a -> b", "a -> - b"),
    place("an arrow without an operand", "a -> b", "a ->"),
    place("a member of something else", "43 .", "61 ."),
    place("a member of a bracket", "( 43 . )", "( 43 ) ."),
    place("an accessor that leads", "43 . . = a ;", ". . = a ;"),
    place("an else without its if", "a ? b : c", "a : c"),
    place(
        "an else behind another level",
        "a ? b : c ?? d",
        "a ? b ?? c : d",
    ),
    place("an else too many", "a ? b ? c : d : e", "a ? b : c : d : e"),
    place("an else before its if", "a ? b : c ? d", "a : b ? c : d"),
    place("a math call without a bracket", "36 ( a )", "36 a"),
    place("a math call at the end", "a + 36 ( b )", "a + 36"),
    place("a host's name as a call", "300 * ( a )", "300 ( a )"),
];

/// What a list stands in; `_` is the list.
const SURROUNDINGS: [&str; 16] = [
    "_",
    "( _ )",
    "{ _ }",
    "_ ;",
    "43 = a ; _ ;",
    "{ _ ; a } ;",
    "a + _",
    "_ * a",
    "a - _",
    "- _",
    "return _",
    "40 ( _ )",
    "67 ( _ )",
    "36 ( _ )",
    "41 [ _ ]",
    "a ? _ : b",
];

/// The versions at which the border runs otherwise, and those beside them.
pub const VERSIONS: [i16; 5] = [3, 4, 5, 6, 7];

/// Both sides of each place in each surrounding.
pub fn lists() -> impl Iterator<Item = Vec<Token>> {
    let sides = PLACES
        .iter()
        .flat_map(|place| [place.inside, place.outside]);
    sides.flat_map(|list| SURROUNDINGS.map(|around| tokens_of(&around.replace('_', list))))
}

/// The list under its exact used set, the full one and the empty one, and under the exact one with each of these operators out or in.
fn under(tokens: Vec<Token>, version: i16, ops: Vec<u16>) -> impl Iterator<Item = Call> {
    let exact = exact_set(&tokens);
    let flipped = ops
        .into_iter()
        .map(move |op| (exact.0 ^ bit(op).0, exact.1 ^ bit(op).1));
    let case = Case::exact(tokens, version);
    let sets = flipped.chain([exact, FULL_SET, (0, 0)]);
    sets.map(move |used| {
        Call::of(&Case {
            used,
            ..case.clone()
        })
    })
}

/// Both sides of each place in each surrounding at each version, under used sets with each of the 111 operators out or in.
pub fn all() -> impl Iterator<Item = Call> {
    lists().flat_map(|tokens| {
        VERSIONS
            .into_iter()
            .flat_map(move |version| under(tokens.clone(), version, (0..=LAST_OP).collect()))
    })
}

/// The same at 4, 5 and 6, with each of the list's own operators out, and `=`, `;` and `+` in or out.
pub fn some() -> impl Iterator<Item = Call> {
    lists().flat_map(|tokens| {
        let mut ops: Vec<u16> = tokens.iter().map(|token| token.op).collect();
        ops.extend([9, 71, 73]);
        ops.sort_unstable();
        ops.dedup();
        [4, 5, 6]
            .into_iter()
            .flat_map(move |version| under(tokens.clone(), version, ops.clone()))
    })
}

/// The operators that are put in where a text is changed: each level's, prefixes, brackets, names of calls, what ends an operand or not.
const PUT_IN: [u16; 36] = [
    0, 1, 2, 3, 4, 5, 6, 6, 7, 9, 20, 31, 36, 40, 41, 43, 45, 50, 53, 54, 56, 57, 58, 59, 60, 61,
    67, 69, 70, 71, 72, 73, 74, 75, 77, 300,
];

/// Texts of the grammar with one token taken out, put in, put in another's stead, written twice, or exchanged with the next, at 4, 5 and
/// 6, under their exact used set, or with one operator out or in.
pub fn beside_texts(seed: u64) -> impl Iterator<Item = Call> {
    let mut rng = Rng::new(seed ^ 0xB0DE);
    std::iter::from_fn(move || {
        let version = 4 + rng.below(3) as i16;
        let most = if rng.chance(5) { 100 } else { 16 };
        let size = 1 + rng.below(most);
        let spelled = drawn(&mut rng, version, size).case;
        let mut ops: Vec<u16> = spelled.tokens.iter().map(|token| token.op).collect();
        change(&mut rng, &mut ops);
        ops.truncate(MOST_TOKENS);
        let tokens = dress::wild(&mut rng, &ops);
        let (mut used, op) = (exact_set(&tokens), rng.below(usize::from(LAST_OP) + 1));
        if rng.chance(40) {
            // Half of these are of the list's own operators.
            let own = rng
                .chance(50)
                .then(|| ops.get(op % ops.len().max(1)))
                .flatten();
            let flipped = bit(*own.unwrap_or(&(op as u16)));
            used = (used.0 ^ flipped.0, used.1 ^ flipped.1);
        }
        Some(Call::of(&Case {
            used,
            source_len: spelled.source_len,
            // Sometimes another version's rules than those that it was drawn by.
            version: if rng.chance(30) {
                4 + rng.below(3) as i16
            } else {
                version
            },
            tokens,
        }))
    })
}

/// One step over the border, or beside it.
fn change(rng: &mut Rng, ops: &mut Vec<u16>) {
    let at = rng.below(ops.len());
    let next = (at + 1).min(ops.len() - 1);
    match rng.below(5) {
        0 => _ = ops.remove(at),
        1 => ops.insert(rng.below(ops.len() + 1), *rng.pick(&PUT_IN)),
        2 => ops[at] = *rng.pick(&PUT_IN),
        3 => ops.insert(at, ops[at]),
        _ => ops.swap(at, next),
    }
}

//! docs/GRAMMAR.md beside the Rust and the library: texts drawn from a grammar that was written from that page, and each row of its
//! table of lists that are no texts.
#![cfg(library)]

use compare::grammar::{drawn, is_math};
use compare::grammar_reading::{OTHERS, Texts, VERSIONS, held};
use compare::library::Read;
use compare::reading::{Buffers, Expected, expected};
use oracle::generate::Rng;
use oracle::lines::{case_of, notation};
use oracle::refusal::Call;
use oracle::words::{Case, NODE_WORDS, RustNode, bit, decode_tree, low};

#[test]
fn texts_are_read_as_the_grammar_says() {
    let mut texts = Texts::new(1);
    for version in VERSIONS.into_iter().chain(OTHERS) {
        let count = if VERSIONS.contains(&version) {
            20_000
        } else {
            2_000
        };
        for _ in 0..count {
            if let Err(difference) = texts.one(version) {
                panic!("{difference}");
            }
        }
    }
    assert!(texts.nodes > 10 * texts.texts, "{} nodes", texts.nodes);
    // Every operator that a text's tree may have; brackets of arrays and closers are in none.
    let never = |op: u16| matches!(op, 1 | 2 | 3 | 5);
    for (op, count) in texts.with.iter().enumerate() {
        let least = match op as u16 {
            op if never(op) => 0,
            op if is_math(op) => 50,
            _ => 500,
        };
        assert!(*count >= least, "operator {op} in {count} texts only");
        assert!(!never(op as u16) || *count == 0, "operator {op}");
    }
}

/// How many of the texts of one version are read otherwise at another, or are no trees there.
fn otherwise(drawn_at: i16, read_at: i16) -> usize {
    let (mut rng, mut buffers) = (Rng::new(7), Buffers::default());
    let texts = std::iter::repeat_with(|| drawn(&mut rng, drawn_at, 16));
    let texts = texts.take(2_000).map(|mut text| {
        text.case.version = read_at;
        text
    });
    texts
        .filter(|text| held(&mut buffers, text).is_err())
        .count()
}

#[test]
fn the_texts_tell_the_versions_apart() {
    for (drawn_at, read_at) in [(4, 5), (5, 4), (5, 6), (6, 5), (4, 6), (6, 4)] {
        let otherwise = otherwise(drawn_at, read_at);
        assert!(
            (50..2_000).contains(&otherwise),
            "{otherwise} texts of {drawn_at} at {read_at}"
        );
    }
    for (drawn_at, read_at) in [(4, 3), (4, -1), (6, 7), (6, i16::MAX)] {
        assert_eq!(otherwise(drawn_at, read_at), 0);
    }
}

#[test]
fn another_tree_is_found_to_differ() {
    let (mut rng, mut buffers) = (Rng::new(11), Buffers::default());
    for _ in 0..500 {
        let mut text = drawn(&mut rng, 6, 12);
        let node = rng.below(text.tree.len());
        let tree = &mut text.tree[node];
        match rng.below(4) {
            0 => tree.token.op ^= 1,
            1 => tree.token.start ^= 1,
            2 => tree.children += 1,
            // The Rust has no seventh word: the library alone tells it.
            _ => tree.close ^= 1,
        }
        assert!(held(&mut buffers, &text).is_err(), "node {node}");
    }
}

/// What reading gives.
#[derive(Debug, PartialEq)]
enum Gives {
    Tree(&'static str),
    Messages(&'static [u32]),
}
use Gives::{Messages, Tree};

/// A list that is read alike at all versions.
macro_rules! both {
    ($list:literal, $gives:expr) => {
        ($list, $gives, $gives)
    };
}

/// The lists of the table, in its order, and what they are read to at 4 and from 5.
const OUTSIDE: [(&str, Gives, Gives); 40] = [
    both!("{ a } - b", Messages(&[1])),
    both!("loop ( a ) - b", Messages(&[1])),
    both!("loop - b", Messages(&[1])),
    both!("break - b", Messages(&[1])),
    both!("( { a } - b )", Tree("4(0(a),6(b))")),
    both!("- - a", Messages(&[12])),
    both!("a * - - b", Messages(&[12])),
    both!("continue - a", Messages(&[15])),
    both!("77 - a", Messages(&[15])),
    both!("a -", Messages(&[13])),
    both!("!", Messages(&[14])),
    both!("41 [ b ] [ - c ]", Tree("63(9(b,6(c)))")),
    both!("41 [ b ] [ c ]", Tree("63(b,c)")),
    both!("41 [ ]", Messages(&[11])),
    both!("q ( )", Messages(&[7])),
    both!("sin ( a ) -> b", Messages(&[9])),
    both!("a -> sin ( b )", Messages(&[8])),
    both!("a ->", Messages(&[12, 1])),
    both!("-> a", Messages(&[12, 1])),
    both!("q ( a ; b ) ;", Tree("73(73(40(4(a,73,b))))")),
    both!("41 [ a ; b ] ;", Tree("73(73(63(a,73,b)))")),
    both!("return ( return a )", Tree("74(4(74,a))")),
    (
        "a ? b ?? c : d",
        Tree("58(59(a,b),60(c,d))"),
        Messages(&[17]),
    ),
    ("a : b", Tree("60(a,b)"), Messages(&[17])),
    (
        "a ? b : c : d",
        Tree("59(a,60(60(b,c),d))"),
        Messages(&[17]),
    ),
    both!("a +", Messages(&[12])),
    both!("* a", Messages(&[12])),
    both!("( a ]", Messages(&[4, 5])),
    both!("( a", Messages(&[6, 5])),
    both!("( )", Tree("4")),
    both!("( a b )", Tree("4(a,b)")),
    both!(". a", Messages(&[3])),
    both!("; a ;", Messages(&[10])),
    both!("( ; a ) ;", Messages(&[10])),
    both!("a = b", Messages(&[2])),
    both!("a ; b", Messages(&[2])),
    both!("a b", Messages(&[1])),
    both!("nothing", Messages(&[1])),
    both!("a + b without + in the used set", Messages(&[1])),
    both!("a + b with = in the used set", Messages(&[2])),
];

/// The first column's lists, and the second column, of the page's table of lists outside the grammar.
fn rows_of_the_page() -> Vec<(Vec<String>, String)> {
    let page = include_str!("../../docs/GRAMMAR.md");
    let (_, table) = page.split_once("## Lists outside it").expect("a part");
    let rows = table.lines().filter_map(|line| line.strip_prefix("| "));
    let rows = rows.skip(1).map(|row| {
        let mut cells = row.split(" | ");
        let lists = cells.next().expect("a list").replace('`', "");
        let lists = lists.split(", ").map(|list| list.replace(" from 5", ""));
        (lists.collect(), cells.next().expect("an answer").to_owned())
    });
    rows.collect()
}

/// A list of the table, under the used set that it names.
fn case(list: &str, version: i16) -> Case {
    let names = [("loop", "67"), ("break", "69"), ("continue", "70")];
    let (list, change) = match list.split_once(" with") {
        Some((list, change)) => (list, Some(change)),
        None => (list, None),
    };
    let mut spelled = list.replace("nothing", "");
    for (name, number) in names.into_iter().chain([("q", "40"), ("sin", "36")]) {
        spelled = spelled.replace(name, number);
    }
    let mut case = Case {
        version,
        ..case_of(&spelled)
    };
    match change {
        Some(change) if change.starts_with("out +") => case.used.0 &= !bit(9).0,
        Some(change) if change.starts_with(" =") => case.used.1 |= bit(71).1,
        Some(change) => panic!("{change:?}"),
        None => {}
    }
    case
}

/// What the library reads a case as: a tree in the notation, or the messages' numbers.
fn read(buffers: &mut Buffers, case: &Case) -> Result<String, Vec<u32>> {
    let call = Call::of(case);
    match buffers
        .call(&call, &Expected::Something)
        .expect("an answer")
    {
        Read::Tree(nodes) => {
            let nodes = decode_tree(&buffers.tree(nodes)[..NODE_WORDS * nodes]).expect("a tree");
            let nodes = nodes.iter().map(|node| RustNode {
                token: node.token,
                children: node.children,
            });
            Ok(notation(&nodes.collect::<Vec<_>>()))
        }
        Read::Messages(count) => {
            let records = buffers.records(count);
            Err(records.iter().map(|record| low(record[0])).collect())
        }
        refused @ Read::Refused(..) => panic!("{refused:?}"),
    }
}

#[test]
fn the_lists_outside_are_read_as_the_table_says() {
    let mut buffers = Buffers::default();
    for (list, at_4, from_5) in &OUTSIDE {
        for version in [4, 5, 6] {
            let case = case(list, version);
            let wanted = if version == 4 { at_4 } else { from_5 };
            let wanted = match wanted {
                Tree(tree) => Ok((*tree).to_owned()),
                Messages(numbers) => Err(numbers.to_vec()),
            };
            assert_eq!(read(&mut buffers, &case), wanted, "{list} at {version}");
            // And the library's answer is the Rust's, whole.
            let call = Call::of(&case);
            if let Err(difference) = buffers.call(&call, &expected(&call)) {
                panic!("{list} at {version}: {difference}");
            }
        }
    }
}

#[test]
fn the_table_has_these_lists_and_says_so() {
    let rows = rows_of_the_page();
    let lists: Vec<&str> = rows
        .iter()
        .flat_map(|(lists, _)| lists)
        .map(String::as_str)
        .collect();
    let known: Vec<&str> = OUTSIDE.iter().map(|(list, ..)| *list).collect();
    assert_eq!(lists, known);
    for (lists, says) in &rows {
        for list in lists {
            let (.., gives) = OUTSIDE
                .iter()
                .find(|(known, ..)| known == list)
                .expect("known");
            match gives {
                Tree(_) => assert!(says.starts_with("a tree"), "{list}: {says}"),
                Messages(numbers) => {
                    let said = |number: &u32| {
                        let words = says.split(|sign: char| !sign.is_ascii_digit());
                        words.into_iter().any(|word| word == number.to_string())
                    };
                    assert!(says.contains("message"), "{list}: {says}");
                    assert!(numbers.iter().all(said), "{list}: {says}");
                }
            }
        }
    }
}

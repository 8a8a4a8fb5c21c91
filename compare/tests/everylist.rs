//! The program `everylist` (card 9): the whole of what it prints for four alphabets at three versions beside the Rust, its refusals in their
//! order, and mistakes that these inputs find. It is run where `make` puts it (`target/bin/everylist`), or at `EVERYLIST`; where it is
//! not built, what needs it is ignored, and so is what needs the Rust where that is not at hand.

use compare::everylist::{Asked, every_list, head, list_text, printed};
use compare::listing::{bytes, own_case, refused, text, tokens};
use compare::programs::Program;
use compare::trials::{Mistaken, Trial, all_alike, all_found};
use oracle::generate::alphabets::Alphabet;
use oracle::words::{LAST_HOST, LAST_OP, Token};
use std::collections::HashSet;
use std::sync::LazyLock;

// ---- The whole of what is printed

/// A host's own name; minuses; brackets; conditionals, logic, comparisons and a host. No alphabet is in the order of its numbers, and the
/// length is so great that no text takes long.
const ALPHABETS: [(&[u16], u16); 4] = [
    (&[300], 6),
    (&[61, 6], 6),
    (&[61, 5, 4], 6),
    (&[61, 59, 60, 57, 56, 54, 53, 300], 5),
];

/// The four alphabets at versions 4, 5 and 6, by the Rust.
static WHOLE: LazyLock<Vec<Trial>> = LazyLock::new(|| {
    let asked = ALPHABETS.iter().flat_map(|&(letters, length)| {
        [4, 5, 6].map(|version| Asked::new(version, length, letters))
    });
    let trial = |asked: Asked| Trial::new(format!("{asked:?}"), asked.input(), asked.printed());
    asked.map(trial).collect()
});

/// What is printed of the empty list at every version.
const EMPTY: &str = "list\nmessages 1\n1 0 0 0 0 0 0 0\n";

#[test]
#[cfg_attr(not(rust_source), ignore = "the Rust source is not at hand")]
fn the_model_prints_the_lists_with_their_answers() {
    let example = Asked::new(6, 1, &[61, 6]);
    let wanted = "list 61\ntree 1\n61 0 0 1\nlist 6\nmessages 1\n13 0 1 0 0 0 0 0\n";
    assert_eq!(printed(&example.input()), EMPTY.to_string() + wanted);
    let at = |version| Asked::new(version, 3, &[61, 60]).printed();
    assert!(at(4).contains("list 61 60 61\ntree 3\n60 2 1 2\n61 0 0 1\n61 0 2 3\nlist 61 60 60\n"));
    assert!(at(5).contains("list 61 60 61\nmessages 1\n17 1 2 60 0 0 0 0\nlist 61 60 60\n"));
    let host = Asked::new(6, 3, &[9, 1_023]).printed();
    assert!(host.contains("list 1023 9 1023\ntree 3\n9 2 1 2\n1023 0 0 1\n1023 0 2 3\n"));
}

/// The places of a list's letters in an alphabet.
fn places(letters: &[u16], list: &[u16]) -> Vec<usize> {
    let place = |op: &u16| letters.iter().position(|letter| letter == op);
    let places: Option<_> = list.iter().map(place).collect();
    places.expect("a list of these letters")
}

#[test]
fn the_model_has_each_list_of_the_oracles_generator_in_the_cards_order() {
    for (letters, length) in ALPHABETS {
        let alphabet = Alphabet {
            name: "",
            ops: letters,
            ending: &[],
            versions_differ: true,
        };
        // Short ones first, then by alphabet position from the left.
        let mut lists: Vec<Vec<u16>> = alphabet.every_list(usize::from(length)).collect();
        lists.sort_by_key(|list| (list.len(), places(letters, list)));
        assert_eq!(every_list(letters, length), lists, "{letters:?}");
    }
    let few = [&[][..], &[61], &[9], &[61, 61], &[61, 9], &[9, 61], &[9, 9]];
    assert_eq!(every_list(&[61, 9], 2), few);
}

#[test]
#[cfg_attr(not(everylist), ignore = "everylist is not built")]
#[cfg_attr(
    all(everylist, not(rust_source)),
    ignore = "the Rust source is not at hand"
)]
fn four_alphabets_at_three_versions() {
    let program = Program::named("everylist");
    all_alike(&*WHOLE, |input| program.run(input));
    let [.., four, five, six] = &WHOLE[..] else {
        unreachable!("three versions");
    };
    let mut texts = HashSet::new();
    let apart = [four, five, six].map(|trial| texts.insert(&trial.printed));
    assert_eq!(apart, [true; 3], "each version reads some list otherwise");
}

#[test]
#[cfg_attr(not(everylist), ignore = "everylist is not built")]
fn each_list_is_printed_once_and_stands_behind_the_one_before() {
    let program = Program::named("everylist");
    for (letters, length) in ALPHABETS {
        let text = program.run(&Asked::new(5, length, letters).input());
        let heads = text.lines().filter_map(|line| line.strip_prefix("list"));
        let mut lists = Vec::new();
        for head in heads {
            let list: Result<Vec<u16>, _> = head.split_whitespace().map(str::parse).collect();
            lists.push(list.expect("operator numbers"));
        }
        let count: usize = (0..=length).map(|n| letters.len().pow(n.into())).sum();
        assert_eq!(lists.len(), count, "{letters:?}");
        let keys: Vec<_> = lists
            .iter()
            .map(|list| (list.len(), places(letters, list)))
            .collect();
        assert!(keys.is_sorted_by(|one, next| one < next), "{letters:?}");
    }
}

#[test]
#[cfg_attr(not(everylist), ignore = "everylist is not built")]
#[cfg_attr(
    all(everylist, not(rust_source)),
    ignore = "the Rust source is not at hand"
)]
fn the_version_is_read_in_twos_complement() {
    let program = Program::named("everylist");
    for version in [i16::MIN, -2, -1, 0, 3, 4, 12, 13, 14, i16::MAX] {
        let input = Asked::new(version, 3, &[61, 59, 60, 56, 57]).input();
        assert_eq!(program.run(&input), printed(&input), "{version}");
    }
}

#[test]
#[cfg_attr(not(everylist), ignore = "everylist is not built")]
fn an_input_in_pieces_is_the_same_input() {
    let program = Program::named("everylist");
    let input = Asked::new(6, 2, &[61, 9, 4, 5, 6, 300, 59, 60]).input();
    let whole = program.run(&input);
    assert!(whole.starts_with(EMPTY));
    for size in 1..=9 {
        assert_eq!(program.run_pieces(input.chunks(size)), whole, "{size}");
    }
}

// ---- Refusals

/// Eight letters, and more that an alphabet may have no room for.
const LETTERS: [u16; 12] = [61, 9, 4, 5, 6, 300, 59, 60, 31, 20, 1_023, 0];

fn good(letters: usize) -> Asked {
    Asked::new(6, 2, &LETTERS[..letters])
}

/// Bytes that are no whole words come before all else.
fn bytes_over(trials: &mut Vec<Trial>) {
    let mut faulty = good(8).words();
    faulty[9] |= 1 << 16;
    let inputs = [
        ("nothing", Vec::new()),
        ("a version alone", bytes(&[6])),
        ("no letters", good(0).input()),
        ("eight letters", good(8).input()),
        ("nine letters", good(9).input()),
        ("a faulty word", bytes(&faulty)),
        ("a repeat", Asked::new(6, 2, &[61, 61]).input()),
        ("length 7", Asked::new(6, 7, &[61]).input()),
        ("eleven words", good(9).input()),
        ("16,383 words", bytes(&[0; 16_383])),
        ("16,384 words", bytes(&[0; 16_384])),
        ("40,000 words", bytes(&[u32::MAX; 40_000])),
    ];
    for (name, input) in inputs {
        for over in 1..=3 {
            for byte in [0, 0xFF] {
                let longer = [&input[..], &vec![byte; over]].concat();
                let what = format!("{name} and {over} bytes");
                trials.push(Trial::refused(what, longer, 1, 0));
            }
        }
    }
}

/// A version or length word that is missing, and a faulty word at any place, come before 19 and 20.
fn faulty_words(trials: &mut Vec<Trial>) {
    trials.push(Trial::refused("nothing", Vec::new(), 8, 0));
    for word in [0, 6, 0xFFFF, 1 << 16, 6 | 1 << 29, u32::MAX] {
        let what = format!("{word:#x} alone");
        trials.push(Trial::refused(what, bytes(&[word]), 8, 0));
    }
    let asked = [
        ("good", good(8)),
        ("no letters", good(0)),
        ("twelve letters", good(12)),
        ("a repeat and length 7", Asked::new(6, 7, &[61, 61])),
        ("an illegal number", Asked::new(6, 0, &[111, 61])),
        ("length 7", Asked::new(6, 7, &[61])),
    ];
    for (name, asked) in asked {
        let words = asked.words();
        for place in 0..words.len() {
            for bit in 16..32 {
                // Beside the bits that the word has, and alone.
                for fault in [words[place] | 1 << bit, 1 << bit] {
                    let mut faulty = words.clone();
                    faulty[place] = fault;
                    let what = format!("{name}, {fault:#x} at {place}");
                    trials.push(Trial::refused(what, bytes(&faulty), 8, 0));
                }
            }
        }
    }
}

/// Words far behind those that are kept are looked at too, also where 65,536 bytes end, from the start on or behind eleven words.
fn words_far_behind(trials: &mut Vec<Trial>) {
    const CHUNK: usize = 16_384;
    let ends = [CHUNK, CHUNK + 11, 2 * CHUNK, 2 * CHUNK + 11];
    let about = ends.into_iter().flat_map(|end| [end - 1, end, end + 1]);
    let few = [10, 11, 12, 13, 16, 641];
    for count in few.into_iter().chain(about.clone()).chain([40_000]) {
        let mut words = vec![6, 2];
        words.resize(count, 61);
        let what = format!("{count} words");
        trials.push(Trial::refused(&what, bytes(&words), 19, 0));
        let near = [2, 10, 11, 12, count - 2, count - 1].into_iter();
        let places = near.chain(about.clone().filter(|_| count == 40_000));
        for place in places.filter(|place| *place < count) {
            for fault in [1 << 16, 1 << 29, u32::MAX] {
                let mut faulty = words.clone();
                faulty[place] = fault;
                let what = format!("{what}, {fault:#x} at {place}");
                trials.push(Trial::refused(what, bytes(&faulty), 8, 0));
            }
        }
    }
}

/// Answer 19 comes before 20: whatever the length.
fn alphabets(trials: &mut Vec<Trial>) {
    let mut turned_back = vec![("no letters".to_string(), Vec::new())];
    for letters in 9..=LETTERS.len() {
        let what = format!("{letters} letters");
        turned_back.push((what, LETTERS[..letters].to_vec()));
    }
    for second in 1..8 {
        for first in 0..second {
            let mut letters = LETTERS[..8].to_vec();
            letters[second] = letters[first];
            turned_back.push((format!("{first} again at {second}"), letters));
        }
    }
    let above = [
        1_024,
        1_025,
        4_096,
        4_096 + 61,
        0x7FFF,
        0x8000,
        0xFF3D,
        0xFFFF,
    ];
    for (number, illegal) in (LAST_OP + 1..256).chain(above).enumerate() {
        let mut letters = LETTERS[..1 + number % 8].to_vec();
        letters[number % 8] = illegal;
        turned_back.push((format!("the number {illegal}"), letters));
    }
    for (what, letters) in turned_back {
        for length in [0, 2, 7, 0xFFFF] {
            let what = format!("{what}, length {length}");
            let input = Asked::new(6, length, &letters).input();
            trials.push(Trial::refused(what, input, 19, 0));
        }
    }
}

/// A length above 6; and every legal number, eight by eight, where the length is 0.
fn lengths(trials: &mut Vec<Trial>) {
    for length in [7, 8, 9, 255, 256, 256 + 6, 0x7FFF, 0x8000, 0xFFFF] {
        for letters in [1, 3, 8] {
            let input = Asked::new(6, length, &LETTERS[..letters]).input();
            let what = format!("length {length} of {letters} letters");
            trials.push(Trial::refused(what, input, 20, 0));
        }
    }
    let legal: Vec<u16> = (0..=LAST_OP).chain(256..=LAST_HOST).collect();
    for letters in legal.chunks(8) {
        let asked = Asked::new(5, 0, letters);
        let what = format!("{asked:?}");
        trials.push(Trial::new(what, asked.input(), EMPTY));
    }
}

/// Each refusal, with what has to come before it and after it; what is printed is known from how the input is made.
fn refusals() -> Vec<Trial> {
    let mut trials = Vec::new();
    bytes_over(&mut trials);
    faulty_words(&mut trials);
    words_far_behind(&mut trials);
    alphabets(&mut trials);
    lengths(&mut trials);
    trials
}

#[test]
#[cfg_attr(not(rust_source), ignore = "the Rust source is not at hand")]
fn the_model_refuses_alike() {
    all_alike(&refusals(), printed);
}

#[test]
#[cfg_attr(not(everylist), ignore = "everylist is not built")]
fn refusals_in_their_order() {
    let program = Program::named("everylist");
    all_alike(&refusals(), |input| program.run(input));
}

// ---- Mistakes

/// A program that differs from the model in where it turns an input back.
fn turning_back(input: &[u8], refusal: impl Fn(&Asked) -> Option<u32>) -> String {
    match Asked::of(input) {
        Err(number) => refused(number, 0),
        Ok(asked) => match refusal(&asked) {
            Some(number) => refused(number, 0),
            None => asked.printed(),
        },
    }
}

/// A program that goes through other lists.
fn going_through(input: &[u8], lists: impl Fn(&Asked) -> Vec<Vec<u16>>) -> String {
    texts(input, lists, list_text)
}

/// A program that prints something else for a list.
fn printing(input: &[u8], text: impl Fn(&[u16], i16) -> String) -> String {
    texts(input, Asked::lists, text)
}

fn texts(
    input: &[u8],
    lists: impl Fn(&Asked) -> Vec<Vec<u16>>,
    text: impl Fn(&[u16], i16) -> String,
) -> String {
    match Asked::of(input) {
        Ok(asked) if asked.refusal().is_none() => {
            let texts = lists(&asked);
            texts.iter().map(|list| text(list, asked.version)).collect()
        }
        _ => printed(input),
    }
}

/// What is printed of a list whose tokens or case are other ones.
fn read_otherwise(list: &[u16], version: i16, change: impl Fn(&mut oracle::Case)) -> String {
    let mut case = own_case(tokens(list), version);
    change(&mut case);
    let answer = oracle::answer_if_at_hand(&case).expect("the Rust is at hand");
    head(list) + &text(&answer)
}

/// The model of the first so many words.
fn front(input: &[u8], words: usize) -> String {
    let whole = input.len().is_multiple_of(4);
    let front = &input[..input.len().min(4 * words)];
    if whole && printed(front) != printed(input) {
        return printed(front);
    }
    printed(input)
}

const ORDERS: [(&str, Mistaken); 8] = [
    ("digits from the right", |input| {
        going_through(input, |asked| {
            let mut lists = asked.lists();
            lists.iter_mut().for_each(|list| list.reverse());
            lists
        })
    }),
    ("long ones first", |input| {
        going_through(input, |asked| {
            let mut lists = asked.lists();
            lists.sort_by_key(|list| std::cmp::Reverse(list.len()));
            lists
        })
    }),
    ("by number", |input| {
        going_through(input, |asked| {
            let mut lists = asked.lists();
            lists.sort_by_key(|list| (list.len(), list.clone()));
            lists
        })
    }),
    ("one list too many", |input| {
        going_through(input, |asked| {
            let count = asked.lists().len();
            let mut lists = every_list(&asked.letters, asked.length + 1);
            lists.truncate(count + 1);
            lists
        })
    }),
    ("the last list left out", |input| {
        going_through(input, |asked| {
            let mut lists = asked.lists();
            lists.pop();
            lists
        })
    }),
    ("the empty list left out", |input| {
        going_through(input, |asked| asked.lists()[1..].to_vec())
    }),
    ("a list twice", |input| {
        going_through(input, |asked| {
            let mut lists = asked.lists();
            let last = lists.len() - 1;
            lists[last] = lists[last / 2].clone();
            lists
        })
    }),
    ("the last letter left out", |input| {
        going_through(input, |asked| {
            let letters = &asked.letters;
            every_list(&letters[..letters.len().max(2) - 1], asked.length)
        })
    }),
];

const TEXTS: [(&str, Mistaken); 7] = [
    ("spans two wide", |input| {
        printing(input, |list, version| {
            let wide = |token: &mut Token| {
                (token.start, token.end) = (2 * token.start, 2 * token.end);
            };
            read_otherwise(list, version, |case| {
                case.tokens.iter_mut().for_each(wide);
                case.source_len *= 2;
            })
        })
    }),
    ("a source of one more", |input| {
        printing(input, |list, version| {
            read_otherwise(list, version, |case| case.source_len += 1)
        })
    }),
    ("every operator used", |input| {
        printing(input, |list, version| {
            let used = |case: &mut oracle::Case| case.used = oracle::words::FULL_SET;
            read_otherwise(list, version, used)
        })
    }),
    ("version 6", |input| {
        printing(input, |list, _| list_text(list, 6))
    }),
    ("a host's number as 76", |input| {
        printing(input, |list, version| {
            list_text(list, version).replace("\n300 ", "\n76 ")
        })
    }),
    ("a space behind the list", |input| {
        printing(input, |list, version| {
            list_text(list, version).replacen('\n', " \n", 1)
        })
    }),
    ("no line's end", |input| {
        let mut text = printed(input);
        text.pop();
        text
    }),
];

const REFUSALS: [(&str, Mistaken); 12] = [
    ("a repeat unnoticed", |input| {
        turning_back(input, |asked| {
            let mut once = asked.clone();
            once.letters.sort_unstable();
            once.letters.dedup();
            let known = asked.letters.len() <= 8;
            once.refusal().or((!known).then_some(19))
        })
    }),
    ("a repeat noticed only of neighbours", |input| {
        turning_back(input, |asked| {
            let mut neighbours = asked.clone();
            neighbours.letters.dedup();
            let same = neighbours == *asked;
            let mut once = asked.clone();
            once.letters.sort_unstable();
            once.letters.dedup();
            if same { once.refusal() } else { Some(19) }
        })
    }),
    ("nine letters", |input| {
        turning_back(input, |asked| {
            let mut eight = asked.clone();
            eight.letters.truncate(8);
            match asked.letters.len() {
                9 => eight.refusal(),
                _ => asked.refusal(),
            }
        })
    }),
    ("no letters", |input| {
        turning_back(input, |asked| {
            let given = asked.letters.is_empty() && asked.length <= 6;
            asked.refusal().filter(|_| !given)
        })
    }),
    ("length 7", |input| match Asked::of(input) {
        Ok(asked) if asked.length == 7 => {
            let less = Asked { length: 6, ..asked };
            less.refusal()
                .map_or(EMPTY.to_string(), |number| refused(number, 0))
        }
        _ => printed(input),
    }),
    ("20 before 19", |input| {
        turning_back(input, |asked| match asked.length {
            0..=6 => asked.refusal(),
            _ => Some(20),
        })
    }),
    ("19 before a faulty word", |input| {
        let without: Vec<u8> = input
            .chunks(4)
            .flat_map(|word| [word[0], word[1 % word.len()], 0, 0])
            .collect();
        match Asked::of(&without) {
            Ok(asked) if asked.refusal() == Some(19) && input.len().is_multiple_of(4) => {
                refused(19, 0)
            }
            _ => printed(input),
        }
    }),
    ("a faulty word before the bytes", |input| {
        let whole = &input[..input.len() & !3];
        match Asked::of(whole) {
            Err(8) => refused(8, 0),
            _ => printed(input),
        }
    }),
    ("bytes over passed over", |input| {
        printed(&input[..input.len() & !3])
    }),
    ("eleven words looked at", |input| front(input, 11)),
    ("a chunk looked at", |input| front(input, 16_384)),
    ("host 1,024, and 255 for a host", |input| {
        turning_back(input, |asked| {
            let mut lower = asked.clone();
            for letter in lower.letters.iter_mut() {
                *letter -= u16::from(matches!(*letter, 255 | 1_024)) * 200;
            }
            lower.refusal()
        })
    }),
];

#[test]
#[cfg_attr(not(rust_source), ignore = "the Rust source is not at hand")]
fn mistakes_are_found() {
    all_found(&refusals(), REFUSALS);
    all_found(&*WHOLE, ORDERS.into_iter().chain(TEXTS));
}

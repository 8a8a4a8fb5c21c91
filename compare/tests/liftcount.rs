//! The program `liftcount` (card 10): what it counts of random archives beside the Rust, its refusals in their order, inputs of any length
//! and in any pieces, and mistakes that these find. It is run where `make` puts it (`target/bin/liftcount`), or at `LIFTCOUNT`; where
//! it is not built, what needs it is ignored, and so is what needs the Rust where that is not at hand.

use compare::lift_archives::Archives;
use compare::liftcount::{Counts, Lists, Verdict, judged, list_refusal, printed, tree, verdict};
use compare::listing::{bytes, own_case, refused, tokens, words_in};
use compare::programs::Program;
use compare::trials::{Mistaken, Trial, all_alike, all_found};
use oracle::words::{
    MOST_TOKENS, TOKEN_WORDS, Token, TreeNode, decode_list, kind, list_words, low, word,
};
use std::io::Write;

fn program() -> Program {
    Program::named("liftcount")
}

// ---- Lists that are known

/// A list whose verdict at versions 4 and 5, in either order, is known.
struct Known {
    verdict: Verdict,
    ops: &'static [u16],
}

const SUM: Known = known(Verdict::Same, &[61, 9, 61]);
/// `a ? b : c ? d : e`.
const LADDER: Known = known(Verdict::Different, &[61, 59, 61, 60, 61, 59, 61, 60, 61]);
/// `a : b`.
const COLON: Known = known(Verdict::One, &[61, 60, 61]);
/// `a b`.
const ROOTS: Known = known(Verdict::Both, &[61, 61]);
const EMPTY: Known = known(Verdict::Both, &[]);

const fn known(verdict: Verdict, ops: &'static [u16]) -> Known {
    Known { verdict, ops }
}

fn words_of(ops: &[u16]) -> Vec<u32> {
    list_words(&tokens(ops))
}

/// The words of an archive at versions 4 and 5, each list behind an opener.
fn archive<L: AsRef<[u32]>>(lists: impl IntoIterator<Item = L>) -> Vec<u32> {
    let mut words = vec![4, 5];
    for list in lists {
        words.push(0);
        words.extend(list.as_ref());
    }
    words
}

/// An archive of known lists, and its counts.
fn archive_of<'k>(lists: impl IntoIterator<Item = &'k Known> + Clone) -> (Vec<u32>, Counts) {
    let words = lists.clone().into_iter().map(|known| words_of(known.ops));
    let verdicts = lists.into_iter().map(|known| known.verdict);
    (archive(words), Counts::of(verdicts))
}

/// A trial of known lists.
fn counted<'k>(what: &str, lists: impl IntoIterator<Item = &'k Known> + Clone) -> Trial {
    let (words, counts) = archive_of(lists);
    Trial::new(what, bytes(&words), counts.lines())
}

/// Ten lists, of each verdict another number.
fn ten() -> impl Iterator<Item = &'static Known> + Clone {
    let times = [(&SUM, 1), (&LADDER, 2), (&COLON, 3), (&ROOTS, 4)];
    times
        .into_iter()
        .flat_map(|(list, times)| std::iter::repeat_n(list, times))
}

const TEN: &str = "10\n1\n2\n3\n4\n";

/// The card's lists, each count by its own, empty lists, and no list; the versions in either order, and openers of any low bits.
fn counts() -> Vec<Trial> {
    let example = [&COLON, &SUM, &LADDER, &ROOTS];
    let mut trials = vec![
        Trial::new("two versions alone", bytes(&[4, 5]), "0\n0\n0\n0\n0\n"),
        counted("the card's example", example),
        counted("ten lists", ten()),
        counted("an opener alone", [&EMPTY]),
        counted("three openers", [&EMPTY; 3]),
        counted("an opener behind a list", [&SUM, &EMPTY]),
        counted("a list between openers", [&EMPTY, &LADDER, &EMPTY]),
    ];
    assert_eq!(trials[1].printed, "4\n1\n1\n1\n1\n");
    assert_eq!(trials[2].printed, TEN);
    let (words, _) = archive_of(ten());
    let at = |from, to, words: &[u32]| bytes(&[&[from, to], &words[2..]].concat());
    trials.push(Trial::new("from 5 to 4", at(5, 4, &words), TEN));
    for version in [4, 5] {
        let trees = if version == 4 { 6 } else { 3 };
        let same = format!("10\n{trees}\n0\n0\n{}\n", 10 - trees);
        let what = format!("from {version} to {version}");
        trials.push(Trial::new(what, at(version, version, &words), same));
    }
    for opener in (0..29).map(|bit| 1 << bit).chain([0x1FFF_FFFF, 4, 0xFFFF]) {
        let mut words = words.clone();
        let openers = words[2..].iter_mut().filter(|word| **word == 0);
        openers.for_each(|word| *word = opener);
        let what = format!("openers {opener:#x}");
        trials.push(Trial::new(what, bytes(&words), TEN));
    }
    trials
}

// ---- Where an input is turned back

/// Version words that are missing or faulty, and a third word that is no opener: whatever follows.
fn heads() -> Vec<Trial> {
    let mut trials = vec![Trial::refused("nothing", Vec::new(), 8, 0)];
    let mut refuse = |what: String, words: &[u32]| {
        trials.push(Trial::refused(what, bytes(words), 8, 0));
    };
    for first in [0, 4, 0xFFFF, 1 << 16, 1 << 29, u32::MAX] {
        refuse(format!("{first:#x} alone"), &[first]);
    }
    let good = archive([words_of(SUM.ops)]);
    let mut refused = good.clone();
    refused.push(word(1, 61));
    for (name, words) in [
        ("no list", &good[..2]),
        ("a list", &good),
        ("a refused list", &refused),
    ] {
        for place in [0, 1] {
            for bit in 16..32 {
                // Beside the bits that the word has, and alone.
                for fault in [words[place] | 1 << bit, 1 << bit] {
                    let mut faulty = words.to_vec();
                    faulty[place] = fault;
                    refuse(format!("{name}, version word {place} {fault:#x}"), &faulty);
                }
            }
        }
    }
    for third in 1..8 {
        for low in [0, 61, 0x1FFF_FFFF] {
            let third = word(third, low);
            refuse(format!("{third:#x} behind the versions"), &[4, 5, third]);
            let followed = [&[4, 5, third], &good[2..]].concat();
            refuse(format!("{third:#x} before a list"), &followed);
        }
    }
    // A token in an opener's place.
    refuse(
        "a list without an opener".to_string(),
        &[&good[..2], &good[3..]].concat(),
    );
    trials
}

/// Bytes that are no whole word come before all else, also before a list that is refused.
fn bytes_over() -> Vec<Trial> {
    let (ten, _) = archive_of(ten());
    let refused_at = |place: usize| {
        let mut words = ten.clone();
        words[place] = word(7, 0);
        words
    };
    let many = vec![&LADDER; 400];
    let inputs = [
        ("nothing", Vec::new()),
        ("one word", vec![4]),
        ("two versions", vec![4, 5]),
        ("a faulty version", vec![4, 1 << 20]),
        ("no opener", vec![4, 5, word(1, 61)]),
        ("an opener", vec![4, 5, 0]),
        ("ten lists", ten.clone()),
        ("a cut list", ten[..ten.len() - 1].to_vec()),
        ("the first list refused", refused_at(3)),
        ("the last list refused", refused_at(ten.len() - 1)),
        ("129 tokens", archive([words_of(&[61; 129])])),
        ("four hundred lists", archive_of(many).0),
        ("words of no list", vec![u32::MAX; 40_000]),
        ("16,383 words", vec![0; 16_383]),
        ("16,384 words", vec![0; 16_384]),
    ];
    let mut trials = Vec::new();
    for (name, words) in inputs {
        for over in 1..=3 {
            for byte in [0, 0xFF] {
                let longer = [&bytes(&words)[..], &vec![byte; over]].concat();
                let what = format!("{name} and {over} bytes");
                trials.push(Trial::refused(what, longer, 1, 0));
            }
        }
    }
    trials
}

/// What can be wrong with a word of a token of payload variant 1 by its field, and the number of its refusal; a word of kind 0 is no such.
fn faults(good: u32, field: usize) -> Vec<(u32, u32)> {
    let mut faults: Vec<(u32, u32)> = (1..8)
        .filter(|other| *other != kind(good))
        .map(|other| (8, word(other, low(good))))
        .collect();
    match field {
        0 => faults.extend([
            (9, word(1, 111 | 1 << 8)),
            (9, word(1, 255)),
            (9, word(1, 4 << 12)),
            (10, word(1, 61 | 13 << 8)),
            (11, word(1, 61 | 1 << 8 | 1 << 16)),
        ]),
        1 | 2 => {}
        _ => faults.extend([
            (11, word(field as u32 + 1, 1 << 16)),
            (11, word(field as u32 + 1, 1 << 28)),
        ]),
    }
    faults
}

/// A sum whose tokens carry something.
fn carrying() -> Vec<u32> {
    let carrying = |token: Token| Token {
        variant: 1,
        value: 0x1234_5678,
        ..token
    };
    let tokens: Vec<Token> = tokens(SUM.ops).into_iter().map(carrying).collect();
    list_words(&tokens)
}

/// Each fault at each place of each of three lists: the first refused list's refusal, with places from the word after its opener.
fn refused_lists() -> Vec<Trial> {
    let list = carrying();
    let mut trials = Vec::new();
    for number in 0..3 {
        for place in 0..list.len() {
            let mut refuse = |fault: u32, refusal: u32, place_told: usize| {
                let mut lists = vec![list.clone(); 3];
                lists[number][place] = fault;
                // In all that follows nothing is looked at.
                for (behind, list) in lists.iter_mut().enumerate().skip(number + 1) {
                    list[(place + behind) % 15] = u32::MAX;
                }
                let what = format!("{fault:#x} at {place} of list {number}");
                let input = bytes(&archive(&lists));
                trials.push(Trial::refused(what, input, refusal, place_told));
            };
            for (refusal, fault) in faults(list[place], place % TOKEN_WORDS) {
                refuse(fault, refusal, place);
            }
            // An opener in the middle: one of the two lists is then no whole tokens.
            for opener in [0, 61, 0x1FFF_FFFF] {
                refuse(opener, 1, 0);
            }
        }
    }
    trials
}

/// Lists that are cut within a token, and lists of about 128 tokens and of many more.
fn lengths() -> Vec<Trial> {
    let mut trials = Vec::new();
    let list = words_of(&[61, 61, 61]);
    for len in 0..=list.len() {
        for before in 0..2 {
            for behind in 0..2 {
                let mut lists = vec![list.clone(); before];
                lists.push(list[..len].to_vec());
                lists.extend(vec![list.clone(); behind]);
                let input = bytes(&archive(&lists));
                let what = format!("{len} words behind {before} lists, before {behind}");
                trials.push(match len % TOKEN_WORDS {
                    0 => {
                        // Only a float alone is a tree.
                        let same = u64::from(len == 5);
                        let read = (before + 1 + behind) as u64;
                        let both = read - same;
                        Trial::new(what, input, format!("{read}\n{same}\n0\n0\n{both}\n"))
                    }
                    _ => Trial::refused(what, input, 1, 0),
                });
            }
        }
    }
    let sums = |tokens: usize| words_of(&[61, 9].repeat(tokens)[..tokens]);
    for count in [127, 128] {
        let input = bytes(&archive([sums(count), sums(3)]));
        let same = count % 2;
        let lines = format!("2\n{}\n0\n0\n{}\n", 1 + same, 1 - same);
        trials.push(Trial::new(format!("{count} tokens"), input, lines));
    }
    for tokens in [
        129,
        130,
        257,
        MOST_TOKENS,
        MOST_TOKENS + 1,
        13_107,
        13_108,
        40_000,
    ] {
        let mut list = sums(tokens);
        for fault in ["no fault", "a fault"] {
            let input = bytes(&archive([&sums(3), &list, &sums(1)]));
            let what = format!("{tokens} tokens, {fault}");
            trials.push(Trial::refused(what, input, 2, 0));
            list[3] = u32::MAX;
        }
        for more in 1..5 {
            list.push(word(1, 61));
            let input = bytes(&archive([&list]));
            let what = format!("{tokens} tokens and {more} words");
            trials.push(Trial::refused(what, input, 1, 0));
        }
    }
    let mut list = sums(128);
    list[639] = word(6, 0);
    let input = bytes(&archive([sums(3), list]));
    trials.push(Trial::refused("the last word of 128 tokens", input, 8, 639));
    trials
}

fn refusals() -> Vec<Trial> {
    [heads(), bytes_over(), refused_lists(), lengths()]
        .into_iter()
        .flatten()
        .collect()
}

#[test]
#[cfg_attr(not(rust_source), ignore = "the Rust source is not at hand")]
fn the_model_counts_and_refuses_alike() {
    all_alike(&counts(), printed);
    all_alike(&refusals(), printed);
    all_alike(borders().iter().step_by(7), printed);
}

#[test]
#[cfg_attr(not(liftcount), ignore = "liftcount is not built")]
fn known_lists_are_counted() {
    let program = program();
    all_alike(&counts(), |input| program.run(input));
}

#[test]
#[cfg_attr(not(liftcount), ignore = "liftcount is not built")]
fn refusals_in_their_order() {
    let program = program();
    all_alike(&refusals(), |input| program.run(input));
}

// ---- Inputs of many chunks

/// The bytes that the program reads at once, as words.
const CHUNK: usize = 16_384;

/// Lists that are gone through again and again.
const CYCLE: [Known; 6] = [
    SUM,
    LADDER,
    COLON,
    ROOTS,
    known(Verdict::Same, &[61, 9, 61, 9, 61, 9, 61, 9, 61, 9, 61]),
    EMPTY,
];

/// Inputs of more than two chunks behind so many openers that a chunk ends at each word of the lists in one of them; and each with a
/// fault in the last word of the first chunk, and in the first one of the second.
fn borders() -> Vec<Trial> {
    let cycle = archive_of(&CYCLE).0.len() - 2;
    let mut trials = Vec::new();
    for openers in 0..cycle {
        let empty = std::iter::repeat_n(&EMPTY, openers);
        let lists = std::iter::repeat_n(&CYCLE, 2 * CHUNK / cycle + 2).flatten();
        let (words, counts) = archive_of(empty.chain(lists));
        for border in [CHUNK - 1, CHUNK] {
            let mut faulty = words.clone();
            faulty[border] = word(7, 0);
            // The fault's list begins behind the last opener before it.
            let before = &words[..border];
            let opener = before.iter().rposition(|word| kind(*word) == 0);
            let begins = opener.expect("versions and openers") + 1;
            let ends = words[border + 1..].iter().position(|word| kind(*word) == 0);
            let len = border + 1 + ends.expect("lists to the end") - begins;
            let what = format!("{openers} openers, a fault at {border}");
            let whole = len.is_multiple_of(TOKEN_WORDS);
            let (number, place) = if whole { (8, border - begins) } else { (1, 0) };
            trials.push(Trial::refused(what, bytes(&faulty), number, place));
        }
        let what = format!("{openers} openers");
        trials.push(Trial::new(what, bytes(&words), counts.lines()));
    }
    trials
}

#[test]
#[cfg_attr(not(liftcount), ignore = "liftcount is not built")]
fn a_chunk_may_end_at_any_word() {
    let program = program();
    all_alike(&borders(), |input| program.run(input));
}

#[test]
#[cfg_attr(not(liftcount), ignore = "liftcount is not built")]
fn an_input_in_pieces_is_the_same_input() {
    let program = program();
    let (short, _) = archive_of(ten());
    let (long, counts) = archive_of(std::iter::repeat_n(&CYCLE, 400).flatten());
    assert!(long.len() > 3 * CHUNK);
    let mut refused_late = long.clone();
    let last = refused_late.len() - 2;
    refused_late[last] = u32::MAX;
    let over = [&bytes(&long)[..], &[0; 3]].concat();
    let inputs = [
        (bytes(&short), TEN.to_string()),
        (bytes(&long), counts.lines()),
        (bytes(&refused_late), refused(8, 54)),
        (over, refused(1, 0)),
    ];
    let large = [4_095, 4_096, 4_097, 65_535, 65_536, 65_537, 100_000];
    for (input, printed) in inputs {
        for size in (1..=9).chain(large) {
            assert_eq!(program.run_pieces(input.chunks(size)), printed, "{size}");
        }
    }
}

/// The most memory that a process has had, in KiB.
fn most_memory(process: u32) -> Option<u64> {
    let status = std::fs::read_to_string(format!("/proc/{process}/status")).ok()?;
    let line = status
        .lines()
        .find_map(|line| line.strip_prefix("VmHWM:"))?;
    line.trim().strip_suffix(" kB")?.parse().ok()
}

#[test]
#[cfg_attr(not(liftcount), ignore = "liftcount is not built")]
fn memory_does_not_grow_with_the_input() {
    let again = |times: usize| std::iter::repeat_n(&CYCLE, times).flatten();
    let (words, _) = archive_of(again(1_000));
    let (versions, lists) = (bytes(&words[..2]), bytes(&words[2..]));
    let mut child = program().spawn();
    let mut input = child.stdin.take().expect("its input is a pipe");
    let mut most = Vec::new();
    input.write_all(&versions).expect("the program reads on");
    for _ in 0..60 {
        input.write_all(&lists).expect("the program reads on");
        most.extend(most_memory(child.id()));
    }
    drop(input);
    let done = child.wait_with_output().expect("the program ends");
    let counts = Counts::of(again(60_000).map(|known| known.verdict));
    assert_eq!(String::from_utf8(done.stdout), Ok(counts.lines()));
    // What it has had behind the first half a megabyte is what it has had at the end.
    if let (Some(early), Some(late)) = (most.first(), most.last()) {
        assert!(late - early < 256, "{most:?} KiB");
    }
}

// ---- Random archives

/// So many of them, with what is printed for each by the Rust.
fn random(seed: u64, count: usize) -> impl Iterator<Item = Trial> {
    let archives = Archives::new(seed).take(count).enumerate();
    archives.map(|(number, input)| {
        let printed = printed(&input);
        Trial::new(format!("archive {number}"), input, printed)
    })
}

#[test]
#[cfg_attr(not(rust_source), ignore = "the Rust source is not at hand")]
fn random_archives_have_every_count_and_every_refusal() {
    let (mut sum, mut refused, mut long) = (Counts::default(), [0; 12], 0);
    for input in Archives::new(1).take(5_000) {
        long += usize::from(input.len() > 4 * CHUNK);
        match Lists::of(&input).and_then(|lists| lists.verdicts()) {
            Ok(verdicts) => sum = sum.plus(&Counts::of(verdicts)),
            Err((number, _)) => refused[number as usize] += 1,
        }
    }
    let counts = [sum.same, sum.different, sum.one, sum.both];
    assert!(counts.into_iter().all(|count| count > 1_000), "{sum:?}");
    assert_eq!(counts.into_iter().sum::<u64>(), sum.read);
    let often = [1, 2, 8, 9, 11]
        .into_iter()
        .all(|number| refused[number] > 30);
    assert!(often && refused[10] > 0 && long > 10, "{refused:?}, {long}");
}

#[test]
#[cfg_attr(not(liftcount), ignore = "liftcount is not built")]
#[cfg_attr(
    all(liftcount, not(rust_source)),
    ignore = "the Rust source is not at hand"
)]
fn random_archives() {
    let program = program();
    for trial in random(1, 3_000) {
        all_alike([&trial], |input| program.run(input));
    }
}

// ---- Mistakes

type Judge = fn(&[u32], i16, i16) -> Verdict;

/// A program that differs from the model in what a list comes to.
fn judging(input: &[u8], judge: Judge) -> String {
    reading(input, |lists| {
        lists.verdicts()?;
        let verdicts = lists.lists.iter();
        Ok(verdicts
            .map(|list| judge(list, lists.from, lists.to))
            .collect())
    })
}

/// A program that differs from it in which lists it counts, and which it refuses.
fn reading(
    input: &[u8],
    verdicts: impl Fn(&Lists) -> Result<Vec<Verdict>, (u32, usize)>,
) -> String {
    match Lists::of(input).and_then(|lists| verdicts(&lists)) {
        Ok(verdicts) => Counts::of(verdicts).lines(),
        Err((number, place)) => refused(number, place),
    }
}

/// A program that differs from it in what it prints of its counts.
fn telling(input: &[u8], told: fn(Counts) -> Counts) -> String {
    match Lists::of(input).and_then(|lists| lists.verdicts()) {
        Ok(verdicts) => told(Counts::of(verdicts)).lines(),
        Err((number, place)) => refused(number, place),
    }
}

/// A program that takes other words for the input's.
fn taking(input: &[u8], change: impl Fn(&mut Vec<u32>)) -> String {
    match words_in(input) {
        None => refused(1, 0),
        Some(mut words) => {
            change(&mut words);
            printed(&bytes(&words))
        }
    }
}

const COUNTS: [(&str, Mistaken); 5] = [
    ("one and both exchanged", |input| {
        telling(input, |counts| Counts {
            one: counts.both,
            both: counts.one,
            ..counts
        })
    }),
    ("same and different exchanged", |input| {
        telling(input, |counts| Counts {
            same: counts.different,
            different: counts.same,
            ..counts
        })
    }),
    ("a list too many", |input| {
        telling(input, |counts| Counts {
            read: counts.read + 1,
            ..counts
        })
    }),
    ("no line's end", |input| {
        let mut text = printed(input);
        text.pop();
        text
    }),
    ("counts before a refusal", |input| {
        match Lists::of(input).map(|lists| lists.verdicts()) {
            Ok(Err((number, place))) => Counts::default().lines() + &refused(number, place),
            _ => printed(input),
        }
    }),
];

const VERDICTS: [(&str, Mistaken); 7] = [
    ("the first version twice", |input| {
        judging(input, |list, from, _| verdict(list, from, from))
    }),
    ("the second version twice", |input| {
        judging(input, |list, _, to| verdict(list, to, to))
    }),
    ("versions without a sign", |input| {
        let unsigned = |version: i16| if version < 0 { i16::MAX } else { version };
        reading(input, |lists| {
            Lists {
                from: unsigned(lists.from),
                to: unsigned(lists.to),
                lists: lists.lists.clone(),
            }
            .verdicts()
        })
    }),
    ("every two trees the same", |input| {
        judging(input, |list, from, to| {
            judged(tree(list, from), tree(list, to), |_, _| true)
        })
    }),
    ("trees by their number of nodes", |input| {
        judging(input, |list, from, to| {
            let same = |one: &[TreeNode], other: &[TreeNode]| one.len() == other.len();
            judged(tree(list, from), tree(list, to), same)
        })
    }),
    ("every operator used", |input| {
        judging(input, |list, from, to| {
            let tree = |version| {
                let tokens = decode_list(list).expect("the list is not refused");
                let mut case = own_case(tokens, version);
                case.used = oracle::words::FULL_SET;
                oracle::tree_if_at_hand(&case).expect("the Rust is at hand")
            };
            judged(tree(from), tree(to), |one, other| one == other)
        })
    }),
    ("another message taken for a tree", |input| {
        judging(input, |list, from, to| {
            let answer = |version| {
                let tokens = decode_list(list).expect("the list is not refused");
                oracle::answer_if_at_hand(&own_case(tokens, version))
            };
            match verdict(list, from, to) {
                Verdict::Both if answer(from) != answer(to) => Verdict::One,
                verdict => verdict,
            }
        })
    }),
];

const REFUSALS: [(&str, Mistaken); 14] = [
    ("places from the opener", |input| {
        reading(input, |lists| {
            let from_the_opener = |(number, place)| (number, place + usize::from(number > 2));
            lists.verdicts().map_err(from_the_opener)
        })
    }),
    ("129 tokens counted", |input| {
        reading(input, |lists| {
            let is_129 = |list: &[u32]| list.len() == 645 && decode_list(list).is_some();
            let refused = lists.lists.iter().filter(|list| !is_129(list));
            if let Some(refused) = refused.clone().find_map(|list| list_refusal(list)) {
                return Err(refused);
            }
            let verdicts = lists.lists.iter();
            Ok(verdicts
                .map(|list| verdict(list, lists.from, lists.to))
                .collect())
        })
    }),
    ("the last refused list told", |input| {
        reading(input, |lists| {
            let verdicts = lists.verdicts();
            let mut refusals = lists.lists.iter().rev();
            verdicts.map_err(|first| {
                refusals
                    .find_map(|list| list_refusal(list))
                    .unwrap_or(first)
            })
        })
    }),
    ("a refused list passed over", |input| {
        reading(input, |lists| {
            let mut lists = lists.clone();
            lists.lists.retain(|list| list_refusal(list).is_none());
            lists.verdicts()
        })
    }),
    ("an empty list passed over", |input| {
        reading(input, |lists| {
            let mut lists = lists.clone();
            lists.lists.retain(|list| !list.is_empty());
            lists.verdicts()
        })
    }),
    ("the last list left out", |input| {
        reading(input, |lists| {
            let mut lists = lists.clone();
            lists.lists.pop();
            lists.verdicts()
        })
    }),
    ("the first list left out", |input| {
        reading(input, |lists| {
            let mut lists = lists.clone();
            lists.lists.drain(..lists.lists.len().min(1));
            lists.verdicts()
        })
    }),
    ("low bits of openers looked at", |input| {
        taking(input, |words| {
            let openers = words.iter_mut().skip(2);
            let openers = openers.filter(|word| kind(**word) == 0 && **word > 0xFFFF);
            openers.for_each(|word| *word |= 1 << 31);
        })
    }),
    ("words before the first opener passed over", |input| {
        taking(input, |words| {
            if words.len() > 2 && words[..2].iter().all(|word| *word <= 0xFFFF) {
                let opener = words[2..].iter().position(|word| kind(*word) == 0);
                words.drain(2..2 + opener.unwrap_or(words.len() - 2));
            }
        })
    }),
    ("bits of versions passed over", |input| {
        taking(input, |words| {
            words.iter_mut().take(2).for_each(|word| *word &= 0xFFFF)
        })
    }),
    ("one version", |input| {
        taking(input, |words| {
            if words.len() == 1 {
                words.push(words[0]);
            }
        })
    }),
    ("a chunk's last word lost", |input| {
        taking(input, |words| {
            let mut place = 0;
            words.retain(|_| {
                place += 1;
                place % CHUNK != 0
            });
        })
    }),
    ("bytes over passed over", |input| {
        printed(&input[..input.len() & !3])
    }),
    ("bytes over passed over behind a refused list", |input| {
        let whole = &input[..input.len() & !3];
        match Lists::of(whole).map(|lists| lists.verdicts()) {
            Ok(Err((number, place))) => refused(number, place),
            _ => printed(input),
        }
    }),
];

#[test]
#[cfg_attr(not(rust_source), ignore = "the Rust source is not at hand")]
fn mistakes_are_found() {
    let trials: Vec<Trial> = counts().into_iter().chain(refusals()).collect();
    let trials = trials.into_iter().chain(random(2, 1_000)).chain(borders());
    let trials: Vec<Trial> = trials.collect();
    all_found(&trials, COUNTS.into_iter().chain(VERDICTS).chain(REFUSALS));
}

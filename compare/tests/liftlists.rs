//! The program `liftlists`: the bytes that it writes beside the model's, of random archives, of inputs that end behind any byte or come in
//! any pieces, of lists up to the most tokens and over them, of files of several chunks; and mistakes that these find. It is run where
//! `make` puts it (`target/bin/liftlists`), or at `LIFTLISTS`; where it is not built, what runs it is ignored. Without the static
//! library nothing of this is built.
#![cfg(library)]

use compare::lift_archives::Archives;
use compare::liftlists::{Input, Opened, carried, written};
use compare::listing::{bytes, tokens, version_word};
use compare::programs::Program;
use oracle::generate::Rng;
use oracle::words::{MOST_TOKENS, TOKEN_WORDS, kind, list_words, word};

/// The program reads so many bytes at once, and hands over what it has laid from so many on.
const CHUNK: usize = 65_536;

fn program() -> Program {
    Program::named("liftlists")
}

/// Panics where the program writes something else than the model.
fn alike(program: &Program, what: &str, input: &[u8]) {
    same(what, &program.write_pieces([input]), &written(input));
}

/// Panics where two outputs differ, and says where.
fn same(what: &str, found: &[u8], wanted: &[u8]) {
    let differs = found
        .iter()
        .zip(wanted)
        .position(|(one, other)| one != other);
    let place = differs.unwrap_or(found.len().min(wanted.len()));
    assert!(
        found == wanted,
        "{what}: {} bytes and not {}, otherwise from byte {place} on",
        found.len(),
        wanted.len()
    );
}

// ---- Lists

fn words_of(ops: &[u16]) -> Vec<u32> {
    list_words(&tokens(ops))
}

/// `a ? b : c ? d : e`, which versions 4 and 5 read differently.
const LADDER: &[u16] = &[61, 59, 61, 60, 61, 59, 61, 60, 61];
/// `a + b`, the same at every version.
const SUM: &[u16] = &[61, 9, 61];
/// `a : b`, which has no tree at version 5.
const COLON: &[u16] = &[61, 60, 61];
/// `a b`, which has no tree.
const ROOTS: &[u16] = &[61, 61];

/// An input: the new version, and lists behind their openers.
fn input<L: AsRef<[u32]>>(to: u32, lists: impl IntoIterator<Item = (u32, L)>) -> Vec<u32> {
    let mut words = vec![to];
    for (opener, list) in lists {
        words.push(opener);
        words.extend(list.as_ref());
    }
    words
}

/// Lists of every fate, from version 4 to 5: with an empty one, one that has a wrong kind, one that is no whole tokens, and one whose
/// opener is no version.
fn every_fate() -> Vec<u32> {
    let mut wrong = words_of(SUM);
    wrong[5] = word(3, 0);
    let mut cut = words_of(SUM);
    cut.pop();
    let lists = [
        (4, words_of(LADDER)),
        (4, words_of(SUM)),
        (4, Vec::new()),
        (4, words_of(COLON)),
        (4, wrong),
        (5, words_of(LADDER)),
        (4, cut),
        (1 << 16 | 4, words_of(LADDER)),
        (version_word(-1), words_of(LADDER)),
        (4, words_of(ROOTS)),
        (4, words_of(LADDER)),
    ];
    input(5, lists)
}

#[test]
fn lists_that_are_known() {
    let lifted = Input::of(&bytes(&every_fate())).expect("a version");
    let lists = lifted.lifted().lists;
    let openers: Vec<u32> = lists.iter().map(|list| list.opener).collect();
    assert_eq!(openers, [5, 5, 4, 4, 4, 5, 4, 1 << 16 | 4, 5, 4, 5]);
    // Only what was read otherwise is written, with brackets around `c ? d : e` or before it.
    let longer = |(list, new): (&Opened, &Opened)| new.words.len() - list.words.len();
    let longer: Vec<usize> = lifted.lists.iter().zip(&lists).map(longer).collect();
    let two = 2 * TOKEN_WORDS;
    assert_eq!(longer, [two, 0, 0, 0, 0, 0, 0, 0, two, 0, two]);
}

// ---- Where an input begins and ends

/// Words that are no version, alone and before lists; and what stands before the first list.
fn beginnings() -> Vec<(String, Vec<u8>)> {
    let mut inputs = vec![("nothing".to_string(), Vec::new())];
    for bit in 16..32 {
        for first in [1 << bit, 1 << bit | 5] {
            let lists = input(first, [(4, words_of(LADDER))]);
            inputs.push((format!("{first:#x}"), bytes(&[first])));
            inputs.push((format!("{first:#x} before a list"), bytes(&lists)));
        }
    }
    for first in [0, 5, 0x7FFF, 0x8000, 0xFFFF] {
        inputs.push((format!("version {first:#x} alone"), bytes(&[first])));
        let list = input(first, [(4, words_of(LADDER))]);
        inputs.push((format!("a list to {first:#x}"), bytes(&list)));
        // Words before the first opener, up to two tokens.
        for before in 1..=10 {
            let lists = [&[first], &words_of(ROOTS)[..before], &list[1..]].concat();
            let what = format!("{before} words before a list to {first:#x}");
            inputs.push((what, bytes(&lists)));
        }
    }
    for opener in (0..29).map(|bit| 1 << bit).chain([0, 0xFFFF, 0x1FFF_FFFF]) {
        let lists = input(5, [(opener, words_of(LADDER)), (4, words_of(LADDER))]);
        inputs.push((format!("opener {opener:#x}"), bytes(&lists)));
    }
    inputs
}

#[test]
#[cfg_attr(not(liftlists), ignore = "liftlists is not built")]
fn beginnings_and_openers() {
    let program = program();
    for (what, input) in beginnings() {
        alike(&program, &what, &input);
    }
    for input in [
        &b""[..],
        b"\x05",
        b"\x05\0\0",
        b"\0\0\x01\0",
        b"\xFF\xFF\xFF\xFF\x04",
    ] {
        assert_eq!(program.write_pieces([input]), b"refused 8 0\n");
    }
}

#[test]
#[cfg_attr(not(liftlists), ignore = "liftlists is not built")]
fn an_input_that_ends_behind_any_byte() {
    let (program, input) = (program(), bytes(&every_fate()));
    for end in 0..=input.len() {
        alike(&program, &format!("{end} bytes"), &input[..end]);
    }
}

#[test]
#[cfg_attr(not(liftlists), ignore = "liftlists is not built")]
fn an_input_in_any_two_pieces() {
    let (program, input) = (program(), bytes(&every_fate()));
    let wanted = written(&input);
    for cut in 0..=input.len() {
        let found = program.write_pieces([&input[..cut], &input[cut..]]);
        same(&format!("cut behind {cut} bytes"), &found, &wanted);
    }
    let found = program.write_pieces(input.chunks(1));
    same("byte by byte", &found, &wanted);
}

// ---- Long lists, and long files

/// Lists up to the most tokens and over them, each between others: some that are lifted, some that stay, and some that are too long if
/// they are written.
fn long_lists() -> Vec<(String, Vec<u8>)> {
    let most = MOST_TOKENS * TOKEN_WORDS;
    let sum = |count: usize| words_of(&[61, 9].repeat(count.div_ceil(2))[..count]);
    let ladder = |steps: usize| {
        let mut ops = [61, 59, 61, 60].repeat(steps);
        ops.push(61);
        words_of(&ops)
    };
    let rubbish = |count: usize| vec![word(7, 0x1FFF_FFFF); count];
    let mut lists = Vec::new();
    for steps in [100, 500, 682, 683, 684, 1_023, 1_024] {
        lists.push(("a ladder", ladder(steps)));
    }
    for count in [4_095, 4_096, 4_097, 4_099] {
        lists.push(("a sum", sum(count)));
    }
    for count in [
        most - 1,
        most,
        most + 1,
        most + 2,
        most + 5,
        3 * most,
        10 * most,
    ] {
        lists.push(("rubbish", rubbish(count)));
    }
    let known = || [(4, words_of(LADDER)), (4, words_of(ROOTS))];
    let lists = lists.into_iter().map(|(name, list)| {
        let what = format!("{name}, {} words", list.len());
        let between = known().into_iter().chain([(4, list)]).chain(known());
        (what, bytes(&input(5, between)))
    });
    lists.collect()
}

#[test]
#[cfg_attr(not(liftlists), ignore = "liftlists is not built")]
fn lists_of_the_most_tokens_and_longer_ones() {
    let program = program();
    for (what, input) in long_lists() {
        alike(&program, &what, &input);
    }
}

/// A file of these lists again and again.
fn again(to: u32, times: usize) -> Vec<u8> {
    let fates = every_fate();
    let mut words = vec![to];
    (0..times).for_each(|_| words.extend(&fates[1..]));
    bytes(&words)
}

/// Files about one chunk long, two and many; the words at the chunks' ends are those of every place of a list.
#[test]
#[cfg_attr(not(liftlists), ignore = "liftlists is not built")]
fn files_of_several_chunks() {
    let program = program();
    let long = again(5, 600);
    assert!(long.len() > 6 * CHUNK, "{}", long.len());
    let model = Input::of(&long).expect("a version").lifted();
    same(
        "600 times",
        &program.write_pieces([&long[..]]),
        &model.file(),
    );
    // The new version is four bytes, read by themselves.
    for end in (CHUNK - 8..CHUNK + 16).chain(2 * CHUNK..2 * CHUNK + 8) {
        alike(&program, &format!("{end} bytes"), &long[..end]);
    }
    // A list's place in the chunk: words before the first list move it.
    for moved in 0..64 {
        let before = bytes(&vec![word(1, 61); moved]);
        let input = [&long[..4], &before, &long[4..CHUNK + 400]].concat();
        alike(&program, &format!("moved by {moved} words"), &input);
    }
}

/// The most memory that a process has had, in KiB, if the system says it.
fn most_memory(process: u32) -> Option<u64> {
    let status = std::fs::read_to_string(format!("/proc/{process}/status")).ok()?;
    let line = status.lines().find(|line| line.starts_with("VmHWM:"))?;
    line.split_whitespace().nth(1)?.parse().ok()
}

/// Forty times as much again takes no more memory.
#[test]
#[cfg_attr(not(liftlists), ignore = "liftlists is not built")]
fn memory_does_not_grow() {
    use std::io::{Read, Write};
    let (first, lists) = (bytes(&[5]), again(5, 400)[4..].to_vec());
    let mut child = program().spawn();
    let mut input = child.stdin.take().expect("its input is a pipe");
    let mut output = child.stdout.take().expect("its output is a pipe");
    let process = child.id();
    let reading = std::thread::spawn(move || {
        let mut len = 0;
        let mut space = vec![0; CHUNK];
        loop {
            match output.read(&mut space).expect("the program writes") {
                0 => return len,
                more => len += more,
            }
        }
    });
    input.write_all(&first).expect("the program reads on");
    let mut most = Vec::new();
    for _ in 0..40 {
        input.write_all(&lists).expect("the program reads on");
        most.extend(most_memory(process));
    }
    drop(input);
    let len = reading.join().expect("the output is read");
    assert!(child.wait().expect("the program ends").success());
    let once = written(&[&first[..], &lists].concat()).len();
    assert_eq!(len, 40 * once);
    if let (Some(early), Some(late)) = (most.first(), most.last()) {
        assert!(late - early < 256, "{most:?} KiB");
    }
}

// ---- Random archives

/// Random archives: those of `liftcount` without the old version, most of their openers made versions.
fn random(seed: u64, count: usize) -> impl Iterator<Item = Vec<u8>> {
    let mut rng = Rng::new(seed ^ 0x11F8);
    Archives::new(seed).take(count).map(move |archive| {
        let (words, tail) = archive.split_at(archive.len() & !3);
        let mut words: Vec<u32> = words
            .as_chunks()
            .0
            .iter()
            .map(|word| u32::from_le_bytes(*word))
            .collect();
        words.drain(..words.len().min(1));
        for word in words.iter_mut().skip(1).filter(|word| kind(**word) == 0) {
            if rng.chance(85) {
                let version = *rng.pick(&[4, 4, 4, 5, 5, 6, -1, i16::MIN, i16::MAX]);
                *word = version_word(version);
            }
        }
        [&bytes(&words)[..], tail].concat()
    })
}

/// How many lists of an input are as they were under the new version, are written, and keep another version.
fn fates(input: &Input) -> [usize; 3] {
    let mut fates = [0; 3];
    for list in &input.lists {
        let new = carried(input.to, list);
        let fate = match (new.words == list.words, new.opener == input.to) {
            (false, _) => 1,
            (true, true) => 0,
            (true, false) => 2,
        };
        fates[fate] += 1;
    }
    fates
}

#[test]
fn random_archives_have_every_fate() {
    let (mut sum, mut refused, mut long, mut tails, mut before) = ([0; 3], 0, 0, 0, 0);
    for input in random(1, 3_000) {
        long += usize::from(input.len() > CHUNK);
        let Some(input) = Input::of(&input) else {
            refused += 1;
            continue;
        };
        let fates = fates(&input);
        assert_eq!(fates.iter().sum::<usize>(), input.lists.len());
        (0..3).for_each(|fate| sum[fate] += fates[fate]);
        tails += usize::from(!input.tail.is_empty());
        before += usize::from(!input.before.is_empty());
    }
    let often = sum.iter().all(|&lists| lists > 300);
    let all = refused > 5 && long > 2 && tails > 20 && before > 5;
    assert!(
        often && all,
        "{sum:?}, {refused}, {long}, {tails}, {before}"
    );
}

#[test]
#[cfg_attr(not(liftlists), ignore = "liftlists is not built")]
fn random_archives() {
    let program = program();
    for (number, input) in random(1, 3_000).enumerate() {
        alike(&program, &format!("archive {number}"), &input);
    }
}

// ---- Mistakes

/// A program with a mistake.
type Mistaken = fn(&[u8]) -> Vec<u8>;

/// A program that differs from the model in what it makes of an input.
fn making(input: &[u8], make: impl Fn(&Input) -> Input) -> Vec<u8> {
    Input::of(input).map_or_else(|| written(input), |input| make(&input).file())
}

/// A program that differs from it in what becomes of a list.
fn carrying(input: &[u8], carry: impl Fn(u32, &Opened, Opened) -> Opened) -> Vec<u8> {
    making(input, |input| {
        let mut made = input.lifted();
        for (new, list) in made.lists.iter_mut().zip(&input.lists) {
            *new = carry(input.to, list, new.clone());
        }
        made
    })
}

const MISTAKES: [(&str, Mistaken); 11] = [
    ("the new version on a list that stays behind", |input| {
        carrying(input, |to, _, new| Opened { opener: to, ..new })
    }),
    ("the old version on a list that stays", |input| {
        carrying(input, |_, list, new| match new.words == list.words {
            true => list.clone(),
            false => new,
        })
    }),
    ("everything left behind", |input| {
        carrying(input, |_, list, _| list.clone())
    }),
    ("the last list dropped", |input| {
        making(input, |input| {
            let mut made = input.lifted();
            made.lists.pop();
            made
        })
    }),
    ("an empty list dropped", |input| {
        making(input, |input| {
            let mut made = input.lifted();
            made.lists.retain(|list| !list.words.is_empty());
            made
        })
    }),
    ("a list's opener lost", |input| {
        making(input, |input| {
            let mut made = input.lifted();
            if !made.lists.is_empty() {
                let first = made.lists.remove(0);
                made.before.extend(first.words);
            }
            made
        })
    }),
    ("words before the first list lost", |input| {
        making(input, |input| Input {
            before: Vec::new(),
            ..input.lifted()
        })
    }),
    ("bytes behind the last word lost", |input| {
        making(input, |input| Input {
            tail: Vec::new(),
            ..input.lifted()
        })
    }),
    ("a long list cut", |input| {
        carrying(input, |_, _, mut new| {
            new.words.truncate(MOST_TOKENS * TOKEN_WORDS);
            new
        })
    }),
    ("bits of openers passed over", |input| {
        carrying(input, |to, list, _| {
            let opener = list.opener & 0xFFFF;
            let taken = Opened {
                opener,
                ..list.clone()
            };
            let new = carried(to, &taken);
            if new == taken { list.clone() } else { new }
        })
    }),
    ("bits of the new version passed over", |input| {
        let mut input = input.to_vec();
        if input.len() >= 4 {
            input[2..4].fill(0);
        }
        written(&input)
    }),
];

#[test]
fn mistakes_are_found() {
    let known = bytes(&every_fate());
    let mut inputs = vec![known.clone(), known[..known.len() - 2].to_vec()];
    inputs.extend(beginnings().into_iter().map(|(_, input)| input));
    inputs.extend(
        long_lists()
            .into_iter()
            .map(|(_, input)| input)
            .rev()
            .take(4),
    );
    inputs.extend(random(2, 100));
    for (name, mistaken) in MISTAKES {
        let found = inputs.iter().any(|input| mistaken(input) != written(input));
        assert!(found, "{name} is not found");
    }
}

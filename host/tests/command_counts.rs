//! `sorbrudder diff` and the program `liftcount` (card 10) come to the same counts of the same lists. The program is run where `make`
//! puts it (`target/bin/liftcount`), or at `LIFTCOUNT`; where it is not built, the tests are left out, and say so.

mod common;

use common::command::{SEVEN, archive, folder, run, words};
use common::kept_lists;
use sorbrudder::archive::{Format, Lists, ListsWriter};
use sorbrudder::{ReadError, Reader, Token};
use std::collections::BTreeMap;
use std::io::Write as _;
use std::path::{Path, PathBuf};
use std::process::{Command, Stdio};

/// Lists read, same tree, different trees, a message at one version only, at both.
type Counts = [u64; 5];

fn plus(one: Counts, other: Counts) -> Counts {
    std::array::from_fn(|count| one[count] + other[count])
}

/// The program, where it is built.
fn liftcount() -> Option<PathBuf> {
    let path = match std::env::var_os("LIFTCOUNT") {
        Some(path) => PathBuf::from(path),
        None => Path::new(env!("CARGO_MANIFEST_DIR")).join("../target/bin/liftcount"),
    };
    if !path.is_file() {
        eprintln!("no {}: the test was left out", path.display());
        return None;
    }
    Some(path)
}

/// What the program prints: a plain file of words is its input, behind the words of the two versions.
fn printed(program: &Path, from: i16, to: i16, plain: &[u8]) -> String {
    let versions = [from, to].map(|version| u32::from(version as u16).to_le_bytes());
    let mut child = Command::new(program)
        .stdin(Stdio::piped())
        .stdout(Stdio::piped())
        .spawn()
        .expect("the program starts");
    let mut input = child.stdin.take().expect("a pipe");
    input
        .write_all(versions.as_flattened())
        .expect("it reads on");
    // It prints nothing before the end of its input.
    input.write_all(plain).expect("it reads on");
    drop(input);
    let done = child.wait_with_output().expect("it ends");
    String::from_utf8(done.stdout).expect("text")
}

/// What the program counts.
fn counted(program: &Path, from: i16, to: i16, plain: &[u8]) -> Counts {
    let printed = printed(program, from, to, plain);
    let counts: Result<Vec<u64>, _> = printed.lines().map(str::parse).collect();
    let counts = counts.unwrap_or_else(|_| panic!("no counts: {printed}"));
    counts.try_into().expect("five counts")
}

/// What the command counts, from its last line.
fn told(folder: &Path, path: &str, to: i16) -> Counts {
    let diff = run(folder, &["diff", path, "--to", &to.to_string()]);
    let summary = diff.err.lines().last().expect("a summary");
    let numbers = summary.split(|sign: char| !sign.is_ascii_digit());
    let numbers: Vec<u64> = numbers.filter_map(|number| number.parse().ok()).collect();
    let [
        lists,
        version,
        same,
        differ,
        only_old,
        only_new,
        none,
        refused,
    ] = numbers[..]
    else {
        panic!("another summary: {summary}");
    };
    assert_eq!((version, refused), (to as u64, 0), "{summary}");
    [lists, same, differ, only_old + only_new, none]
}

/// A plain file of lists of one version.
fn plain<'l>(version: i16, lists: impl IntoIterator<Item = &'l Vec<u32>>) -> Vec<u8> {
    let mut writer = ListsWriter::new(Vec::new(), Format::Words).expect("bytes");
    for list in lists {
        writer.write(version, list).expect("bytes");
    }
    writer.finish().expect("bytes").0
}

/// The lists of archives by their versions.
fn by_version(archives: &[Vec<u8>]) -> BTreeMap<i16, Vec<Vec<u32>>> {
    let mut kept: BTreeMap<i16, Vec<Vec<u32>>> = BTreeMap::new();
    for bytes in archives {
        let mut lists = Lists::new(&bytes[..]).expect("an archive");
        while let Some(list) = lists.next_list().expect("a whole archive") {
            let of_version = kept.entry(list.version).or_default();
            of_version.push(list.words.to_vec());
        }
    }
    kept
}

/// What the program counts of all lists, those of each version by themselves.
fn counted_of_all(program: &Path, archives: &[Vec<u8>], to: i16) -> Counts {
    let lists = by_version(archives).into_iter();
    let counts = lists.map(|(from, lists)| counted(program, from, to, &plain(from, &lists)));
    counts.fold([0; 5], plus)
}

#[test]
fn seven_lists() {
    let Some(program) = liftcount() else {
        return;
    };
    let folder = folder("counts_seven");
    let bytes = archive(Format::Container, &SEVEN);
    std::fs::write(folder.join("seven"), &bytes).expect("a file");
    let archives = [bytes];
    for to in [4, 5, 6] {
        let counts = counted_of_all(&program, &archives, to);
        assert_eq!(counts, told(&folder, "seven", to), "to {to}");
    }
    let to_6 = counted_of_all(&program, &archives, 6);
    assert_eq!(to_6, [7, 2, 3, 1, 1]);
}

#[test]
fn the_sample_archives() {
    let Some(program) = liftcount() else {
        return;
    };
    let folder = folder("counts_sample");
    let test = std::env::current_exe().expect("this test's own file");
    let built = test.ancestors().nth(2).expect("target/PROFILE/deps/TEST");
    let mut sample = Command::new(built.join("examples/sample"));
    let made = sample.arg(folder.join("in")).output();
    assert!(
        made.expect("cargo test builds the examples")
            .status
            .success()
    );
    let names = ["gates.lists", "mill/doses.lists", "old.words"];
    let read = |name| std::fs::read(folder.join("in").join(name)).expect("a file");
    let archives = names.map(read);
    for to in [4, 5, 6] {
        let counts = counted_of_all(&program, &archives, to);
        assert_eq!(counts, told(&folder, "in", to), "to {to}");
        assert_eq!(counts[0], 9);
    }
}

/// The kept lists that are not refused, of up to 128 tokens.
fn readable_lists() -> Vec<Vec<u32>> {
    let mut reader = Reader::new();
    let mut lists = kept_lists();
    lists.retain(|list| {
        let read = reader.read_words(list, 6);
        list.len() <= 128 * Token::WORDS && !matches!(read, Err(ReadError::Refused(_)))
    });
    lists
}

#[test]
fn the_kept_lists() {
    let Some(program) = liftcount() else {
        return;
    };
    let folder = folder("counts_kept");
    let lists = readable_lists();
    assert!(lists.len() > 20_000, "{} lists", lists.len());
    for (from, to) in [(4, 5), (5, 6), (4, 6), (6, 4), (5, 5)] {
        let bytes = plain(from, &lists);
        std::fs::write(folder.join("plain"), &bytes).expect("a file");
        let counts = counted(&program, from, to, &bytes);
        assert_eq!(counts, told(&folder, "plain", to), "{from} to {to}");
        assert_eq!(counts[0], lists.len() as u64);
        let each = counts.iter().all(|count| *count > 20);
        assert_eq!(each, from != to, "{from} to {to}: {counts:?}");
    }
}

#[test]
fn a_refused_list_ends_the_count_and_not_the_command() {
    let Some(program) = liftcount() else {
        return;
    };
    let folder = folder("counts_refused");
    let mut refused = words("a + b");
    refused[5] = 1 << 29 | 111;
    let bytes = plain(4, &[words("a"), refused, words("a : b")]);
    std::fs::write(folder.join("plain"), &bytes).expect("a file");
    let diff = run(&folder, &["diff", "plain", "--to", "5"]);
    let summary = "3 lists at version 5: 1 read alike, 0 otherwise, 1 trees no longer, 0 trees only then, 0 no trees at all, 1 refused\n";
    assert!(diff.err.ends_with(summary), "{}", diff.err);
    assert_eq!(printed(&program, 4, 5, &bytes), "refused 9 5\n");
}

//! The programs if reading or writing fails: nothing more is printed, and a line on standard error says so. Each is run where `make`
//! puts it (`target/bin`), or where the environment variable of its name in capitals says; where it is not built, the tests are ignored.

use compare::everylist::Asked;
use compare::listing::{bytes, tokens, version_word};
use compare::programs::{Program, Said};
use oracle::words::list_words;
use std::fs::File;
use std::io::Write;
use std::os::fd::OwnedFd;
use std::os::unix::net::UnixStream;
use std::process::Stdio;
use std::sync::{Mutex, MutexGuard, PoisonError};

fn said(printed: &str, complained: &str) -> Said {
    Said {
        printed: printed.to_string(),
        complained: complained.to_string(),
    }
}

static ONE: Mutex<()> = Mutex::new(());

/// One test at a time. A program that another test starts has, until it runs, a copy of the end that feeds this one's stream, and a stream
/// does not end as long as somebody has that.
fn alone() -> MutexGuard<'static, ()> {
    ONE.lock().unwrap_or_else(PoisonError::into_inner)
}

/// A stream that does not block, with these bytes in it, and the end that feeds it. A read behind them fails as long as that end is open.
fn stream(part: &[u8]) -> (OwnedFd, UnixStream) {
    let (input, mut feed) = UnixStream::pair().expect("two ends");
    input.set_nonblocking(true).expect("a stream");
    feed.write_all(part).expect("the stream has room");
    (input.into(), feed)
}

/// Of an input that is read in part, or not at all, nothing is printed; of the same part as a whole input what is printed of it.
fn a_failed_read_is_no_end(name: &str, line: &str, input: &[u8], cuts: &[usize]) {
    let _alone = alone();
    let program = Program::named(name);
    let whole = said(&program.run(input), "");
    for &cut in cuts {
        let (part, feed) = stream(&input[..cut]);
        let found = program.run_between(part, Stdio::piped());
        assert_eq!(found, said("", line), "{name}, {cut} bytes");
        drop(feed);
        let (part, feed) = stream(&input[..cut]);
        drop(feed);
        let found = program.run_between(part, Stdio::piped());
        let ended = said(&program.run(&input[..cut]), "");
        assert_eq!(found, ended, "{name}, {cut} bytes that end");
    }
    let folder = File::open(env!("CARGO_MANIFEST_DIR")).expect("this folder");
    let found = program.run_between(folder, Stdio::piped());
    assert_eq!(found, said("", line), "{name}, a folder");
    let (all, feed) = stream(input);
    drop(feed);
    assert_eq!(program.run_between(all, Stdio::piped()), whole, "{name}");
}

/// A device on which every write fails.
fn full() -> File {
    let device = File::options().write(true).open("/dev/full");
    device.expect("a device that is always full")
}

fn a_failed_write_is_told(name: &str, what: &str, input: &[u8]) {
    let _alone = alone();
    let (all, feed) = stream(input);
    drop(feed);
    let found = Program::named(name).run_between(all, full());
    let line = format!("{name}: a write failed, and the {what} is not whole\n");
    assert_eq!(found, said("", &line));
}

/// A version and a list of so many numbers with `+` between them.
fn sum(numbers: usize) -> Vec<u8> {
    let mut ops = [61, 9].repeat(numbers);
    ops.pop();
    bytes(&[&[version_word(6)], &list_words(&tokens(&ops))[..]].concat())
}

#[test]
#[cfg_attr(not(treelist), ignore = "treelist is not built")]
fn treelist_prints_nothing_after_a_failed_read() {
    let line = "treelist: a read failed, and nothing is printed\n";
    a_failed_read_is_no_end("treelist", line, &sum(3), &[0, 1, 4, 24, 64, 104]);
    let long = sum(1_750);
    a_failed_read_is_no_end("treelist", line, &long, &[2_563, 2_564, 2_565, 68_100]);
}

#[test]
#[cfg_attr(not(everylist), ignore = "everylist is not built")]
fn everylist_prints_nothing_after_a_failed_read() {
    let line = "everylist: a read failed, and nothing is printed\n";
    let input = Asked::new(6, 2, &[61, 9, 4]).input();
    a_failed_read_is_no_end("everylist", line, &input, &[0, 1, 8, 12, 20]);
    let mut long = bytes(&[6, 0]);
    long.resize(70_000, 0);
    a_failed_read_is_no_end("everylist", line, &long, &[43, 44, 45, 65_580, 70_000]);
}

#[test]
#[cfg_attr(not(liftcount), ignore = "liftcount is not built")]
fn liftcount_counts_nothing_after_a_failed_read() {
    let line = "liftcount: a read failed, and nothing is counted\n";
    let list = [&[0], &list_words(&tokens(&[61, 9, 61]))[..]].concat();
    let input = bytes(&[&[5, 6], &list.repeat(1_100)[..]].concat());
    let cuts = [0, 1, 4, 8, 12, 72, 65_536, 65_544, 70_408];
    a_failed_read_is_no_end("liftcount", line, &input, &cuts);
}

/// A version, and so many lists to be lifted to it.
fn sums_to_lift(count: usize) -> Vec<u8> {
    let list = [&[5], &list_words(&tokens(&[61, 9, 61]))[..]].concat();
    bytes(&[&[6], &list.repeat(count)[..]].concat())
}

/// It writes while it reads, so that nothing is written only of an input of one chunk. The whole words that came in front of a failed read
/// are gone through too: the first of them hands over the chunk before, and where that write fails it is this that is told.
#[test]
#[cfg_attr(not(liftlists), ignore = "liftlists is not built")]
fn liftlists_tells_a_failed_read() {
    let _alone = alone();
    let program = Program::named("liftlists");
    let line = "liftlists: a read failed, and the file is not whole\n";
    let input = sums_to_lift(1_000);
    for cut in [0, 1, 4, 8, 68, 69, 64_004] {
        let (part, feed) = stream(&input[..cut]);
        let found = program.run_between(part, Stdio::piped());
        assert_eq!(found, said("", line), "{cut} bytes");
        drop(feed);
    }
    let folder = File::open(env!("CARGO_MANIFEST_DIR")).expect("this folder");
    let found = program.run_between(folder, Stdio::piped());
    assert_eq!(found, said("", line), "a folder");
    let chunk = "abcd".repeat(16_384);
    let input = [&bytes(&[6])[..], chunk.as_bytes(), b"abcdabc"].concat();
    let unwritten = "liftlists: a write failed, and the file is not whole\n";
    for (cut, printed, told) in [
        (65_540, "", line),
        (65_543, "", line),
        (65_544, &chunk[..], unwritten),
        (65_547, &chunk[..], unwritten),
    ] {
        let (part, feed) = stream(&input[..cut]);
        let found = program.run_between(part, Stdio::piped());
        assert_eq!(found, said(printed, line), "{cut} bytes");
        drop(feed);
        let (part, feed) = stream(&input[..cut]);
        let found = program.run_between(part, full());
        assert_eq!(found, said("", told), "{cut} bytes, and no room");
        drop(feed);
    }
}

#[test]
#[cfg_attr(not(treelist), ignore = "treelist is not built")]
fn treelist_tells_a_failed_write() {
    a_failed_write_is_told("treelist", "text", &sum(3));
}

#[test]
#[cfg_attr(not(everylist), ignore = "everylist is not built")]
fn everylist_tells_a_failed_write() {
    let input = Asked::new(6, 2, &[61, 9, 4]).input();
    a_failed_write_is_told("everylist", "text", &input);
}

#[test]
#[cfg_attr(not(liftcount), ignore = "liftcount is not built")]
fn liftcount_tells_a_failed_write() {
    a_failed_write_is_told("liftcount", "text", &bytes(&[5, 6]));
}

/// A write that fails at the input's end, and one of many before it.
#[test]
#[cfg_attr(not(liftlists), ignore = "liftlists is not built")]
fn liftlists_tells_a_failed_write() {
    a_failed_write_is_told("liftlists", "file", &sums_to_lift(1));
    a_failed_write_is_told("liftlists", "file", &sums_to_lift(2_000));
}

#[test]
#[cfg_attr(not(lines), ignore = "lines is not built")]
fn lines_tells_a_failed_write() {
    a_failed_write_is_told("lines", "text", &[]);
}

/// Words 6, 0, 10 to 18 and one that is no number of sixteen bits, in a chunk of its own: the last chunk is looked at too.
#[test]
#[cfg_attr(not(everylist), ignore = "everylist is not built")]
fn a_faulty_word_in_the_last_chunk() {
    let _alone = alone();
    let program = Program::named("everylist");
    let mut words: Vec<u32> = [6, 0].into_iter().chain(10..19).collect();
    words.resize(11 + 16_384, 61);
    assert_eq!(program.run(&bytes(&words)), "refused 19 0\n");
    words.push(0x1_0000);
    assert_eq!(program.run(&bytes(&words)), "refused 8 0\n");
    words[11] = 0x1_0000;
    words.pop();
    assert_eq!(program.run(&bytes(&words)), "refused 8 0\n");
}

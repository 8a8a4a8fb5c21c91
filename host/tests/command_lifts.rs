//! `sorbrudder lift --plain` and the program `liftlists` write the same bytes for the same plain file. The program is run where `make`
//! puts it (`target/bin/liftlists`), or at `LIFTLISTS`; where it is not built, the tests are left out, and say so.

mod common;

use common::command::{SEVEN, archive, folder, run_with, words};
use common::kept_lists;
use sorbrudder::archive::{Format, ListsWriter};
use std::io::Write as _;
use std::path::{Path, PathBuf};
use std::process::{Command, Stdio};

/// The program, where it is built.
fn liftlists() -> Option<PathBuf> {
    let path = match std::env::var_os("LIFTLISTS") {
        Some(path) => PathBuf::from(path),
        None => Path::new(env!("CARGO_MANIFEST_DIR")).join("../target/bin/liftlists"),
    };
    if !path.is_file() {
        eprintln!("no {}: the test was left out", path.display());
        return None;
    }
    Some(path)
}

/// What the program writes: its input is the word of the new version, and a plain file of words.
fn written(program: &Path, to: i16, plain: &[u8]) -> Vec<u8> {
    let mut child = Command::new(program)
        .stdin(Stdio::piped())
        .stdout(Stdio::piped())
        .spawn()
        .expect("the program starts");
    let mut input = child.stdin.take().expect("a pipe");
    let version = u32::from(to as u16).to_le_bytes();
    // Beside the reading of its output: it writes before the end of its input.
    let done = std::thread::scope(|scope| {
        scope.spawn(move || {
            input.write_all(&version).expect("it reads on");
            input.write_all(plain).expect("it reads on");
        });
        child.wait_with_output().expect("it ends")
    });
    assert!(done.status.success(), "{}", done.status);
    done.stdout
}

/// Panics where the two write different bytes, and tells how many lists stay behind.
fn alike(program: &Path, folder: &Path, to: i16, plain: &[u8]) {
    let version = to.to_string();
    let asked = ["lift", "-", "-o", "-", "--plain", "--to", &version];
    let (told, lifted) = run_with(folder, &asked, plain);
    let found = written(program, to, plain);
    let differs = lifted
        .iter()
        .zip(&found)
        .position(|(one, other)| one != other);
    assert!(
        lifted == found,
        "to {to}: {} bytes and {}, other ones from {differs:?} on; {}",
        lifted.len(),
        found.len(),
        told.err.lines().last().unwrap_or_default()
    );
}

/// A plain file of lists of these versions by turns.
fn plain(versions: &[i16], lists: &[Vec<u32>]) -> Vec<u8> {
    let mut writer = ListsWriter::new(Vec::new(), Format::Words).expect("bytes");
    for (list, version) in lists.iter().zip(versions.iter().cycle()) {
        writer.write(*version, list).expect("bytes");
    }
    writer.finish().expect("bytes").0
}

#[test]
fn seven_lists() {
    let Some(program) = liftlists() else {
        return;
    };
    let folder = folder("lifts_seven");
    let bytes = archive(Format::Words, &SEVEN);
    for to in [4, 5, 6, -1, i16::MIN, i16::MAX] {
        alike(&program, &folder, to, &bytes);
    }
    assert_ne!(written(&program, 6, &bytes), bytes);
}

#[test]
fn the_kept_lists() {
    let Some(program) = liftlists() else {
        return;
    };
    let folder = folder("lifts_kept");
    // The command turns back a file whose lists it cannot tell apart, and the last list has to be whole tokens.
    let mut lists = kept_lists();
    lists.retain(|list| list.iter().all(|word| word >> 29 != 0));
    lists.push(words("a"));
    assert!(lists.len() > 20_000, "{} lists", lists.len());
    for (versions, to) in [
        (&[4][..], 5),
        (&[5], 6),
        (&[4, 5, 6], 6),
        (&[6, 5], 4),
        (&[4, 5, i16::MIN, i16::MAX, 6], 5),
    ] {
        alike(&program, &folder, to, &plain(versions, &lists));
    }
}

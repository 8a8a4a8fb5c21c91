//! However many threads work, what is told and written is the same, byte for byte, and memory stays within bounds.

mod common;

use common::command::{SEVEN, archive, command, folder, run, run_with};
use common::kept_lists;
use sorbrudder::archive::{Format, ListsWriter};
use std::path::Path;

const JOBS: [&str; 4] = ["1", "2", "3", "8"];

/// Every kept list of the generator, at versions 4 to 6 in turn, which makes some forty batches.
fn kept() -> Vec<u8> {
    let mut writer = ListsWriter::new(Vec::new(), Format::Container).expect("bytes");
    for (place, list) in kept_lists().iter().enumerate() {
        let version = 4 + (place % 3) as i16;
        writer.write(version, list).expect("bytes");
    }
    writer.finish().expect("bytes").0
}

fn written(folder: &Path) {
    let kept = kept();
    let bytes = |name: &str, bytes: &[u8]| {
        std::fs::create_dir_all(folder.join("in")).expect("a folder");
        std::fs::write(folder.join("in").join(name), bytes).expect("a file");
    };
    bytes("kept", &kept);
    let mut turned = kept.clone();
    let middle = kept.len() / 2;
    turned[middle] ^= 1;
    bytes("turned", &turned);
    bytes("cut", &kept[..kept.len() / 3]);
    for number in 0..20 {
        bytes(&format!("small{number}"), &archive(Format::Words, &SEVEN));
    }
}

#[test]
fn the_output_is_the_same_however_many_threads_work() {
    let folder = folder("jobs");
    written(&folder);
    for words in [
        &["check", "in"][..],
        &["check", "in", "--json"],
        &["diff", "in", "--to", "6"],
        &["diff", "in", "--to", "6", "--json"],
        &["lift", "in", "-o", "out", "--to", "6", "--json"],
        &["lift", "in", "-o", "out", "--to", "5", "--report", "report"],
        &["lift", "in", "-o", "out", "--to", "6", "--settle"],
        &["lift", "in/kept", "-o", "-", "--to", "6"],
    ] {
        let outcome = |jobs: &str| {
            let _ = std::fs::remove_dir_all(folder.join("out"));
            let mut child = command();
            child.current_dir(&folder).args(words).args(["-j", jobs]);
            let ran = child.output().expect("it runs");
            let read = |name: &str| std::fs::read(folder.join(name)).unwrap_or_default();
            let files = ["out/kept", "out/cut", "out/small7", "report"].map(read);
            (ran.status.code(), ran.stdout, ran.stderr, files)
        };
        let alone = outcome("1");
        assert!(alone.1.len() > 1_000, "{words:?}");
        for jobs in &JOBS[1..] {
            assert!(outcome(jobs) == alone, "{words:?} -j {jobs}");
        }
    }
}

#[test]
fn a_filter_gives_the_same_archive_however_many_threads_work() {
    let folder = folder("filter_jobs");
    let kept = kept();
    let outcome = |jobs: &str| {
        let words = ["lift", "-", "-o", "-", "--to", "6", "-j", jobs];
        let (ran, bytes) = run_with(&folder, &words, &kept);
        (ran.status, ran.err, bytes)
    };
    let alone = outcome("1");
    assert_eq!(alone.0, Some(1));
    for jobs in &JOBS[1..] {
        assert!(outcome(jobs) == alone, "-j {jobs}");
    }
}

#[test]
fn how_many_threads_is_a_number_from_1_on() {
    let folder = folder("jobs_wrong");
    std::fs::write(folder.join("seven"), archive(Format::Container, &SEVEN)).expect("a file");
    for jobs in ["0", "-1", "1025", "many", ""] {
        let wrong = run(&folder, &["check", "seven", "-j", jobs]);
        assert_eq!(wrong.status, Some(2), "{jobs}: {wrong:?}");
        assert!(wrong.err.contains("`-j` takes 1 to 1024"), "{wrong:?}");
    }
    assert_eq!(run(&folder, &["check", "seven", "-j=1"]).status, Some(1));
}

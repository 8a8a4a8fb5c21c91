//! Folders: which files are read, which are skipped, and what is told of links.

mod common;

use common::command::{SEVEN, archive, folder, run, run_line};
use sorbrudder::archive::Format;
use std::os::unix::fs::symlink;
use std::path::Path;

fn write(folder: &Path, name: &str, bytes: &[u8]) {
    let path = folder.join(name);
    std::fs::create_dir_all(path.parent().expect("a folder")).expect("a folder");
    std::fs::write(path, bytes).expect("a file");
}

fn good() -> Vec<u8> {
    archive(Format::Container, &[(6, "a + b")])
}

#[test]
fn files_that_are_no_archives_are_skipped_with_a_count() {
    let folder = folder("skipped");
    write(&folder, "in/good", &good());
    write(&folder, "in/plain", &archive(Format::Words, &[(6, "a")]));
    write(&folder, "in/readme.txt", b"how the mill works");
    write(&folder, "in/deeper/picture.png", b"\x89PNG\r\n\x1a\n");
    write(&folder, "in/short", b"a");
    let skipped = "3 files were skipped: they are no archives\n";
    for line in ["check in", "diff in --to 6", "lift in -o out --to 6"] {
        let ran = run_line(&folder, line);
        assert_eq!(ran.status, Some(0), "{line}: {ran:?}");
        assert!(ran.err.contains(skipped), "{line}: {ran:?}");
    }
    assert!(folder.join("out/good").exists() && !folder.join("out/readme.txt").exists());
    // Damaged ones are told apart: their first word is right, or part of it, or nothing is left at all.
    let whole = good();
    for (name, bytes) in [
        ("empty", &b""[..]),
        ("begun", &whole[..3]),
        ("head", &whole[..9]),
        ("turned", &[&whole[..6], b"x", &whole[7..]].concat()),
        ("cut", &whole[..whole.len() - 4]),
    ] {
        write(&folder, "in/damaged", bytes);
        let ran = run_line(&folder, "check in");
        assert_eq!(ran.status, Some(4), "{name}: {ran:?}");
        assert!(
            ran.err.contains("in/damaged: damaged at"),
            "{name}: {ran:?}"
        );
        assert!(ran.err.contains(skipped), "{name}: {ran:?}");
    }
    // A file that is named itself is meant.
    assert_eq!(run_line(&folder, "check in/readme.txt").status, Some(4));
}

#[test]
fn a_folder_with_nothing_to_read_is_a_wrong_argument() {
    let folder = folder("nothing");
    std::fs::create_dir(folder.join("empty")).expect("a folder");
    write(&folder, "other/readme.txt", b"how the mill works");
    write(&folder, "good/file", &good());
    for line in [
        "check empty",
        "check other",
        "check good empty",
        "diff empty --to 6",
        "lift empty --in-place --to 6",
        "lift other -o out --to 6",
        "check good --glob *.lists",
    ] {
        let ran = run_line(&folder, line);
        assert_eq!(ran.status, Some(2), "{line}: {ran:?}");
        assert!(
            ran.err.contains("there is no archive to read in"),
            "{ran:?}"
        );
    }
    assert!(!folder.join("out").exists());
}

#[test]
fn patterns_say_which_files_of_a_folder_are_meant() {
    let folder = folder("globs");
    for name in ["in/a.lists", "in/b.lists", "in/old/a.lists", "in/c.words"] {
        write(&folder, name, &archive(Format::Container, &SEVEN[6..]));
    }
    let files = |globs: &[&str]| {
        let globs = globs.iter().flat_map(|glob| ["--glob", glob]);
        let words: Vec<&str> = ["check", "in"].into_iter().chain(globs).collect();
        let ran = run(&folder, &words);
        let names = ran.out.lines().map(|line| line.split(' ').next());
        let names: Vec<&str> = names.map(|name| name.expect("a name")).collect();
        names.join(" ")
    };
    assert_eq!(files(&["*.lists"]), "in/a.lists in/b.lists in/old/a.lists");
    assert_eq!(files(&["/a.*"]), "in/a.lists");
    assert_eq!(files(&["*.lists", "!old/**"]), "in/a.lists in/b.lists");
    assert_eq!(files(&["!*.lists"]), "in/c.words");
    // A file that is named itself is meant, whatever the pattern.
    let named = run_line(&folder, "check in/c.words --glob *.lists");
    assert!(named.out.starts_with("in/c.words"), "{named:?}");
    let lifted = run_line(&folder, "lift in -o out --to 6 --glob a.*");
    assert_eq!(lifted.status, Some(1), "{lifted:?}");
    assert!(folder.join("out/old/a.lists").exists() && !folder.join("out/b.lists").exists());
}

#[test]
fn links_that_lead_nowhere_are_told_of() {
    let folder = folder("dangling");
    write(&folder, "in/good", &good());
    symlink("gone", folder.join("in/lost")).expect("a link");
    symlink("ring", folder.join("in/ring")).expect("a link");
    for line in ["check in", "diff in --to 6", "lift in -o out --to 6"] {
        let ran = run_line(&folder, line);
        assert_eq!(ran.status, Some(3), "{line}: {ran:?}");
        for name in ["lost", "ring"] {
            let told = format!("sorbrudder: in/{name}: a link that leads nowhere: ");
            assert!(ran.err.contains(&told), "{line}: {ran:?}");
        }
    }
    let json = run_line(&folder, "check in --json");
    assert!(
        json.out.contains(r#"{"file":"in/lost","result":"failed""#),
        "{json:?}"
    );
}

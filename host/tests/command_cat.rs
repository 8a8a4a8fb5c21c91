//! `cat` and `pack`: each is the other's inverse.

mod common;

use common::command::{SEVEN, archive, folder, lists, run, run_line, run_with, words};
use common::{Rng, kept_lists};
use sorbrudder::archive::{Format, Lists, ListsWriter};
use std::path::Path;

/// Lists of all kinds: the generator's, some with their spans moved, some of words that are no tokens, and empty ones.
fn all_kinds(format: Format) -> Vec<u8> {
    let mut writer = ListsWriter::new(Vec::new(), format).expect("bytes");
    let mut rng = Rng(7);
    let versions = [4, 5, 6, -1, i16::MIN, i16::MAX, 0];
    for mut list in kept_lists() {
        let version = versions[rng.below(versions.len())];
        if rng.below(4) == 0 {
            // The span's words are the second and the third of a token.
            let at = (0..list.len()).filter(|word| matches!(word % 5, 1 | 2));
            at.for_each(|word| list[word] = list[word] >> 29 << 29 | rng.below(1 << 29) as u32);
        }
        if rng.below(50) == 0 {
            let kind = if format == Format::Words { 1 } else { 0 };
            let word = |_| {
                ((kind + rng.below(8 - kind as usize) as u32) << 29) | rng.below(1 << 29) as u32
            };
            list = (0..5 * 3).map(word).collect();
        }
        // Of a plain file no word is of kind 0.
        if format == Format::Container || list.iter().all(|word| word >> 29 > 0) {
            writer.write(version, &list).expect("bytes");
        }
    }
    writer.write(6, &[]).expect("bytes");
    writer.finish().expect("bytes").0
}

/// What `cat` writes of an archive, and what `pack` makes of it.
fn there_and_back(
    folder: &Path,
    options: &[&str],
    plain: &[&str],
    bytes: &[u8],
) -> (Vec<u8>, Vec<u8>) {
    let words = [&["cat", "-"][..], options].concat();
    let (there, text) = run_with(folder, &words, bytes);
    assert_eq!(there.status, Some(0), "{}", there.err);
    let words = [&["pack", "-", "-o", "-"][..], plain].concat();
    let (back, packed) = run_with(folder, &words, &text);
    assert_eq!(back.status, Some(0), "{}", back.err);
    (text, packed)
}

#[test]
fn what_cat_writes_pack_makes_an_archive_of_again() {
    let folder = folder("cat_pack");
    for (format, plain) in [(Format::Container, &[][..]), (Format::Words, &["--plain"])] {
        let bytes = all_kinds(format);
        for options in [&[][..], &["--json"], &["-j", "1"]] {
            let (text, packed) = there_and_back(&folder, options, plain, &bytes);
            assert!(packed == bytes, "{format:?} {options:?}: another archive");
            // And what pack makes an archive of, cat writes again.
            let (again, _) = there_and_back(&folder, options, plain, &packed);
            assert!(again == text, "{format:?} {options:?}: another text");
            let count = text.iter().filter(|byte| **byte == b'\n').count();
            let mut lists = Lists::new(&bytes[..]).expect("an archive");
            while lists.next_list().expect("whole").is_some() {}
            assert_eq!(count as u64, lists.totals().lists);
        }
    }
}

#[test]
fn a_line_is_a_version_and_a_list() {
    let folder = folder("cat_lines");
    std::fs::write(folder.join("seven"), archive(Format::Container, &SEVEN)).expect("a file");
    let ran = run_line(&folder, "cat seven");
    assert_eq!((ran.status, ran.err.as_str()), (Some(0), ""));
    let first = "4\ta ? b : c ? d : e\n5\ta && b || c\n";
    assert!(ran.out.starts_with(first), "{}", ran.out);
    let json = run_line(&folder, "cat seven --json");
    let numbers: Vec<String> = words("a : b").iter().map(u32::to_string).collect();
    let sixth = format!(
        r#"{{"file":"seven","list":5,"version":4,"text":"a : b","words":[{}]}}"#,
        numbers.join(",")
    );
    assert_eq!(json.out.lines().nth(5), Some(sixth.as_str()));
    // Several files are one stream of lists.
    let two = run_line(&folder, "cat seven seven");
    assert_eq!(two.out, ran.out.repeat(2));
    let cut = &archive(Format::Container, &SEVEN)[..300];
    std::fs::write(folder.join("cut"), cut).expect("a file");
    let damaged = run_line(&folder, "cat cut");
    assert_eq!(
        (damaged.status, damaged.out.as_str()),
        (Some(4), "4\ta ? b : c ? d : e\n")
    );
}

#[test]
fn what_is_written_by_hand_is_packed_too() {
    let folder = folder("pack_hand");
    let text = "# the mill's gates\n5 dosed&&under||shut\n\n4\tvariable.1 + 2\t7-9 10-11 3-1\r\n\
                {\"version\": -1, \"text\": \"a ? b : c\"}\n6\n6\t$ 2000003d 40000001 60000002 80000000 a0000000\n";
    std::fs::write(folder.join("text"), text).expect("a file");
    let packed = run_line(&folder, "pack text -o new");
    assert_eq!(packed.status, Some(0), "{packed:?}");
    assert_eq!(packed.err, "5 lists, 70 words\n");
    let bytes = std::fs::read(folder.join("new")).expect("a file");
    let expected = [
        (5, "a && b || c"),
        (4, "variable.1 + 2"),
        (-1, "a ? b : c"),
        (6, ""),
        (6, "a"),
    ];
    assert_eq!(
        lists(&bytes),
        expected.map(|(version, text)| (version, text.to_string()))
    );
    let written = run_line(&folder, "cat new").out;
    let expected = "5\ta && b || c\t0-5 5-7 7-12 12-14 14-18\n4\tvariable.1 + 2\t7-9 10-11 3-1\n-1\ta ? b : c\n6\t\n6\ta\t1-2\n";
    assert_eq!(written, expected);
    let plain = run_line(&folder, "pack text -o plain --plain");
    assert_eq!(plain.status, Some(0), "{plain:?}");
    let plain = std::fs::read(folder.join("plain")).expect("a file");
    assert_eq!(lists(&plain), lists(&bytes));
}

#[test]
fn a_line_that_is_no_list_is_told_of_and_nothing_is_written() {
    let folder = folder("pack_wrong");
    for wrong in [
        "a && b",
        "70000\ta",
        "5\ta $ b",
        "5\ta\t0-1 1-2",
        "5\ta\t0-",
        "5\t$ x",
        "{\"version\":5}",
        "{\"text\":\"a\"}",
        "{\"version\":5,\"words\":[4294967296]}",
        "{\"version\":5,\"words\":1}",
        "{",
    ] {
        std::fs::write(folder.join("text"), format!("5\ta\n{wrong}\n")).expect("a file");
        let ran = run_line(&folder, "pack text -o new");
        assert_eq!(ran.status, Some(4), "{wrong}: {ran:?}");
        assert!(ran.err.contains("text: line 2: "), "{wrong}: {ran:?}");
        assert!(!folder.join("new").exists(), "{wrong}");
    }
    std::fs::write(folder.join("text"), "5\ta\n5\t$ 0\n").expect("a file");
    let plain = run_line(&folder, "pack text -o new --plain");
    assert_eq!(plain.status, Some(4), "{plain:?}");
    std::fs::write(folder.join("text"), "").expect("a file");
    assert_eq!(
        run_line(&folder, "pack text -o new --plain").status,
        Some(3)
    );
    assert_eq!(run_line(&folder, "pack text -o new").status, Some(0));
    for line in ["pack text", "pack -o new", "pack text -o ./text", "cat"] {
        assert_eq!(
            run(&folder, &line.split(' ').collect::<Vec<_>>()).status,
            Some(2),
            "{line}"
        );
    }
    assert_eq!(run_line(&folder, "pack missing -o new").status, Some(3));
}

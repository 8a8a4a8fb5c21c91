//! The command goes through archives: what it counts, tells and writes, and its exit statuses.

mod common;

use common::command::{SEVEN, archive, folder, lists, run, run_line, run_with, words};
use sorbrudder::archive::{Format, ListsWriter};
use std::os::unix::fs::symlink;
use std::path::Path;

fn write(folder: &Path, name: &str, bytes: &[u8]) {
    let path = folder.join(name);
    std::fs::create_dir_all(path.parent().expect("a folder")).expect("a folder");
    std::fs::write(path, bytes).expect("a file");
}

fn seven(format: Format) -> Vec<u8> {
    archive(format, &SEVEN)
}

#[test]
fn check_counts_lists_and_tells_of_those_that_are_no_trees() {
    let folder = folder("check");
    write(&folder, "seven", &seven(Format::Container));
    write(&folder, "good", &archive(Format::Container, &SEVEN[..3]));
    let good = run(&folder, &["check", "good"]);
    assert_eq!((good.status, good.out.as_str()), (Some(0), ""));
    let checked = run(&folder, &["check", "seven"]);
    assert_eq!(checked.status, Some(1));
    let told = "seven list 6 (byte 768, version 6): no tree: the list ends within this `(`, \
                before its `)` (at 4-5); no `)` closes this `(` (at 4-5)\n";
    assert_eq!(checked.out, told);
    assert_eq!(
        checked.err,
        "1 files, 7 lists: 6 trees, 1 no trees, 0 too deep, 0 refused; 0 files not read to their end\n"
    );
    let json = run(&folder, &["check", "seven", "--json"]);
    assert_eq!(json.out.lines().count(), 8);
    let first = r#"{"file":"seven","list":0,"byte":16,"version":4,"result":"tree"}"#;
    assert_eq!(json.out.lines().next(), Some(first));
    let last = json.out.lines().nth(6).expect("a line");
    let messages = concat!(
        r#""result":"no-tree","messages":[{"number":6,"start":4,"end":5,"#,
        r#""text":"the list ends within this `(`, before its `)`"},"#
    );
    assert!(last.contains(messages), "{last}");
}

#[test]
fn damage_is_status_4_and_nothing_is_written() {
    let folder = folder("damage");
    let (whole, plain) = (seven(Format::Container), seven(Format::Words));
    let mut turned = whole.clone();
    turned[40] ^= 4;
    let damaged: [(&str, &[u8]); 6] = [
        ("cut", &whole[..whole.len() - 24]),
        ("turned", &turned),
        ("zeros", &[0; 1 << 20]),
        ("empty", b""),
        ("text", b"these are no lists"),
        ("in_token", &plain[..plain.len() - 8]),
    ];
    for (name, bytes) in damaged {
        write(&folder, name, bytes);
        for line in ["check NAME", "diff NAME --to 6", "lift NAME -o out --to 6"] {
            let run = run_line(&folder, &line.replace("NAME", name));
            assert_eq!(run.status, Some(4), "{line} {name}: {run:?}");
            assert!(run.err.contains("damaged at byte"), "{}", run.err);
            assert!(
                run.out.len() < 4_000,
                "{line} {name}: {} bytes",
                run.out.len()
            );
            assert!(!folder.join("out").exists(), "{line} {name}");
            let is_counted = run.err.contains("1 files could not be lifted");
            assert_eq!(is_counted, line.starts_with("lift"), "{}", run.err);
        }
    }
}

#[test]
fn a_plain_file_is_told_of_and_the_highest_status_counts() {
    let folder = folder("statuses");
    let whole = seven(Format::Container);
    write(&folder, "whole", &whole);
    write(&folder, "cut", &whole[..whole.len() - 24]);
    write(&folder, "plain", &seven(Format::Words));
    let note = "that it was cut at a token's end could not be seen";
    assert!(run_line(&folder, "check plain").err.contains(note));
    assert!(!run_line(&folder, "check whole").err.contains(note));
    let several = run_line(&folder, "check cut missing whole");
    assert_eq!(several.status, Some(4));
    assert!(several.err.contains("missing: "), "{}", several.err);
    let summary = "3 files, 7 lists: 6 trees, 1 no trees, 0 too deep, 0 refused; 2 files not read to their end\n";
    assert!(several.err.ends_with(summary), "{}", several.err);
    assert_eq!(run_line(&folder, "check missing").status, Some(3));
    let json = run_line(&folder, "check cut missing --json");
    let failed: Vec<&str> = json
        .out
        .lines()
        .filter(|line| !line.contains("\"list\":") && !line.contains("\"summary\""))
        .collect();
    assert_eq!(failed.len(), 2, "{}", json.out);
    assert!(failed[0].starts_with(r#"{"file":"cut","result":"damaged","text":"cut: damaged at"#));
    assert!(failed[1].starts_with(r#"{"file":"missing","result":"failed","text":"missing: "#));
}

#[test]
fn diff_names_the_node_and_the_rule() {
    let folder = folder("diff");
    write(&folder, "seven", &seven(Format::Container));
    let diff = run(&folder, &["diff", "seven", "--to", "6"]);
    assert_eq!(diff.status, Some(1));
    let second = diff.out.lines().nth(1).expect("a line");
    assert_eq!(
        second,
        "seven list 1 (byte 208, version 5): 5 reads a && (b || c), 6 reads (a && b) || c; from node 0, `&&` at 2-4, on: \
         up to version 5 `||` is paired before `&&`, from 6 on `&&` before `||`"
    );
    assert!(
        diff.out.contains("no tree (`:` lacks what belongs to it"),
        "{}",
        diff.out
    );
    assert_eq!(
        diff.err,
        "7 lists at version 6: 2 read alike, 3 otherwise, 1 trees no longer, 0 trees only then, 1 no trees at all, 0 refused\n"
    );
    let json = run(&folder, &["diff", "seven", "--to", "6", "--json"]);
    let second = json.out.lines().nth(1).expect("a line");
    let place = concat!(
        r#""version":5,"to":6,"result":"differs","node":0,"op":57,"operator":"&&","start":2,"end":4,"#,
        r#""own_reading":"a && (b || c)","to_reading":"(a && b) || c","rule":"up to"#
    );
    assert!(second.contains(place), "{second}");
    write(
        &folder,
        "alone",
        &archive(Format::Container, &[(5, "a : b"), (4, "a : b")]),
    );
    let only_new = run(&folder, &["diff", "alone", "--to", "4", "--json"]);
    let results = only_new.out.lines().map(|line| {
        let result = line.split("\"result\":\"").nth(1);
        result.and_then(|rest| rest.split('"').next())
    });
    let results: Vec<Option<&str>> = results.collect();
    assert_eq!(results, ["only-new", "same", "summary"].map(Some));
}

#[test]
fn lift_carries_over_and_ends_with_1_where_lists_stay_behind() {
    let folder = folder("lift");
    write(&folder, "seven", &seven(Format::Container));
    let lifted = run_line(&folder, "lift seven -o six --to 6");
    assert_eq!(lifted.status, Some(1), "{lifted:?}");
    let summary = "7 lists to version 6: 3 written anew (0 of them scripts), 2 left alone (both versions read them alike), \
                   2 stayed behind (1 no trees, 0 refused, 1 not writable, 0 too deep)\n";
    assert!(lifted.err.starts_with(summary), "{}", lifted.err);
    let warning = "rewrite them before the pack declares version 6";
    assert!(lifted.err.contains(warning), "{}", lifted.err);
    let behind: Vec<&str> = lifted.out.lines().collect();
    assert_eq!(behind.len(), 2);
    let why = "stays behind: cannot be written: node 0, `:` at 2-3, a `:` that is not the right side of a `?`";
    assert!(behind[0].ends_with(why), "{}", behind[0]);
    let expected = [
        (6, "(a ? b : c) ? d : e"),
        (6, "a && (b || c)"),
        (6, "a > (b == c)"),
        (6, "a + b * c"),
        (6, "{a = b;};"),
        (4, "a : b"),
        (6, "a + (b"),
    ];
    let bytes = std::fs::read(folder.join("six")).expect("a file");
    let expected = expected.map(|(version, text)| (version, text.to_string()));
    assert_eq!(lists(&bytes), expected);
}

#[test]
fn scripts_are_lifted_and_counted() {
    let folder = folder("scripts");
    let script = "v = a ? b : c ? d : e; return v;";
    let two = [(4, script), (4, "a ? b : c ? d : e")];
    write(&folder, "two", &archive(Format::Container, &two));
    let lifted = run_line(&folder, "lift two -o five --to 5");
    let summary = "2 lists to version 5: 2 written anew (1 of them scripts), 0 left alone";
    assert!(lifted.err.starts_with(summary), "{}", lifted.err);
    assert_eq!(lifted.status, Some(0));
    let bytes = std::fs::read(folder.join("five")).expect("a file");
    let texts: Vec<String> = lists(&bytes).into_iter().map(|(_, text)| text).collect();
    let expected = [
        "v = ((a ? b : c) ? d : e); return v;",
        "(a ? b : c) ? d : e",
    ];
    assert_eq!(texts.len(), expected.len());
    assert_eq!(texts[1], expected[1]);
    assert_eq!(texts[0].matches('(').count(), 2, "{}", texts[0]);
    assert!(texts[0].ends_with(';'), "{}", texts[0]);
}

#[test]
fn what_is_lifted_stays_as_it_is_and_is_status_0() {
    let folder = folder("again");
    write(&folder, "seven", &seven(Format::Container));
    write(&folder, "good", &archive(Format::Container, &SEVEN[..5]));
    run_line(&folder, "lift seven -o six --to 6");
    let again = run_line(&folder, "lift six -o again --to 6");
    let summary = "7 lists to version 6: 0 written anew (0 of them scripts), 5 left alone";
    assert!(again.err.starts_with(summary), "{}", again.err);
    let bytes = |name: &str| std::fs::read(folder.join(name)).expect("a file");
    assert_eq!(bytes("again"), bytes("six"));
    let good = run_line(&folder, "lift good -o better --to 6");
    assert_eq!((good.status, good.out.as_str()), (Some(0), ""));
    assert_eq!(run_line(&folder, "diff better --to 6").status, Some(0));
}

#[test]
fn the_report_has_a_line_for_every_list() {
    let folder = folder("report");
    write(&folder, "seven", &seven(Format::Container));
    run_line(&folder, "lift seven -o six --to 6 --report report");
    let report = std::fs::read_to_string(folder.join("report")).expect("a report");
    assert_eq!(report.lines().count(), 8);
    let stays = r#""version":4,"to":6,"result":"stays","node":0,"op":60,"operator":":","start":2,"end":3,"reason":"else-without-if","#;
    let sixth = report.lines().nth(5).expect("a line");
    assert!(sixth.contains(stays), "{sixth}");
    for line in [
        "lift seven -o six --to 6 --json",
        "lift seven -o six --to 6 --report -",
    ] {
        assert_eq!(run_line(&folder, line).out, report, "{line}");
    }
    assert!(!folder.join("-").exists());
}

/// Files that a run has left beside its targets.
fn left_over(folder: &Path) -> usize {
    let names = std::fs::read_dir(folder).expect("a folder");
    let names = names.map(|name| name.expect("a name").file_name());
    names
        .filter(|name| name.to_string_lossy().starts_with('.'))
        .count()
}

#[test]
fn lift_writes_nothing_where_it_is_told_so() {
    let folder = folder("careful");
    let bytes = seven(Format::Container);
    write(&folder, "seven", &bytes);
    for line in [
        "lift seven --dry-run --to 6",
        "lift seven -o out --dry-run --to 6",
        "lift seven --in-place --backup --dry-run --to 6",
    ] {
        let dry = run_line(&folder, line);
        assert!(
            dry.status == Some(1) && dry.err.contains("nothing was written"),
            "{line}: {dry:?}"
        );
    }
    assert!(!folder.join("seven.bak").exists());
    for line in [
        "lift seven -o out --strict --to 6",
        "lift seven --in-place --strict --to 6",
    ] {
        let strict = run_line(&folder, line);
        assert_eq!(strict.status, Some(1), "{strict:?}");
        assert!(
            strict.err.contains("1 files were not written"),
            "{strict:?}"
        );
    }
    let device = run_line(&folder, "lift seven -o /dev/null --to 6");
    assert_eq!(
        device.status,
        Some(3),
        "a device is not replaced: {device:?}"
    );
    assert!(!folder.join("out").exists());
    assert_eq!(std::fs::read(folder.join("seven")).expect("a file"), bytes);
    assert_eq!(left_over(&folder), 0);
}

#[test]
fn lift_asks_where_to_and_never_takes_its_input_for_its_output() {
    let folder = folder("where_to");
    let bytes = seven(Format::Container);
    write(&folder, "seven", &bytes);
    std::fs::create_dir(folder.join("deeper")).expect("a folder");
    for line in [
        "lift seven -o seven --to 6",
        "lift seven -o ./../where_to/seven --to 6",
        "lift seven -o seven --dry-run --to 6",
        "lift seven --to 6",
        "lift seven -o out --in-place --to 6",
        "lift seven -o out --backup --to 6",
        "lift seven -o out",
        "lift - --in-place --to 6",
        "lift . -o deeper/.. --to 6",
        "lift . -o deeper --to 6",
        "lift . -o deeper/new --to 6",
        "lift . -o - --to 6",
        "lift seven -o - --strict --to 6",
    ] {
        assert_eq!(run_line(&folder, line).status, Some(2), "{line}");
    }
    assert_eq!(std::fs::read(folder.join("seven")).expect("a file"), bytes);
}

#[test]
fn nothing_that_is_written_takes_the_place_of_what_is_read() {
    let folder = folder("places");
    let bytes = archive(Format::Container, &SEVEN[..3]);
    let kept = ["in/a", "in/b", "text"];
    kept.iter().for_each(|name| write(&folder, name, &bytes));
    std::fs::create_dir(folder.join("linked")).expect("a folder");
    symlink("../in/a", folder.join("linked/b")).expect("a link");
    for line in [
        "lift in/a -o new --to 6 --report in/a",
        "lift in/a -o new --to 6 --report linked/b",
        "lift in/a -o new --to 6 --report new",
        "lift in/a -o - --to 6 --report in/a",
        "lift in/a --dry-run --to 6 --report in/../in/a",
        "lift in --in-place --to 6 --report in/b",
        "lift in/a --in-place --backup --to 6 --report in/a.bak",
        "lift in in/a --in-place --to 6",
        "lift in -o linked --to 6",
        "draw in/a#0 -o in/a",
        "draw in/a#0 -o linked/b",
        "draw in/a#0 --source text -o text",
    ] {
        let wrong = run_line(&folder, line);
        assert_eq!(wrong.status, Some(2), "{line}: {wrong:?}");
        let here = |name: &&str| std::fs::read(folder.join(name)).expect("a file") == bytes;
        assert!(kept.iter().all(here), "{line}");
        let new = ["new", "in/a.bak", "linked/a"].map(|name| folder.join(name).exists());
        assert_eq!(new, [false; 3], "{line}");
    }
    for line in [
        "lift in -o out --to 6 --report report",
        "lift in/a -o out/a --to 6 --report report",
        "draw in/a#0 -o report",
    ] {
        assert_eq!(run_line(&folder, line).status, Some(0), "{line}");
    }
}

#[test]
fn a_backup_of_a_link_is_the_old_file() {
    let folder = folder("backup_of_link");
    let bytes = seven(Format::Container);
    write(&folder, "seven", &bytes);
    symlink("seven", folder.join("link")).expect("a link");
    let lifted = run_line(&folder, "lift link --in-place --backup --to 6");
    assert_eq!(lifted.status, Some(1), "{lifted:?}");
    let here = |name: &str| std::fs::read(folder.join(name)).expect("a file");
    assert!(here("link.bak") == bytes, "the backup is the new file");
    assert!(here("seven") != bytes && folder.join("link").is_symlink());
}

#[test]
fn a_backup_is_the_old_file_and_replaces_none() {
    let folder = folder("backup");
    let bytes = seven(Format::Container);
    write(&folder, "seven", &bytes);
    let here = |name: &str| std::fs::read(folder.join(name)).expect("a file");
    let kept = run_line(&folder, "lift seven --in-place --backup --to 6");
    assert_eq!(kept.status, Some(1), "{kept:?}");
    assert!(here("seven.bak") == bytes && here("seven") != bytes);
    let lifted = here("seven");
    let taken = run_line(&folder, "lift seven --in-place --backup --to 5");
    assert_eq!(taken.status, Some(3), "{taken:?}");
    assert!(here("seven.bak") == bytes && here("seven") == lifted);
    assert_eq!(left_over(&folder), 0);
}

#[test]
fn lists_that_are_refused_are_carried_along() {
    let folder = folder("refused");
    let mut writer = ListsWriter::new(Vec::new(), Format::Container).expect("bytes");
    let long = words(&"a ".repeat(4_097));
    let kept = [
        vec![1 << 29 | 111, 0, 7],
        words("a + b")[1..].to_vec(),
        long,
    ];
    for list in &kept {
        writer.write(4, list).expect("bytes");
    }
    write(&folder, "refused", &writer.finish().expect("bytes").0);
    let checked = run_line(&folder, "check refused --json");
    assert_eq!(checked.status, Some(1), "{checked:?}");
    let results = checked
        .out
        .lines()
        .filter(|line| line.contains(r#""result":"refused""#));
    assert_eq!(results.count(), 3, "{}", checked.out);
    let lifted = run_line(&folder, "lift refused -o out --to 6");
    assert_eq!(lifted.status, Some(1), "{lifted:?}");
    assert!(
        lifted
            .err
            .contains("3 stayed behind (0 no trees, 3 refused"),
        "{}",
        lifted.err
    );
    let bytes = |name: &str| std::fs::read(folder.join(name)).expect("a file");
    assert_eq!(bytes("out"), bytes("refused"));
    for number in 0..3 {
        let shown = run(&folder, &["read", &format!("refused#{number}")]);
        assert_eq!(shown.status, Some(1), "{shown:?}");
    }
    // A word of kind 0 within a list cannot be written plainly.
    let plain = run_line(&folder, "lift refused -o plain --to 6 --plain");
    assert_eq!(
        (plain.status, folder.join("plain").exists()),
        (Some(3), false)
    );
}

/// Lists whose brackets nest: as they are, and as version 6 needs them.
const DEEP: [(i16, &str); 4] = [
    (5, "a && b || c"),
    (5, "a && b || c && d || e"),
    (5, "(a + (b))"),
    (5, "a + b + c + d"),
];

#[test]
fn check_tells_of_lists_that_are_deeper_than_a_limit() {
    let folder = folder("check_limit");
    write(&folder, "deep", &archive(Format::Container, &DEEP));
    assert_eq!(run_line(&folder, "check deep").status, Some(0));
    assert_eq!(run_line(&folder, "check deep --limit 2").status, Some(0));
    let checked = run_line(&folder, "check deep --limit 1");
    assert_eq!(checked.status, Some(1), "{checked:?}");
    assert_eq!(
        checked.out,
        "deep list 2 (byte 320, version 5): too deep for the limit of 1: token 3, `(` at 5-6\n"
    );
    let summary = "1 files, 4 lists: 3 trees, 0 no trees, 1 too deep, 0 refused; 0 files not read to their end\n";
    assert_eq!(checked.err, summary);
    let json = run_line(&folder, "check deep --limit 1 --json");
    let third = json.out.lines().nth(2).expect("a line");
    let told = concat!(
        r#""version":5,"result":"too-deep","token":3,"op":4,"operator":"(","start":5,"end":6,"#,
        r#""messages":[{"number":18,"start":5,"end":6}],"#
    );
    assert!(third.contains(told), "{third}");
    for limit in ["0", "4097", "-1", "deep", ""] {
        let wrong = run(&folder, &["check", "deep", "--limit", limit]);
        assert_eq!(wrong.status, Some(2), "{limit}: {wrong:?}");
        assert!(wrong.err.contains("from 1 to 4096"), "{}", wrong.err);
    }
}

#[test]
fn lift_keeps_lists_that_are_too_deep_for_the_new_limit() {
    let folder = folder("lift_limit");
    write(&folder, "deep", &archive(Format::Container, &DEEP));
    let lifted = run_line(&folder, "lift deep -o six --to 6 --limit 1 --report report");
    assert_eq!(lifted.status, Some(1), "{lifted:?}");
    let summary = "4 lists to version 6: 1 written anew (0 of them scripts), 1 left alone (both versions read them alike), \
                   2 stayed behind (0 no trees, 0 refused, 0 not writable, 2 too deep)\n";
    assert!(lifted.err.starts_with(summary), "{}", lifted.err);
    let behind = "\
deep list 1 (byte 128, version 5): stays behind: too deep for the new limit of 1: token 3 of the list with its brackets, `(` at 5-11
deep list 2 (byte 320, version 5): stays behind: too deep for the new limit of 1: token 3, `(` at 5-6
";
    assert_eq!(lifted.out, behind);
    // Nothing is lost: what stays behind is as it was, at its own version.
    let expected = [
        (6, "a && (b || c)"),
        (5, "a && b || c && d || e"),
        (5, "(a + (b))"),
        (6, "a + b + c + d"),
    ];
    let bytes = std::fs::read(folder.join("six")).expect("a file");
    assert_eq!(
        lists(&bytes),
        expected.map(|(version, text)| (version, text.to_string()))
    );
    let report = std::fs::read_to_string(folder.join("report")).expect("a report");
    let lines: Vec<&str> = report.lines().collect();
    let told = r#""to":6,"result":"too-deep","token":3,"op":4,"operator":"(","start":5,"end":11,"reason":"as-written","#;
    assert!(lines[1].contains(told), "{}", lines[1]);
    let told = r#""to":6,"result":"too-deep","token":3,"op":4,"operator":"(","start":5,"end":6,"reason":"as-given","#;
    assert!(lines[2].contains(told), "{}", lines[2]);
    let strict = run_line(&folder, "lift deep -o strict --to 6 --limit 1 --strict");
    assert_eq!(strict.status, Some(1), "{strict:?}");
    assert!(!folder.join("strict").exists());
    // With room for both all are carried over.
    let wide = run_line(&folder, "lift deep -o wide --to 6 --limit 2");
    assert_eq!(wide.status, Some(0), "{wide:?}");
    let unlimited = run_line(&folder, "lift deep -o unlimited --to 6");
    assert_eq!(unlimited.status, Some(0), "{unlimited:?}");
    let bytes = |name: &str| std::fs::read(folder.join(name)).expect("a file");
    assert_eq!(bytes("wide"), bytes("unlimited"));
}

#[test]
fn lists_that_were_too_deep_for_their_own_limit_stay_behind() {
    let folder = folder("own_limit");
    write(&folder, "deep", &archive(Format::Container, &DEEP));
    let lifted = run_line(&folder, "lift deep -o six --to 6 --own-limit 1 --json");
    assert_eq!(lifted.status, Some(1), "{lifted:?}");
    let third = lifted.out.lines().nth(2).expect("a line");
    let told = concat!(
        r#""result":"too-deep","token":3,"op":4,"operator":"(","start":5,"end":6,"reason":"own-limit","#,
        r#""messages":[{"number":18,"start":5,"end":6}],"#
    );
    assert!(third.contains(told), "{third}");
    let text = "too deep for its own limit of 1: token 3, `(` at 5-6";
    assert!(third.contains(text), "{third}");
    let results = lifted.out.lines().map(|line| line.contains("too-deep"));
    assert_eq!(
        results.take(4).collect::<Vec<_>>(),
        [false, false, true, false]
    );
    assert_eq!(
        run_line(&folder, "lift deep -o six --to 6 --own-limit 0").status,
        Some(2)
    );
}

#[test]
fn lists_that_are_too_deep_with_all_brackets_are_not_settled() {
    let folder = folder("settle_limit");
    write(&folder, "deep", &archive(Format::Container, &DEEP));
    let settled = run_line(&folder, "lift deep -o out --settle --to 6 --limit 1 --json");
    let results = settled.out.lines().map(|line| {
        let result = line.split("\"result\":\"").nth(1);
        result.and_then(|rest| rest.split('"').next())
    });
    let results: Vec<Option<&str>> = results.collect();
    // The sum nests two deep with all its brackets, and is left alone.
    let expected = ["settled", "too-deep", "too-deep", "same", "summary"].map(Some);
    assert_eq!(results, expected, "{}", settled.out);
}

#[test]
fn settled_lists_have_all_their_brackets() {
    let folder = folder("settle");
    write(
        &folder,
        "lists",
        &archive(
            Format::Container,
            &[(4, "a + b * c"), (4, "a + b"), (4, "a = b;"), (4, "(a b)")],
        ),
    );
    let settled = run(
        &folder,
        &[
            "lift", "lists", "-o", "out", "--settle", "--to", "6", "--json",
        ],
    );
    assert_eq!(settled.status, Some(0), "{settled:?}");
    let results: Vec<bool> = settled
        .out
        .lines()
        .take(4)
        .map(|line| line.contains("\"settled\""))
        .collect();
    assert_eq!(results, [true, false, false, false], "{}", settled.out);
    // The last cannot be written, so another version may read it otherwise, and it is told of; the two before are settled as they are.
    let bracket = r#""to":6,"result":"same","node":0,"op":4,"operator":"(","start":0,"end":1,"reason":"bracket","#;
    let told = settled.out.lines().take(4);
    let told = told.map(|line| line.contains(bracket));
    assert_eq!(told.collect::<Vec<_>>(), [false, false, false, true]);
    let summary = "1 of those left alone could not be settled";
    assert!(settled.err.contains(summary), "{}", settled.err);
    let text = run_line(&folder, "lift lists -o out --settle --to 6");
    let told = "left alone, not settled: cannot be written: node 0, `(` at 0-1";
    assert!(
        text.out.lines().count() == 1 && text.out.contains(told),
        "{}",
        text.out
    );
    let bytes = std::fs::read(folder.join("out")).expect("a file");
    let texts: Vec<String> = lists(&bytes).into_iter().map(|(_, text)| text).collect();
    assert_eq!(texts, ["a + (b * c)", "a + b", "a = b;", "(a b)"]);
}

#[test]
fn words_and_containers_carry_the_same_lists() {
    let folder = folder("formats");
    write(&folder, "words", &seven(Format::Words));
    write(&folder, "container", &seven(Format::Container));
    let lift = |from: &str, to: &str, plain: &[&str]| {
        let words = [&["lift", from, "-o", to, "--to", "6"], plain].concat();
        assert_eq!(run(&folder, &words).status, Some(1));
        std::fs::read(folder.join(to)).expect("a file")
    };
    let (a, b) = (
        lift("words", "a", &["--container"]),
        lift("container", "b", &[]),
    );
    assert_eq!(a, b);
    let (c, d) = (
        lift("words", "c", &[]),
        lift("container", "d", &["--plain"]),
    );
    assert_eq!(c, d);
    assert_eq!(lists(&a), lists(&c));
    assert!(a.starts_with(b"\x89SBR") && c.starts_with(&[6, 0, 0, 0]));
    // From standard input to standard output.
    let (streamed, bytes) = run_with(
        &folder,
        &["lift", "-", "-o", "-", "--to", "6"],
        &seven(Format::Words),
    );
    assert_eq!((streamed.status, &bytes), (Some(1), &c));
    assert!(
        streamed.err.contains("stays behind"),
        "the lines are on standard error"
    );
    let (checked, _) = run_with(&folder, &["check", "-"], &a);
    assert_eq!(checked.status, Some(1));
}

#[test]
fn folders_are_gone_through_by_name() {
    let folder = folder("folders");
    for number in 0..12 {
        let name = format!("in/{}/{number:02}", number % 3);
        write(
            &folder,
            &name,
            &archive(Format::Container, &vec![(6, "a b"); 700 * (number % 4) + 1]),
        );
    }
    write(&folder, "in/.hidden", b"passed over");
    write(&folder, "in/0/old.bak", b"passed over");
    let checked = run(&folder, &["check", "in"]);
    assert_eq!(checked.status, Some(1));
    let mut files: Vec<&str> = checked.out.lines().map(|line| &line[..7]).collect();
    files.dedup();
    let sorted = {
        let mut sorted = files.clone();
        sorted.sort_unstable();
        sorted
    };
    assert_eq!((files.len(), &files), (12, &sorted));
    assert_eq!(run(&folder, &["check", "in"]).out, checked.out);
    let lifted = run(&folder, &["lift", "in", "-o", "out", "--to", "6"]);
    assert_eq!(lifted.status, Some(1));
    let copied = run(&folder, &["check", "out"]);
    assert_eq!(copied.out, checked.out.replace("in/", "out/"));
    assert!(!folder.join("out/.hidden").exists() && !folder.join("out/0/old.bak").exists());
}

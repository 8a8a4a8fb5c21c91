//! Reports of several runs add up to the report of one.

mod common;

use common::command::{SEVEN, archive, folder, run, run_line, run_with};
use sorbrudder::archive::Format;
use std::path::Path;
use std::process::Command;

/// Four files of lists, in `in`.
fn shards(folder: &Path) {
    std::fs::create_dir(folder.join("in")).expect("a folder");
    for number in 0..4 {
        let lists = &SEVEN[number..];
        let bytes = archive(Format::Container, lists);
        std::fs::write(folder.join(format!("in/{number}")), bytes).expect("a file");
    }
}

#[test]
fn reports_of_shards_add_up_to_the_report_of_all() {
    let folder = folder("sum");
    shards(&folder);
    for line in [
        "check X --json",
        "diff X --to 6 --json",
        "lift X --dry-run --to 6 --json",
    ] {
        let report = |files: &str| run_line(&folder, &line.replace('X', files)).out;
        let mut reports = Vec::new();
        for number in 0..4 {
            let name = format!("report{number}");
            std::fs::write(folder.join(&name), report(&format!("in/{number}"))).expect("a file");
            reports.push(name);
        }
        let words: Vec<&str> = ["sum", "--json"]
            .into_iter()
            .chain(reports.iter().map(String::as_str))
            .collect();
        let sum = run(&folder, &words);
        let all = report("in");
        let last = all.lines().last().expect("a summary");
        let last = last.strip_suffix('}').expect("an object");
        assert_eq!(sum.out, format!("{last},\"runs\":4}}\n"), "{line}");
        assert_eq!(sum.status, Some(1), "{line}");
        // All reports in one file, and a sum of sums.
        let together: String = reports
            .iter()
            .map(|name| std::fs::read_to_string(folder.join(name)).expect("a file"))
            .collect();
        let (streamed, _) = run_with(&folder, &["sum", "-", "--json"], together.as_bytes());
        assert_eq!(streamed.out, sum.out);
        let (again, _) = run_with(
            &folder,
            &["sum", "-", "--json"],
            sum.out.repeat(2).as_bytes(),
        );
        assert!(again.out.ends_with("\"runs\":8}\n"), "{}", again.out);
    }
    let text = run_line(&folder, "sum report0 report1");
    let expected = "lift --to 6, 2 runs: files 2, failed 0, skipped 0, lists 13, written 5, scripts 0, same 4, unsettled 0, no trees 2, \
                    refused 0, not writable 2, too deep 0, held back 0, untouched 0\n";
    assert_eq!(text.out, expected);
}

#[test]
fn the_highest_status_of_the_runs_is_the_sum_s() {
    let folder = folder("sum_status");
    shards(&folder);
    std::fs::write(
        folder.join("in/0"),
        &archive(Format::Container, &SEVEN)[..100],
    )
    .expect("a file");
    std::fs::write(folder.join("good"), archive(Format::Container, &SEVEN[..2])).expect("a file");
    for (file, status) in [("good", 0), ("in/1", 1), ("in/0", 4), ("missing", 3)] {
        let out = run(&folder, &["check", file, "--json"]).out;
        std::fs::write(folder.join("report"), out).expect("a file");
        assert_eq!(
            run_line(&folder, "sum report").status,
            Some(status),
            "{file}"
        );
    }
}

#[test]
fn a_report_that_is_cut_or_of_another_command_is_told_of() {
    let folder = folder("sum_wrong");
    shards(&folder);
    let report = run_line(&folder, "check in/0 --json").out;
    let cut = report.lines().next().expect("a line");
    let diff = run_line(&folder, "diff in/0 --to 6 --json").out;
    let other = run_line(&folder, "diff in/0 --to 5 --json").out;
    for (text, told) in [
        (
            format!("{cut}\n"),
            "it does not end with a summary: it was cut",
        ),
        (cut[..20].to_string(), "line 1 is no record of a report"),
        (String::new(), "it does not end with a summary: it was cut"),
        (
            report.clone() + &diff,
            "a summary of diff --to 6 among those of check",
        ),
        (
            diff + &other,
            "a summary of diff --to 5 among those of diff --to 6",
        ),
    ] {
        std::fs::write(folder.join("report"), text).expect("a file");
        let ran = run_line(&folder, "sum report");
        assert_eq!(ran.status, Some(4), "{told}: {ran:?}");
        assert!(ran.err.contains(told), "{told}: {ran:?}");
    }
    assert_eq!(run_line(&folder, "sum missing").status, Some(3));
    assert_eq!(run_line(&folder, "sum").status, Some(2));
}

/// The indented lines of docs/SHARDS.md, part by part.
fn page() -> Vec<String> {
    let page = Path::new(env!("CARGO_MANIFEST_DIR")).join("../docs/SHARDS.md");
    let page = std::fs::read_to_string(page).expect("docs/SHARDS.md");
    let parts = page.split("\n## ").skip(1);
    let lines = parts.map(|part| part.lines().filter_map(|line| line.strip_prefix("    ")));
    lines
        .map(|lines| lines.collect::<Vec<_>>().join("\n"))
        .collect()
}

#[test]
fn the_page_on_shards_does_as_one_run_does() {
    let folder = folder("shards");
    if Command::new("parallel").arg("--version").output().is_err() {
        eprintln!("GNU parallel is not installed: the test was left out");
        return;
    }
    shards(&folder);
    for number in 0..4 {
        let names = [format!("in/{number}"), format!("in/{number}.lists")];
        std::fs::rename(folder.join(&names[0]), folder.join(&names[1])).expect("renamed");
    }
    let large: Vec<(i16, &str)> = SEVEN.iter().copied().cycle().take(60_000).collect();
    let large = archive(Format::Container, &large);
    std::fs::write(folder.join("in/large.lists"), large).expect("a file");
    let alone = run_line(&folder, "lift in -o alone --to 6 --report alone.json");
    assert_eq!(alone.status, Some(1), "{alone:?}");
    let one = run_line(&folder, "sum alone.json --json").out;
    let program = Path::new(env!("CARGO_BIN_EXE_sorbrudder"));
    let path = format!(
        "{}:{}",
        program.parent().expect("a folder").display(),
        std::env::var("PATH").unwrap_or_default()
    );
    let [by_file, by_host, by_list] = page().try_into().expect("three parts");
    for script in [by_file, by_host, by_list] {
        for name in ["out", "reports"] {
            let _ = std::fs::remove_dir_all(folder.join(name));
        }
        let mut bash = Command::new("bash");
        bash.current_dir(&folder)
            .env("PATH", &path)
            .env("HOSTS", ":");
        let ran = bash.args(["-c", &script]).output().expect("a shell");
        let out = String::from_utf8_lossy(&ran.stdout);
        let counts = out.lines().last().expect("the sum");
        assert_eq!(ran.status.code(), Some(1), "{script}: {counts}");
        if script.contains("large.lifted") {
            let parts = std::fs::read_dir(folder.join("reports")).expect("reports");
            assert!(parts.count() > 1, "{script}");
            let lifted = |name: &str| std::fs::read(folder.join(name)).expect("a file");
            assert!(lifted("large.lifted") == lifted("alone/large.lists"));
            continue;
        }
        let names = ["0.lists", "1.lists", "2.lists", "3.lists", "large.lists"];
        for name in names {
            let lifted = |folder: &Path| std::fs::read(folder.join(name)).expect("a file");
            assert!(
                lifted(&folder.join("out")) == lifted(&folder.join("alone")),
                "{name}"
            );
        }
        let reports = names.map(|name| format!("reports/{name}.json"));
        let reports: Vec<&str> = ["sum", "--json"]
            .into_iter()
            .chain(reports.iter().map(String::as_str))
            .collect();
        let sum = run(&folder, &reports).out;
        assert_eq!(sum.replace("\"runs\":5", "\"runs\":1"), one, "{script}");
    }
}

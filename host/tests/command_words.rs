//! The words that the command takes and the words that it tells: names and numbers that are wrong, and what a terminal would obey.

mod common;

use common::command::{SEVEN, archive, command, folder, run, run_line};
use sorbrudder::archive::Format;
use std::ffi::OsStr;
use std::io::Write as _;
use std::os::unix::ffi::OsStrExt as _;
use std::path::Path;

#[test]
fn a_list_that_is_not_there_is_told_with_how_many_there_are() {
    let folder = folder("how_many");
    for (name, lists) in [("seven", &SEVEN[..]), ("one", &SEVEN[..1]), ("none", &[])] {
        std::fs::write(folder.join(name), archive(Format::Container, lists)).expect("a file");
    }
    for (word, told) in [
        ("seven#99", "seven has no list 99: it has 7, 0 to 6"),
        ("seven#7", "seven has no list 7: it has 7, 0 to 6"),
        ("one#1", "one has no list 1: it has one, 0"),
        ("none#0", "none has no list 0: it has none"),
    ] {
        let read = run(&folder, &["read", word]);
        assert_eq!(read.status, Some(1));
        assert_eq!(read.err, format!("sorbrudder: {told}\n"));
    }
}

/// A name that turns the terminal red, goes to the next line and is no text.
const NAME: &[u8] = b"re\x1b[31md\n\xff";

/// How it is shown.
const SHOWN: &str = r"re\u{1b}[31md\n\xff";

#[test]
fn a_name_with_a_line_s_end_is_told_on_one_line() {
    let folder = folder("lines_ends");
    let seven = archive(Format::Container, &SEVEN);
    let plain = archive(Format::Words, &[(5, "a && b || c"), (5, "a")]);
    for (name, bytes) in [("two\nlines", &seven), ("plain\nfile", &plain)] {
        std::fs::write(folder.join(name), bytes).expect("a file");
    }
    std::fs::write(folder.join("cut\nhere"), &seven[..300]).expect("a file");
    std::fs::hard_link(folder.join("two\nlines"), folder.join("one")).expect("a link");
    std::os::unix::fs::symlink("nowhere", folder.join("no\nwhere")).expect("a link");
    let mut escaped = 0;
    for words in [
        &["check", "cut\nhere"][..],
        &["check", "no\nsuch"],
        &["check", "no\nwhere"],
        &["diff", "two\nlines", "--to", "6\nseven"],
        &["lift", "two\nlines", "--in-place", "--to", "6"],
        &["lift", "two\nlines", "-o", "two\nlines", "--to", "6"],
        &["lift", "plain\nfile", "-o", "no\nfolder/a", "--to", "6"],
        &[
            "lift",
            "plain\nfile",
            "-o",
            "lifted",
            "--to",
            "6",
            "--container",
        ],
        &[
            "lift",
            "two\nlines",
            "plain\nfile",
            "-o",
            "two\nlines",
            "--to",
            "6",
        ],
        &["read", "two\nlines"],
        &["read", "two\nlines#99"],
        &["salvage", "no\nsuch", "-o", "saved"],
        &["no\nsuch"],
        &["check", "--no\nsuch"],
        &[
            "report",
            "two\nlines",
            "--to",
            "6",
            "-o",
            "page",
            "--most",
            "1\ntwo",
        ],
    ] {
        let ran = run(&folder, words);
        assert!(!ran.err.is_empty(), "{words:?}");
        let begins = |line: &str| {
            let starts = [
                "lines", "file", "here", "such", "where", "folder", "seven", "two",
            ];
            starts.iter().any(|start| line.starts_with(start))
        };
        assert!(!ran.err.lines().any(begins), "{words:?}: {}", ran.err);
        escaped += usize::from(ran.err.contains("\\n"));
    }
    assert!(escaped >= 12, "{escaped} name what was named");
}

#[test]
fn what_a_terminal_would_obey_is_shown_escaped() {
    let folder = folder("escaped");
    let name = OsStr::from_bytes(NAME);
    std::fs::write(folder.join(name), archive(Format::Words, &SEVEN)).expect("a file");
    let list = [NAME, b"#6"].concat();
    for words in [
        &[OsStr::new("check"), name][..],
        &[
            OsStr::new("diff"),
            name,
            OsStr::new("--to"),
            OsStr::new("6"),
        ],
        &[OsStr::new("explain"), OsStr::from_bytes(&list)],
        &[OsStr::new("read"), OsStr::from_bytes(b"\x1b]0;title\x07#0")],
        &[OsStr::new("\x1b[31m")],
        &[OsStr::new("check"), OsStr::new("--\x1b[31m")],
        &[
            OsStr::new("read"),
            OsStr::new("-e"),
            OsStr::new("a \x1b[31m"),
        ],
    ] {
        let run = command().current_dir(&folder).args(words).output();
        let run = run.expect("it runs");
        let told = [run.stdout, run.stderr].concat();
        let obeyed = |byte: &u8| *byte < b' ' && *byte != b'\n';
        assert!(
            !told.iter().any(obeyed),
            "{words:?}: {}",
            told.escape_ascii()
        );
        assert!(!told.is_empty() && !told.contains(&0xff), "{words:?}");
    }
    let check = command()
        .current_dir(&folder)
        .arg("check")
        .arg(name)
        .output();
    let check = check.expect("it runs");
    let (out, err) = (check.stdout, check.stderr);
    assert!(out.starts_with(format!("{SHOWN} list 6 ").as_bytes()));
    assert!(err.starts_with(format!("sorbrudder: {SHOWN}: a plain").as_bytes()));
}

#[test]
fn the_name_of_a_damaged_file_is_shown_escaped() {
    let folder = folder("escaped-damage");
    let name = OsStr::from_bytes(NAME);
    let mut bytes = archive(Format::Container, &SEVEN);
    let middle = bytes.len() / 2;
    bytes[middle] ^= 1;
    std::fs::write(folder.join(name), bytes).expect("a file");
    let [to, out] = ["-o", "out"].map(OsStr::new);
    for words in [
        &[OsStr::new("salvage"), name, to, out][..],
        &[OsStr::new("pack"), name, to, out],
        &[OsStr::new("sum"), name],
    ] {
        let run = command().current_dir(&folder).args(words).output();
        let run = run.expect("it runs");
        let told = String::from_utf8([run.stdout, run.stderr].concat()).expect("text");
        let is_shown = told.contains(SHOWN) && !told.contains('\x1b');
        assert!(is_shown, "{words:?}: {told:?}");
    }
}

#[test]
fn a_source_is_shown_escaped() {
    let run = |list: &str, command: &str| run(Path::new("."), &[command, "--at", "6", "-e", list]);
    let string = "'\x1b[31m\u{202e}' + (a";
    let text = run(string, "explain").out;
    let told = r"'\u{1b}[31m\u{202e}' + (a
                       ^";
    assert!(text.contains(told), "{text:?}");
    for command in ["read", "versions"] {
        let text = run("'\x1b[31m' + a", command).out;
        assert!(
            !text.contains('\x1b') && text.contains(r"\u{1b}[31m"),
            "{text:?}"
        );
    }
}

#[test]
fn a_slip_is_told_with_what_may_be_meant() {
    for (line, told) in [
        (
            "chek x",
            "there is no command `chek` (did you mean `check`?); ",
        ),
        (
            "help lit",
            "there is no command `lit` (did you mean `lift`?); ",
        ),
        (
            "check --jsn x",
            "check: there is no option `--jsn` (did you mean `--json`?); ",
        ),
        (
            "lift --inplace x",
            "lift: there is no option `--inplace` (did you mean `--in-place`?); ",
        ),
        (
            "check --quite x",
            "check: there is no option `--quite` (did you mean `--quiet`?); ",
        ),
        ("frobnicate", "there is no command `frobnicate`; "),
        (
            "check --frobnicate x",
            "check: there is no option `--frobnicate`; ",
        ),
        (
            "ops --color sometimes",
            "ops: `--color` takes one of auto, always, never, not `sometimes`; ",
        ),
        (
            "--vrsion",
            "help: there is no option `--vrsion` (did you mean `--version`?); ",
        ),
        ("--color", "help: `--color` lacks its value; "),
    ] {
        let wrong = run_line(Path::new("."), line);
        assert_eq!((wrong.status, wrong.out.as_str()), (Some(2), ""), "{line}");
        let told = format!("sorbrudder: {told}");
        assert!(wrong.err.starts_with(&told), "{line}: {}", wrong.err);
    }
}

#[test]
fn the_version_is_told_before_and_after_a_command() {
    let told = format!("sorbrudder {}\n", env!("CARGO_PKG_VERSION"));
    let help = run_line(Path::new("."), "help --help");
    assert_eq!(
        (help.status, help.out),
        (Some(0), run_line(Path::new("."), "--help").out)
    );
    for line in [
        "--version",
        "-V",
        "-q --version",
        "check --version",
        "--version check x",
    ] {
        let run = run_line(Path::new("."), line);
        assert_eq!(
            (run.status, run.out.as_str()),
            (Some(0), told.as_str()),
            "{line}"
        );
    }
}

#[test]
fn quiet_leaves_out_all_but_the_answer_and_what_fails() {
    let folder = folder("quiet");
    std::fs::write(folder.join("seven"), archive(Format::Words, &SEVEN)).expect("a file");
    for line in [
        "check seven",
        "diff seven --to 6",
        "lift seven --dry-run --to 6",
    ] {
        let loud = run_line(&folder, line);
        assert!(!loud.err.is_empty(), "{line}");
        for line in [format!("-q {line}"), format!("{line} --quiet")] {
            let quiet = run_line(&folder, &line);
            assert_eq!(
                (quiet.status, &quiet.out),
                (loud.status, &loud.out),
                "{line}"
            );
            assert_eq!(quiet.err, "", "{line}");
        }
    }
    let failed = run_line(&folder, "-q check missing seven");
    assert_eq!(failed.status, Some(3));
    assert!(
        failed.err.starts_with("sorbrudder: missing: "),
        "{failed:?}"
    );
    assert_eq!(failed.err.lines().count(), 1, "{failed:?}");
}

#[test]
fn colours_are_as_asked() {
    let run = |words: &[&str], no_color: &str| {
        let list = ["versions", "-e", "a && b || c"];
        let mut run = command();
        run.args(words).args(list).env("NO_COLOR", no_color);
        let run = run.output().expect("it runs");
        String::from_utf8(run.stdout).expect("text")
    };
    let plain = run(&[], "");
    assert!(!plain.contains('\x1b'), "no terminal, no colours");
    assert_eq!(run(&["--color=auto"], ""), plain);
    assert_eq!(run(&["--color", "never"], ""), plain);
    for no_color in ["", "1"] {
        let coloured = run(&["--color", "always"], no_color);
        assert!(coloured.contains("\x1b[1;31m"), "{coloured:?}");
        let bare = coloured.replace("\x1b[1;31m", "").replace("\x1b[0m", "");
        let trimmed = |text: &str| {
            text.lines()
                .map(str::trim_end)
                .collect::<Vec<_>>()
                .join("\n")
        };
        assert_eq!(trimmed(&bare), trimmed(&plain));
    }
    let explained = command()
        .args(["--color=always", "explain", "-e", "a\n(b"])
        .output()
        .expect("it runs");
    let explained = String::from_utf8(explained.stdout).expect("text");
    assert!(
        explained.contains("\x1b[1m-e:2:1:\x1b[0m no `)`"),
        "{explained:?}"
    );
    assert!(explained.contains("\x1b[1;31m^\x1b[0m"), "{explained:?}");
}

/// The commands of the help, each with its options.
fn commands() -> Vec<(String, Vec<String>)> {
    let help = run_line(Path::new("."), "--help").out;
    let lines = help
        .lines()
        .filter_map(|line| line.strip_prefix("  sorbrudder "));
    let mut names: Vec<String> = lines
        .filter_map(|line| line.split(' ').next().map(String::from))
        .collect();
    names.dedup();
    let options = |name: String| {
        let help = run_line(Path::new("."), &format!("{name} --help")).out;
        let lines = help.lines().filter_map(|line| line.strip_prefix("  -"));
        let options = lines.filter_map(|line| line.split(' ').next());
        let options = options.map(|option| format!("-{option}")).collect();
        (name, options)
    };
    names.into_iter().map(options).collect()
}

#[test]
fn the_man_page_and_the_completions_have_every_word_of_the_help() {
    let told = |line: &str| {
        let run = run_line(Path::new("."), line);
        assert_eq!((run.status, run.err.as_str()), (Some(0), ""), "{line}");
        run.out
    };
    let page = told("man").replace("\\-", "-");
    let shells = ["bash", "zsh", "fish"].map(|shell| told(&format!("completions {shell}")));
    let commands = commands();
    assert!(commands.len() > 9, "{commands:?}");
    for (name, options) in &commands {
        let (_, section) = page
            .split_once(&format!(".SS {name}\n"))
            .expect("a section");
        let section = section.split(".SS ").next().expect("a section");
        let [bash, zsh, fish] = &shells;
        let arm = |text: &str| {
            let (_, arm) = text
                .split_once(&format!("\n        {name})\n"))
                .expect("an arm");
            arm.split(";;\n        ")
                .next()
                .expect("an arm")
                .to_string()
        };
        let seen = format!("__fish_seen_subcommand_from {name}'");
        for option in options {
            let bare = option.trim_start_matches('-');
            let sign = if option.starts_with("--") { "-l" } else { "-s" };
            assert!(
                section.contains(&format!("\\fB{option}\\fR")),
                "{name} {option}"
            );
            assert!(arm(bash).contains(option), "{name} {option}");
            assert!(arm(zsh).contains(&format!("'{option}[")), "{name} {option}");
            let line = fish
                .lines()
                .find(|line| line.contains(&seen) && line.contains(&format!(" {sign} {bare} ")));
            assert!(line.is_some(), "{name} {option}");
        }
    }
    assert_eq!(run_line(Path::new("."), "completions tcsh").status, Some(2));
    assert_eq!(run_line(Path::new("."), "completions").status, Some(2));
}

/// What bash completes after some words, the last of which is being written.
fn completed(words: &[&str]) -> Vec<String> {
    let script = run_line(Path::new("."), "completions bash").out;
    let words: Vec<String> = words.iter().map(|word| format!("'{word}'")).collect();
    let script = format!(
        "set -u\n{script}\nCOMP_WORDS=(sorbrudder {}) COMP_CWORD={}\n_sorbrudder\nprintf '%s\\n' \"${{COMPREPLY[@]-}}\"",
        words.join(" "),
        words.len()
    );
    let run = std::process::Command::new("bash")
        .args(["-c", &script])
        .output();
    let run = run.expect("bash");
    assert!(run.status.success() && run.stderr.is_empty(), "{run:?}");
    let out = String::from_utf8(run.stdout).expect("text");
    out.split_whitespace().map(String::from).collect()
}

#[test]
fn bash_completes_commands_options_and_their_values() {
    assert_eq!(completed(&["ch"]), ["check"]);
    assert_eq!(completed(&["-q", "dr"]), ["draw"]);
    assert_eq!(completed(&["--color", "never", "dr"]), ["draw"]);
    assert_eq!(completed(&["--color", ""]), ["auto", "always", "never"]);
    assert_eq!(completed(&["lift", "--dr"]), ["--dry-run"]);
    assert_eq!(
        completed(&["lift", "--to", "6", "--s"]),
        ["--strict", "--settle"]
    );
    assert_eq!(completed(&["lift", "--to", ""]), [""; 0]);
    assert_eq!(completed(&["versions", "--color", "a"]), ["auto", "always"]);
    assert_eq!(completed(&["help", "ver"]), ["versions"]);
    assert_eq!(completed(&["completions", ""]), ["bash", "zsh", "fish"]);
    assert!(completed(&[""]).len() > 10);
}

#[test]
fn the_man_page_is_sound() {
    let page = run_line(Path::new("."), "man").out;
    let lint = std::process::Command::new("groff")
        .args(["-man", "-Tutf8", "-ww", "-"])
        .stdin(std::process::Stdio::piped())
        .stdout(std::process::Stdio::piped())
        .stderr(std::process::Stdio::piped())
        .spawn();
    // Where there is no groff, the page is not looked at by it.
    let Ok(mut lint) = lint else {
        return;
    };
    let mut input = lint.stdin.take().expect("a pipe");
    input.write_all(page.as_bytes()).expect("it reads");
    drop(input);
    let lint = lint.wait_with_output().expect("it ends");
    assert!(lint.stderr.is_empty(), "{}", lint.stderr.escape_ascii());
    assert!(lint.stdout.len() > 5_000);
}

//! The command shows lists: by operator, with brackets, with messages, as a page.

mod common;

use common::command::{Run, SEVEN, archive, command, folder, run, run_line};
use sorbrudder::archive::Format;
use std::io::Read as _;
use std::path::Path;
use std::process::Stdio;

fn shown(words: &[&str]) -> String {
    let run = run(Path::new("."), words);
    assert!(run.status < Some(2), "{words:?}: {run:?}");
    run.out
}

/// The lines of a drawing.
fn drawing(list: &str) -> Vec<String> {
    let text = shown(&["read", "--at", "6", "-e", list]);
    text.lines().skip(2).map(String::from).collect()
}

#[test]
fn nodes_are_drawn_by_their_operators_and_rules() {
    assert_eq!(
        drawing("a - b"),
        [
            "+ sum [addition]",
            "├─ a",
            "└─ - negative [unary]",
            "   └─ b"
        ]
    );
    assert_eq!(drawing("a - - b"), ["+ sum [addition]", "├─ a", "└─ b"]);
    let returned = [
        "; statement [semicolon]",
        "└─ ; statement [semicolon]",
        "   └─ return [return]",
        "      └─ a",
    ];
    assert_eq!(drawing("return a;"), returned);
    assert_eq!(
        drawing("math.sin(dosed)"),
        ["math.sin [math]", "└─ ( brackets [section]", "   └─ dosed"]
    );
    let bracketed = shown(&["read", "--at", "5", "-e", "a - b && c || d"]);
    assert!(bracketed.starts_with("version 5   (a + (- b)) && (c || d)\n"));
}

#[test]
fn versions_prints_the_lines_and_then_each_tree_once() {
    let drawn = "\
dosed ? hold : under ? open : shut

version 4    (dosed ? hold : under) ? open : shut
version 5    dosed ? hold : (under ? open : shut)
version 6    dosed ? hold : (under ? open : shut)

  version 4                                version 5, 6
* ? if [conditional]                     * ? if [conditional]
* ├─ ? if [conditional]                  * ├─ dosed
* │  ├─ dosed                            * └─ : then and else [conditional]
* │  └─ : then and else [conditional]    *    ├─ hold
* │     ├─ hold                          *    └─ ? if [conditional]
* │     └─ under                         *       ├─ under
* └─ : then and else [conditional]       *       └─ : then and else [conditional]
*    ├─ open                             *          ├─ open
*    └─ shut                             *          └─ shut

below version 5 every `:` is paired, then every `?` from the left; from 5 on `?` and `:` belong together, nested to the right
";
    let list = "dosed ? hold : under ? open : shut";
    assert_eq!(shown(&["versions", "-e", list]), drawn);
    let alike = shown(&["versions", "-e", "a + b * c"]);
    assert_eq!(
        alike.lines().count(),
        5,
        "no tree where all read alike: {alike}"
    );
    let part = shown(&["versions", "-e", "x + (a && b || c)", "--at", "5,6"]);
    let marked = part.lines().filter(|line| line.starts_with("* ")).count();
    assert_eq!(marked, 5, "only what differs is marked: {part}");
}

#[test]
fn versions_says_why_nothing_changes() {
    let last = |list: &str, at: &str| {
        let text = shown(&["versions", "-e", list, "--at", at, "--why"]);
        text.lines().last().unwrap_or_default().to_owned()
    };
    let none = "Nothing changes: no operator in it is one that these versions pair otherwise.";
    assert_eq!(last("a + b * c", "4,5,6"), none);
    assert_eq!(last("a && b || c", "4,5"), none, "logic changes at 6");
    let apart = "Nothing changes: what these versions may pair otherwise is paired alike here, \
                 by its brackets or by what stands beside it.";
    for list in ["a && (b || c)", "a ? b : c", "a < b == c", "a > b"] {
        assert_eq!(last(list, "4,6"), apart, "{list}");
    }
    assert_eq!(
        last("a && b || c", "6,7"),
        "These versions have the same rules."
    );
    for (list, at) in [("a && b || c", "4,6"), ("a +", "4,6"), ("a", "6")] {
        let last = last(list, at);
        assert!(
            !last.contains("othing changes") && !last.contains("same rules"),
            "{last}"
        );
    }
}

#[test]
fn versions_names_the_rule_of_each_node() {
    let drawn = "\
  version 4, 5                        version 6
* && and [AND]                      * || or [OR]
* ├─ == equal [comparison]          * ├─ && and [AND]
* │  ├─ < less than [comparison]    * │  ├─ == equal [equality]
* │  │  ├─ a                        * │  │  ├─ < less than [comparison]
* │  │  └─ b                        * │  │  │  ├─ a
* │  └─ c                           * │  │  │  └─ b
* └─ || or [OR]                     * │  │  └─ c
*    ├─ d                           * │  └─ d
*    └─ e                           * └─ e
";
    let text = shown(&["versions", "-e", "a < b == c && d || e"]);
    assert!(text.contains(drawn), "{text}");
    // Versions 5 and 6 read one tree, and name a rule of it otherwise.
    let text = shown(&["versions", "-e", "a == b ? c : d ? e : f"]);
    assert!(text.contains("[comparison at 5; equality at 6]"), "{text}");
    assert_eq!(text.matches("equality").count(), 1, "{text}");
}

#[test]
fn explain_points_at_the_tokens() {
    let explained = "\
version 6   no tree

(a + b] * c
^^^^^^^ `(` is closed by `]` and not by `)`
^ no `)` closes this `(`
";
    let run = run(
        Path::new("."),
        &["explain", "--at", "6", "-e", "(a + b] * c"],
    );
    assert_eq!((run.status, run.out.as_str()), (Some(1), explained));
    assert!(shown(&["explain", "-e", "a + b"]).starts_with("It is a tree."));
    let json = shown(&["explain", "--json", "--at", "6", "-e", "a b"]);
    let head = r#"{"version":6,"result":"no-tree","source":"a b","#;
    let text = "2 parts are left that no operator joins";
    let message =
        format!(r#"{{"number":1,"start":0,"end":3,"line":1,"column":1,"text":"{text}"}}"#);
    let object = format!(r#"{head}"text":"{text} (at 0-3)","messages":[{message}]}}"#);
    assert_eq!(json.trim_end(), object);
}

#[test]
fn explain_points_at_the_bracket_that_is_one_too_many() {
    let explained = "\
version 6   no tree

a * (b + (c))
         ^ too deep: with token 5 more brackets are open than the limit allows
";
    let words = ["--at", "6", "--limit", "1", "-e", "a * (b + (c))"];
    for command in ["explain", "read"] {
        let run = run(Path::new("."), &[&[command], &words[..]].concat());
        assert_eq!((run.status, run.out.as_str()), (Some(1), explained));
        let json = shown(&[&[command, "--json"], &words[..]].concat());
        let head = r#"{"version":6,"result":"too-deep","source":"a * (b + (c))","text":"too deep: with token 5"#;
        let rest = r#" more brackets are open than the limit allows","token":5,"messages":[]}"#;
        assert_eq!(json.trim_end(), format!("{head}{rest}"));
    }
    let within = shown(&[
        "explain",
        "--at",
        "6",
        "--limit",
        "2",
        "-e",
        "a * (b + (c))",
    ]);
    assert!(within.starts_with("It is a tree."), "{within}");
}

#[test]
fn nodes_in_json_have_their_place() {
    let json = shown(&["read", "--at", "6", "--json", "-e", "(a) * b"]);
    let section =
        r#"{"op":4,"operator":"(","children":1,"start":0,"end":1,"close":3,"rule":"section"}"#;
    let operand = r#"{"op":61,"operator":"float","children":0,"start":1,"end":2,"close":2}"#;
    assert!(json.contains(&format!("{section},{operand}")), "{json}");
}

#[test]
fn a_list_of_an_archive_is_shown_by_its_number() {
    let folder = folder("show");
    std::fs::write(folder.join("seven"), archive(Format::Container, &SEVEN)).expect("a file");
    let of = |word: &str| run(&folder, &["read", word]);
    assert!(of("seven#1").out.starts_with("version 5   a && (b || c)\n"));
    assert_eq!(of("seven#6").status, Some(1));
    assert_eq!(of("seven#7").status, Some(1));
    assert_eq!(of("seven").status, Some(2));
    assert_eq!(of("missing#0").status, Some(3));
    std::fs::write(folder.join("text"), "x &&  y||z").expect("a file");
    let source = ["versions", "seven#1", "--source", "text", "--at", "5"];
    assert_eq!(run(&folder, &source).status, Some(0));
}

#[test]
fn every_rule_that_makes_a_difference_is_named() {
    let rules = [
        "below version 5 every",
        "up to version 5",
        "below version 6 the comparisons",
    ];
    for (list, named) in [
        ("a ? b : c ? d : e", [true, false, false]),
        ("a && b || c", [false, true, false]),
        ("a > b == c", [false, false, true]),
        ("a && b > c ? d : e ? f : g", [true, false, false]),
        ("a && b || c > d", [false, true, false]),
        ("a > b == c && d", [false, false, true]),
        ("a && b || c ? d : e ? f : g", [true, true, false]),
        ("a > b == c && d || e", [false, true, true]),
        ("a > b == c && (d || e) || f ? g : h ? i : j", [true; 3]),
    ] {
        let text = shown(&["versions", "-e", list]);
        assert_eq!(rules.map(|rule| text.contains(rule)), named, "{text}");
    }
}

#[test]
fn help_is_help() {
    let run = |line: &str| run_line(Path::new("."), line);
    for line in [
        "--help",
        "help",
        "-h",
        "help lift",
        "lift --help",
        "lift x -o y -h",
    ] {
        let help = run(line);
        assert_eq!((help.status, help.err.as_str()), (Some(0), ""), "{line}");
        assert!(help.out.starts_with("sorbrudder"), "{line}");
    }
    let all = run("--help").out;
    for command in [
        "check", "diff", "lift", "read", "versions", "explain", "draw", "report", "ops",
    ] {
        let help = run(&format!("{command} --help"));
        assert!(
            help.status == Some(0) && help.out.contains(command),
            "{command}"
        );
        assert!(all.contains(&format!("sorbrudder {command}")), "{command}");
    }
}

#[test]
fn wrong_words_are_told() {
    for line in [
        "lst",
        "help lst",
        "check",
        "check --jsn x",
        "check --json=yes x",
        "diff x",
        "diff x --to 32768",
        "diff x --to",
        "read -e $",
        "read",
        "draw -e a",
        "draw -e a --at 4 -o x",
        "report x --to 6",
        "report x -o y",
        "report --to 6 -o y",
        "report x --to 6 -o y --most many",
        "ops x",
    ] {
        let wrong = run_line(Path::new("."), line);
        assert_eq!((wrong.status, wrong.out.as_str()), (Some(2), ""), "{line}");
        assert!(
            wrong.err.starts_with("sorbrudder: "),
            "{line}: {}",
            wrong.err
        );
    }
    let nothing = run(Path::new("."), &[]);
    assert_eq!((nothing.status, nothing.out.as_str()), (Some(2), ""));
}

#[test]
fn ops_lists_every_operator() {
    assert_eq!(shown(&["ops"]).lines().count(), 111);
    let json = shown(&["ops", "--json"]);
    let sum = r#"{"op":9,"name":"ADD","operator":"+","words":"sum"}"#;
    assert_eq!(json.lines().nth(9), Some(sum));
}

/// Runs the command; one byte of its output is read, and then nobody reads any more.
fn run_half_read(folder: &Path, words: &[&str]) -> Run {
    let mut child = command();
    child
        .current_dir(folder)
        .args(words)
        .stdout(Stdio::piped())
        .stderr(Stdio::piped());
    let mut child = child.spawn().expect("it runs");
    let mut out = child.stdout.take().expect("a pipe");
    out.read_exact(&mut [0]).expect("a byte");
    drop(out);
    Run::of(child.wait_with_output().expect("it ends"))
}

#[test]
fn a_closed_pipe_ends_it_quietly() {
    let folder = folder("pipe");
    let many: Vec<(i16, &str)> = vec![(6, "a b"); 20_000];
    std::fs::write(folder.join("many"), archive(Format::Container, &many)).expect("a file");
    for words in [
        &["ops"][..],
        &["check", "many"],
        &["check", "--json", "many"],
    ] {
        let half = run_half_read(&folder, words);
        assert!(
            !half.err.contains("panicked") && !half.err.contains("pipe"),
            "{words:?}: {half:?}"
        );
        assert!(
            half.status.is_some_and(|status| status < 2),
            "{words:?}: {half:?}"
        );
    }
    // What was found is still in the status, whatever is read of it; no command calls bad lists all well.
    for (words, status) in [
        (&["check", "many"][..], 1),
        (&["check", "--json", "many"], 1),
        (&["diff", "many", "--to", "5"], 1),
        (&["diff", "--json", "many", "--to", "5"], 1),
        (&["check", "--json", "many", "missing"], 3),
        (&["ops"], 0),
    ] {
        let half = run_half_read(&folder, words);
        assert_eq!(half.status, Some(status), "{words:?}: {half:?}");
    }
    // An archive that was not read to its end is cut, which a script should know, and nobody has to be told.
    let lifted: Vec<(i16, &str)> = vec![(5, "a && b || c"); 20_000];
    std::fs::write(folder.join("lifted"), archive(Format::Container, &lifted)).expect("a file");
    let half = run_half_read(&folder, &["lift", "lifted", "-o", "-", "--to", "6"]);
    assert_eq!((half.status, half.err.as_str()), (Some(3), ""));
}

#[test]
fn that_nobody_can_read_standard_error_changes_nothing() {
    let folder = folder("mute");
    std::fs::write(folder.join("seven"), archive(Format::Words, &SEVEN)).expect("a file");
    for (line, status) in [
        ("check seven", 1),
        ("diff seven --to 6", 1),
        ("lift seven -o six --to 6", 1),
        ("lift seven -o - --to 6", 1),
        ("check missing", 3),
        ("lst", 2),
    ] {
        let full = std::fs::File::options().write(true).open("/dev/full");
        let mut child = command();
        child.current_dir(&folder).args(line.split(' '));
        child.stderr(full.expect("a device that takes nothing"));
        let ended = Run::of(child.output().expect("it runs"));
        assert_eq!(ended.status, Some(status), "{line}: {ended:?}");
    }
    assert_eq!(run_line(&folder, "check six").status, Some(1));
}

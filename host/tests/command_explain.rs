//! `sorbrudder explain` on texts of several lines: the lines concerned, their numbers, and signs under what a message covers.

mod common;

use common::command::{folder, run};
use sorbrudder::Tokens;
use sorbrudder::archive::{Format, ListsWriter};
use std::path::Path;

fn explained(list: &str) -> String {
    let run = run(Path::new("."), &["explain", "--at", "6", "-e", list]);
    assert_eq!((run.status, run.err.as_str()), (Some(1), ""), "{run:?}");
    run.out
}

/// What is said after the version.
fn said(list: &str) -> String {
    let text = explained(list);
    let text = text.strip_prefix("version 6   no tree\n\n");
    text.expect("the version").to_string()
}

#[test]
fn a_message_stands_under_its_own_line() {
    let told = "\
-e:3:5: `(` is closed by `]` and not by `)`
 2 | + b
 3 |   * (c]
   |     ^^^
-e:3:5: no `)` closes this `(`
 2 | + b
 3 |   * (c]
   |     ^
";
    assert_eq!(said("a\n+ b\n  * (c]\n+ d"), told);
}

#[test]
fn a_span_of_several_lines_shows_its_first_and_its_last() {
    let told = "\
-e:2:3: `(` is closed by `]` and not by `)`
 1 | x
 2 | + (a
   |   ^^
 ...
 4 |  * c] + d
   |  ^^^^
-e:2:3: no `)` closes this `(`
 1 | x
 2 | + (a
   |   ^
";
    assert_eq!(said("x\n+ (a\n + b\n * c] + d"), told);
    let next = said("(a\n]");
    let told = "\
-e:1:1: `(` is closed by `]` and not by `)`
 1 | (a
   | ^^
 2 | ]
   | ^
";
    assert!(next.starts_with(told), "{next}");
}

#[test]
fn tabs_and_wide_characters_are_counted_as_a_terminal_shows_them() {
    // A tab leads to the next of the stops 8, 16 and so on; 日 and 本 take two columns each; the mark of é takes none.
    let told = "\
-e:2:9: no `)` closes this `(`
 1 | a +
 2 |         '日本' + (b
   |                  ^
";
    let text = said("a +\n\t'日本' + (b");
    assert!(text.ends_with(told), "{text}");
    let text = said("a +\n'e\u{301}' + (b");
    assert!(text.ends_with("   |       ^\n"), "{text}");
    // On one line too.
    let text = said("'日本' + (b");
    assert!(
        text.ends_with("\n         ^ no `)` closes this `(`\n"),
        "{text}"
    );
    assert!(said("a\t+ (b").starts_with("a       + (b\n          ^ "));
}

/// A pack's text, and the archive of a list with its spans in it.
fn pack(folder: &Path, text: &str, piece: &str) {
    let at = text.find(piece).expect("a piece of it");
    let list: Tokens = piece.parse().expect("the notation");
    let moved = list.iter().map(|token| {
        let by = at as u32;
        let span = token.span;
        let span = sorbrudder::Span::new(span.start() + by, span.end() + by);
        sorbrudder::Token {
            span: span.expect("a span"),
            ..*token
        }
    });
    let moved: Tokens = moved.collect::<Vec<_>>().into();
    let mut writer = ListsWriter::new(Vec::new(), Format::Container).expect("bytes");
    writer.write(6, &moved.words()).expect("bytes");
    let bytes = writer.finish().expect("bytes").0;
    std::fs::write(folder.join("lists"), bytes).expect("a file");
    std::fs::write(folder.join("pack.json"), text).expect("a file");
}

const PACK: &str = r#"{
  "format_version": 6,
  "open": "a + b",
  "shut": "a + (b] * c",
  "last": "ß"
}
"#;

#[test]
fn of_a_file_only_the_lines_concerned_are_shown() {
    let folder = folder("explain_source");
    pack(&folder, PACK, "a + (b] * c");
    let source = ["lists#0", "--source", "pack.json"];
    let text = run(&folder, &[&["explain"], &source[..]].concat());
    let told = r#"version 6   no tree

pack.json:4:16: `(` is closed by `]` and not by `)`
 3 |   "open": "a + b",
 4 |   "shut": "a + (b] * c",
   |                ^^^
pack.json:4:16: no `)` closes this `(`
 3 |   "open": "a + b",
 4 |   "shut": "a + (b] * c",
   |                ^
"#;
    assert_eq!((text.status, text.out.as_str()), (Some(1), told));
    assert_eq!(run(&folder, &[&["read"], &source[..]].concat()).out, told);
    let json = run(&folder, &[&["explain", "--json"], &source[..]].concat());
    let place = r#"{"number":5,"start":59,"end":60,"line":4,"column":16,"text":"no `)`"#;
    assert!(json.out.contains(place), "{json:?}");
    // The other commands show the list's lines too, and no other.
    pack(&folder, PACK, "a + b");
    let text = run(&folder, &[&["versions"], &source[..]].concat()).out;
    assert!(
        text.starts_with("  \"open\": \"a + b\",\n\nversion 4"),
        "{text}"
    );
    // A line of any length: the part round the list.
    let long = format!(
        "{{{}\"k\": \"a (b\"{}}}",
        "\"日\": 1, ".repeat(900),
        " ".repeat(900)
    );
    pack(&folder, &long, "a (b");
    let text = run(&folder, &[&["explain"], &source[..]].concat()).out;
    assert!(
        text.lines().all(|line| line.chars().count() < 140),
        "{text}"
    );
    let (line, signs) = (text.lines().nth(3), text.lines().nth(4));
    let columns = |text: &str| {
        text.chars()
            .map(|c| 1 + usize::from(c == '日'))
            .sum::<usize>()
    };
    let before = line
        .and_then(|line| line.split_once("(b"))
        .map(|(before, _)| columns(before));
    assert_eq!(before, signs.and_then(|signs| signs.find('^')), "{text}");
}

#[test]
fn a_text_that_is_another_list_s_is_told_of() {
    let folder = folder("explain_other_source");
    pack(&folder, PACK, "a + (b] * c");
    std::fs::write(folder.join("pack.json"), "{}\n").expect("a file");
    let text = run(&folder, &["explain", "lists#0", "--source", "pack.json"]);
    let told = "pack.json: no `)` closes this `(` (at 59-60, and the text ends at 3)\n";
    assert!(text.out.ends_with(told), "{text:?}");
    // Spans that end within a character are those of the whole of it.
    std::fs::write(folder.join("pack.json"), "ß".repeat(40)).expect("a file");
    let text = run(&folder, &["explain", "lists#0", "--source", "pack.json"]);
    assert_eq!(text.status, Some(1), "{text:?}");
    assert!(text.out.contains("pack.json:1:30: "), "{text:?}");
}

#[test]
fn what_is_not_in_the_notation_is_shown_in_its_line() {
    let run = run(Path::new("."), &["explain", "-e", "a +\nb $ c"]);
    let told = "\
sorbrudder: the list is not in the notation of lists
-e:2:3: no token stands at byte 6
 1 | a +
 2 | b $ c
   |   ^
";
    assert_eq!((run.status, run.err.as_str()), (Some(2), told));
}

/// Any spans in any text: the command tells something, and no line is wider than it may be.
#[test]
fn any_span_of_any_text_is_shown() {
    const SIGNS: [&str; 10] = [
        "a", " ", "\t", "\n", "\r\n", "ß", "日", "e\u{301}", "\x1b", "🌾",
    ];
    let folder = folder("explain_any");
    let mut rng = common::Rng(1);
    for round in 0..150 {
        let text: String = (0..rng.below(if round % 5 == 0 { 600 } else { 30 }))
            .map(|_| SIGNS[rng.below(if round % 5 == 0 { 2 } else { 10 })])
            .collect();
        let place = |rng: &mut common::Rng| rng.below(text.len() + 3) as u32;
        let list: Tokens = ["(", "a", "]", "b"]
            .map(|piece| {
                let span = sorbrudder::Span::new(place(&mut rng), place(&mut rng));
                sorbrudder::Token {
                    span: span.expect("a span"),
                    ..piece.parse::<Tokens>().expect("the notation")[0]
                }
            })
            .to_vec()
            .into();
        let mut writer = ListsWriter::new(Vec::new(), Format::Container).expect("bytes");
        writer.write(6, &list.words()).expect("bytes");
        std::fs::write(folder.join("lists"), writer.finish().expect("bytes").0).expect("a file");
        std::fs::write(folder.join("text"), &text).expect("a file");
        for command in ["explain", "versions"] {
            let run = run(&folder, &[command, "lists#0", "--source", "text"]);
            assert_eq!(
                (run.status, run.err.as_str()),
                (Some(1), ""),
                "{text:?} {list:?}"
            );
            let is_hidden =
                |c: char| c.is_control() && c != '\n' && (c != '\t' || command == "explain");
            assert!(!run.out.contains(is_hidden), "{run:?}");
            let is_wide = |line: &str| line.chars().count() > 140;
            assert!(
                command == "versions" || !run.out.lines().any(is_wide),
                "{run:?}"
            );
        }
    }
}

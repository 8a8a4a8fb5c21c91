//! Lines of JSON carry all that is told as fields: messages with their places, both readings, the rule, the new list, a summary.

mod common;

use common::command::{SEVEN, archive, command, folder, run, run_line};
use sorbrudder::archive::Format;
use std::ffi::OsStr;
use std::os::unix::ffi::OsStrExt as _;
use std::path::PathBuf;

fn seven(name: &str) -> PathBuf {
    let folder = folder(name);
    std::fs::write(folder.join("seven"), archive(Format::Container, &SEVEN)).expect("a file");
    folder
}

#[test]
fn messages_have_a_start_an_end_and_a_text() {
    let folder = seven("json_messages");
    for line in ["check seven --json", "lift seven --dry-run --to 6 --json"] {
        let ran = run_line(&folder, line);
        let seventh = ran.out.lines().nth(6).expect("a line");
        let messages = concat!(
            r#""messages":[{"number":6,"start":4,"end":5,"text":"the list ends within this `(`, before its `)`"},"#,
            r#"{"number":5,"start":4,"end":5,"text":"no `)` closes this `(`"}]"#
        );
        assert!(seventh.contains(messages), "{line}: {seventh}");
    }
}

#[test]
fn a_list_that_is_written_anew_has_both_readings_the_rule_and_the_new_list() {
    let folder = seven("json_lifted");
    let ran = run_line(&folder, "lift seven -o six --to 6 --json --report report");
    let second = ran.out.lines().nth(1).expect("a line");
    let told = concat!(
        r#"{"file":"seven","list":1,"byte":208,"version":5,"to":6,"result":"lifted","#,
        r#""node":0,"op":57,"operator":"&&","start":2,"end":4,"#,
        r#""own_reading":"a && (b || c)","to_reading":"(a && b) || c","#,
        r#""rule":"up to version 5 `||` is paired before `&&`, from 6 on `&&` before `||`","#,
        r#""list_before":"a && b || c","list_after":"a && (b || c)""#
    );
    assert!(second.starts_with(told), "{second}");
    let report = std::fs::read_to_string(folder.join("report")).expect("a report");
    assert_eq!(report, ran.out);
    // A tree at one version only.
    let diff = run_line(&folder, "diff seven --to 6 --json");
    let sixth = diff.out.lines().nth(5).expect("a line");
    assert!(
        sixth.contains(r#""result":"only-old","own_reading":""#),
        "{sixth}"
    );
    assert!(!sixth.contains("to_reading"), "{sixth}");
    assert!(sixth.contains(r#""messages":[{"number":"#), "{sixth}");
}

#[test]
fn a_list_that_is_read_alike_says_why() {
    let folder = folder("json_alike");
    let lists = [(4, "a + b"), (4, "a && (b || c)"), (6, "a && b || c")];
    std::fs::write(folder.join("three"), archive(Format::Container, &lists)).expect("a file");
    let ran = run_line(&folder, "diff three --to 7 --json");
    let wanted = ["no-such-operator", "paired-alike", "same-rules"];
    for (line, reason) in ran.out.lines().zip(wanted) {
        let told = format!(r#""to":7,"result":"same","reason":"{reason}"}}"#);
        assert!(line.ends_with(&told), "{line}");
    }
}

#[test]
fn the_last_record_is_a_summary() {
    let folder = seven("json_summary");
    std::fs::write(
        folder.join("cut"),
        &archive(Format::Container, &SEVEN)[..300],
    )
    .expect("a file");
    let last = |line: &str| {
        let ran = run_line(&folder, line);
        ran.out.lines().last().unwrap_or_default().to_string()
    };
    assert_eq!(
        last("check seven --json"),
        concat!(
            r#"{"result":"summary","command":"check","files":1,"failed":0,"skipped":0,"#,
            r#""lists":7,"trees":6,"no_trees":1,"too_deep":0,"refused":0,"status":1}"#
        )
    );
    assert_eq!(
        last("diff cut seven --to 6 --json"),
        concat!(
            r#"{"result":"summary","command":"diff","to":6,"files":2,"failed":1,"skipped":0,"#,
            r#""lists":7,"same":2,"differ":3,"only_old":1,"only_new":0,"no_trees":1,"refused":0,"status":4}"#
        )
    );
    assert_eq!(
        last("lift seven --dry-run --to 6 --json"),
        concat!(
            r#"{"result":"summary","command":"lift","to":6,"files":1,"failed":0,"skipped":0,"#,
            r#""lists":7,"written":3,"scripts":0,"same":2,"unsettled":0,"no_trees":1,"refused":0,"#,
            r#""not_writable":1,"too_deep":0,"held_back":0,"untouched":0,"status":1}"#
        )
    );
}

#[test]
fn a_name_that_is_not_utf_8_can_be_read_back() {
    let folder = seven("json_names");
    let name = OsStr::from_bytes(b"m\xfchle\n.lists");
    std::fs::rename(folder.join("seven"), folder.join(name)).expect("renamed");
    let mut child = command();
    child
        .current_dir(&folder)
        .arg("check")
        .arg(name)
        .arg("--json");
    let out = child.output().expect("it runs").stdout;
    let out = String::from_utf8(out).expect("text");
    for line in out.lines().take(7) {
        let bytes = line.split(r#""file_bytes":""#).nth(1).expect("its bytes");
        let bytes = bytes.split('"').next().expect("its bytes");
        let digits = bytes.as_bytes().chunks(2);
        let byte = |two: &[u8]| {
            let two = std::str::from_utf8(two).expect("digits");
            u8::from_str_radix(two, 16).expect("digits")
        };
        assert_eq!(digits.map(byte).collect::<Vec<_>>(), name.as_bytes());
    }
    let missing = [
        OsStr::new("check"),
        OsStr::from_bytes(b"\xff"),
        OsStr::new("--json"),
    ];
    let out = command().current_dir(&folder).args(missing).output();
    let out = String::from_utf8(out.expect("it runs").stdout).expect("text");
    assert!(
        out.contains(r#""file_bytes":"ff","result":"failed""#),
        "{out}"
    );
    // A name that is a text needs no bytes.
    std::fs::rename(folder.join(name), folder.join("mühle")).expect("renamed");
    let named = run_line(&folder, "check mühle --json");
    assert!(
        named.out.starts_with(r#"{"file":"mühle","list":0"#),
        "{named:?}"
    );
}

#[test]
fn what_would_be_written_is_shown_before_and_after() {
    let folder = seven("json_shown");
    let old = std::fs::read(folder.join("seven")).expect("a file");
    let ran = run_line(&folder, "lift seven --dry-run --diff --to 6");
    assert_eq!(ran.status, Some(1), "{ran:?}");
    let expected = "\
seven list 0 (byte 16, version 4): lifted to version 6
- a ? b : c ? d : e
+ (a ? b : c) ? d : e
seven list 1 (byte 208, version 5): lifted to version 6
- a && b || c
+ a && (b || c)
seven list 2 (byte 320, version 5): lifted to version 6
- a > b == c
+ a > (b == c)
seven list 5 (byte 696, version 4): stays behind: ";
    assert!(ran.out.starts_with(expected), "{}", ran.out);
    assert_eq!(std::fs::read(folder.join("seven")).expect("a file"), old);
    // Without a terminal there is no colour.
    assert!(!ran.out.contains('\x1b'), "{}", ran.out);
    let same = run_line(&folder, "lift seven --dry-run --to 6");
    assert!(!same.out.contains("\n+ "), "{}", same.out);
}

#[test]
fn on_a_terminal_what_would_be_written_is_in_colour() {
    let folder = seven("json_colour");
    let line = format!(
        "{} lift seven --dry-run --diff --to 6",
        env!("CARGO_BIN_EXE_sorbrudder")
    );
    let coloured = |set: &str| {
        let mut script = std::process::Command::new("script");
        script.current_dir(&folder).env_remove("NO_COLOR");
        let line = format!("{set} {line}");
        let ran = script.args(["-qec", &line, "/dev/null"]).output().ok()?;
        Some(String::from_utf8_lossy(&ran.stdout).into_owned())
    };
    let Some(out) = coloured("") else {
        eprintln!("there is no `script`, which makes a terminal: the test was left out");
        return;
    };
    assert!(out.contains("\x1b[31m- a && b || c\x1b[0m"), "{out}");
    assert!(out.contains("\x1b[32m+ a && (b || c)\x1b[0m"), "{out}");
    let plain = coloured("NO_COLOR=1").expect("as before");
    assert!(
        plain.contains("+ a && (b || c)") && !plain.contains("\x1b[3"),
        "{plain}"
    );
    assert_eq!(run(&folder, &["check", "seven"]).status, Some(1));
}

//! The command, run as a person runs it, on archives in a folder of the test's own.

use sorbrudder::Tokens;
use sorbrudder::archive::{Format, Lists, ListsWriter};
use std::io::Write as _;
use std::path::{Path, PathBuf};
use std::process::{Command, Output, Stdio};

/// An empty folder of this name.
pub fn folder(name: &str) -> PathBuf {
    let folder = Path::new(env!("CARGO_TARGET_TMPDIR")).join(name);
    let _ = std::fs::remove_file(&folder);
    let _ = std::fs::remove_dir_all(&folder);
    std::fs::create_dir_all(&folder).expect("a folder for the test");
    folder
}

/// The command, to be told more.
pub fn command() -> Command {
    Command::new(env!("CARGO_BIN_EXE_sorbrudder"))
}

/// What a run came to.
#[derive(Debug)]
pub struct Run {
    pub status: Option<i32>,
    pub out: String,
    pub err: String,
}

impl Run {
    pub fn of(output: Output) -> Self {
        Self {
            status: output.status.code(),
            out: String::from_utf8_lossy(&output.stdout).into_owned(),
            err: String::from_utf8_lossy(&output.stderr).into_owned(),
        }
    }
}

/// Runs the command in a folder.
pub fn run(folder: &Path, words: &[&str]) -> Run {
    let run = command().current_dir(folder).args(words).output();
    Run::of(run.expect("cargo test builds the command"))
}

/// Runs the command in a folder with the words of a line.
pub fn run_line(folder: &Path, line: &str) -> Run {
    run(folder, &line.split(' ').collect::<Vec<_>>())
}

/// Runs the command with these bytes as its input; gives its output too, which may be no text.
pub fn run_with(folder: &Path, words: &[&str], input: &[u8]) -> (Run, Vec<u8>) {
    let mut child = command();
    child.current_dir(folder).args(words);
    child
        .stdin(Stdio::piped())
        .stdout(Stdio::piped())
        .stderr(Stdio::piped());
    let mut child = child.spawn().expect("cargo test builds the command");
    let mut stdin = child.stdin.take().expect("a pipe");
    let input = input.to_vec();
    let writer = std::thread::spawn(move || stdin.write_all(&input));
    let output = child.wait_with_output().expect("it ends");
    let _ = writer.join().expect("nothing panics");
    (Run::of(output.clone()), output.stdout)
}

/// A list's words.
pub fn words(text: &str) -> Vec<u32> {
    text.parse::<Tokens>().expect("the notation").words()
}

/// The bytes of an archive of these lists.
pub fn archive(format: Format, lists: &[(i16, &str)]) -> Vec<u8> {
    let mut writer = ListsWriter::new(Vec::new(), format).expect("a list of bytes takes all");
    for (version, text) in lists {
        writer
            .write(*version, &words(text))
            .expect("a list of bytes takes all");
    }
    writer.finish().expect("a list of bytes takes all").0
}

/// The lists of an archive, in the notation.
pub fn lists(bytes: &[u8]) -> Vec<(i16, String)> {
    let mut lists = Lists::new(bytes).expect("an archive");
    let mut kept = Vec::new();
    while let Some(list) = lists.next_list().expect("a whole archive") {
        let tokens = Tokens::from_words(list.words).expect("tokens");
        kept.push((list.version, tokens.to_string()));
    }
    kept
}

/// Seven lists: two that versions read alike, three that they do not, one that cannot be written and one that is no tree.
pub const SEVEN: [(i16, &str); 7] = [
    (4, "a ? b : c ? d : e"),
    (5, "a && b || c"),
    (5, "a > b == c"),
    (4, "a + b * c"),
    (4, "{ a = b ; } ;"),
    (4, "a : b"),
    (6, "a + ( b"),
];

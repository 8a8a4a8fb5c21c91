//! `sorbrudder cat`: the lists of archives as text, a line each, or as lines of JSON. `sorbrudder pack` makes an archive of them again.

use crate::args::Args;
use crate::failure::{Failure, Status};
use crate::helpers::{Helpers, Task};
use crate::input::{Batch, Input, Listed};
use crate::json::Object;
use crate::paths;
use crate::salvage;
use crate::several::{self, How, Stdout, Teller};
use sorbrudder::{Token, Tokens};
use std::path::Path;

/// The sign before words that are no tokens; no token of the notation begins with it.
pub const WORDS: char = '$';

/// Writes lists down.
struct Cat {
    is_json: bool,
}

impl Task for Cat {
    type State = ();
    type Done = String;

    fn state(&self) {}

    fn work(&self, (): &mut (), file: &Path, batch: &Batch) -> String {
        let lists = batch.lists();
        match self.is_json {
            true => lists.map(|list| as_json(file, list)).collect(),
            false => lists.map(as_text).collect(),
        }
    }
}

pub fn run(args: &Args) -> Result<Status, Failure> {
    if args.rest.is_empty() {
        return Err(args.wrong("name the files or folders to write down"));
    }
    let is_json = args.has("--json");
    let how = How {
        task: &Cat { is_json },
        jobs: args.jobs()?,
        is_json: false,
    };
    let found = paths::find(args)?;
    let mut stdout = Stdout {
        goes_on: false,
        is_closed: false,
    };
    let status = several::each(&how, &found.files, &mut stdout, cat_file, |()| {})?;
    found.tell();
    Ok(status)
}

fn cat_file(
    file: &Path,
    teller: &mut Teller<()>,
    helpers: &Helpers<'_, Cat>,
) -> Result<(), Failure> {
    salvage::each_whole(file, Input::open(file), helpers, |text| {
        teller.text(&text);
        teller.open()
    })
}

/// A list as a line: its version, its text, and the spans where they are not those of the text.
fn as_text(list: Listed<'_>) -> String {
    let version = list.version;
    let Some((text, spans)) = written(list.words) else {
        let words = list.words.iter().map(|word| format!(" {word:x}"));
        return format!("{version}\t{WORDS}{}\n", words.collect::<String>());
    };
    match spans {
        false => format!("{version}\t{text}\n"),
        true => {
            let tokens = list.words.chunks_exact(Token::WORDS);
            let tokens = tokens.filter_map(|words| Token::from_words(words.try_into().ok()?));
            let spans: Vec<String> = tokens.map(|token| token.span.to_string()).collect();
            format!("{version}\t{text}\t{}\n", spans.join(" "))
        }
    }
}

/// The text of words, and whether their spans are others than the text's; none where the text is not read as these tokens again.
fn written(words: &[u32]) -> Option<(String, bool)> {
    let list = Tokens::from_words(words)?;
    let text = list.to_string();
    let again: Tokens = text.parse().ok()?;
    let alike = |one: &Token, other: &Token| {
        Token {
            span: one.span,
            ..*other
        }
        .words()
            == one.words()
    };
    let is_alike = list.len() == again.len()
        && list
            .iter()
            .zip(&again)
            .all(|(one, other)| alike(one, other));
    is_alike.then(|| (text, list.words() != again.words()))
}

fn as_json(file: &Path, list: Listed<'_>) -> String {
    let mut object = Object::new();
    object
        .file(file)
        .number("list", list.number)
        .number("version", list.version);
    if let Some(tokens) = Tokens::from_words(list.words) {
        object.text("text", &tokens.to_string());
    }
    object.numbers("words", list.words);
    object.done() + "\n"
}

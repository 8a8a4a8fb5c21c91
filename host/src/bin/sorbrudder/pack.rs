//! `sorbrudder pack`: an archive of lists that are written down, as `sorbrudder cat` does it or by hand.

use crate::args::Args;
use crate::cat::WORDS;
use crate::escape;
use crate::failure::{Failure, Status};
use crate::output;
use crate::parse::Value;
use crate::paths::{is_stream, place_of};
use crate::replace::Replacement;
use crate::written::{Digest, read_back};
use sorbrudder::archive::{Format, ListsWriter, Totals};
use sorbrudder::{Span, Tokens};
use std::fs::File;
use std::io::{self, BufRead, BufReader, BufWriter, Read as _, Write};
use std::path::Path;

/// The most bytes of a line; the longest list has fewer.
const MOST_BYTES: u64 = 1 << 24;

pub fn run(args: &Args) -> Result<Status, Failure> {
    let Some(out) = args.path("-o") else {
        return Err(args.wrong("say where to: `-o OUT`"));
    };
    if args.rest.is_empty() {
        return Err(args.wrong("name the text to make an archive of, or `-`"));
    }
    let is_out = |path: &Path| !is_stream(path) && place_of(path) == place_of(&out);
    if args.rest.iter().any(|path| is_out(Path::new(path))) {
        return Err(args.wrong("input and output are the same"));
    }
    let format = match args.has("--plain") {
        true => Format::Words,
        false => Format::Container,
    };
    let totals = if is_stream(&out) {
        pack(args, BufWriter::new(io::stdout()), format, &out)?.1
    } else {
        let (mut written, totals, digest) = pack(args, Replacement::of(&out)?, format, &out)?;
        read_back(&mut written, digest, &out)?;
        written.put_in_place()?;
        totals
    };
    output::tell(&format!("{} lists, {} words", totals.lists, totals.words));
    Ok(Status::Well)
}

/// Writes all lists of the texts.
fn pack<W: Write>(
    args: &Args,
    out: W,
    format: Format,
    named: &Path,
) -> Result<(W, Totals, Digest), Failure> {
    let failed = |why: io::Error| match why.kind() {
        io::ErrorKind::BrokenPipe if is_stream(named) => Failure::Cut,
        _ => Failure::io(named, &why),
    };
    let mut writer = ListsWriter::new(out, format).map_err(failed)?;
    let mut digest = Digest::new();
    for path in args.rest.iter().map(Path::new) {
        let mut number = 0;
        let mut lines = open(path)?;
        while let Some(line) = next_line(path, &mut lines)? {
            number += 1;
            let wrong = |why: String| {
                Failure::Damaged(format!("{}: line {number}: {why}", escape::path(path)))
            };
            let Some((version, words)) = list_of(&line).map_err(wrong)? else {
                continue;
            };
            let written = writer.write(version, &words);
            written.map_err(|why| match why.kind() {
                io::ErrorKind::InvalidInput => wrong(why.to_string()),
                _ => failed(why),
            })?;
            digest.add(version, &words);
        }
    }
    let (out, totals) = writer.finish().map_err(failed)?;
    Ok((out, totals, digest))
}

fn open(path: &Path) -> Result<Box<dyn BufRead>, Failure> {
    if is_stream(path) {
        return Ok(Box::new(BufReader::new(io::stdin())));
    }
    let file = File::open(path).map_err(|why| Failure::io(path, &why))?;
    Ok(Box::new(BufReader::new(file)))
}

/// The next line without its end; none behind the last.
fn next_line(path: &Path, lines: &mut dyn BufRead) -> Result<Option<String>, Failure> {
    let mut line = String::new();
    let read = lines.take(MOST_BYTES).read_line(&mut line);
    let read = read.map_err(|why| Failure::io(path, &why))?;
    if read as u64 == MOST_BYTES {
        let why = "a line is longer than any list";
        return Err(Failure::Damaged(format!("{}: {why}", escape::path(path))));
    }
    let len = line.trim_end_matches(['\n', '\r']).len();
    line.truncate(len);
    Ok((read > 0).then_some(line))
}

/// A version and a list's words.
type Given = (i16, Vec<u32>);

/// The list of a line; none where it is empty or a remark.
fn list_of(line: &str) -> Result<Option<Given>, String> {
    match line.chars().next() {
        None | Some('#') => Ok(None),
        Some('{') => of_json(line).map(Some),
        _ => of_text(line).map(Some),
    }
}

/// A version, a blank and a list in the notation; behind a tab the spans of its tokens.
fn of_text(line: &str) -> Result<Given, String> {
    let (version, rest) = line.split_once(['\t', ' ']).unwrap_or((line, ""));
    let version = version.parse();
    let version = version.map_err(|_| "a line begins with a version".to_string())?;
    if let Some(words) = rest.strip_prefix(WORDS) {
        let words = words.split_whitespace();
        let words = words.map(|word| u32::from_str_radix(word, 16));
        let words = words.collect::<Result<_, _>>();
        return Ok((version, words.map_err(|_| "no words".to_string())?));
    }
    let (text, spans) = match rest.split_once('\t') {
        Some((text, spans)) => (text, Some(spans)),
        None => (rest, None),
    };
    let list: Tokens = text.parse().map_err(|why| format!("`{text}`: {why}"))?;
    match spans {
        None => Ok((version, list.words())),
        Some(spans) => {
            let moved = moved(list, spans);
            let moved = moved.ok_or("behind the list there is not a span for each token")?;
            Ok((version, moved.words()))
        }
    }
}

/// The list with these spans, one for each token.
fn moved(list: Tokens, spans: &str) -> Option<Tokens> {
    let mut spans = spans.split_whitespace().map(|span| {
        let (start, end) = span.split_once('-')?;
        Span::new(start.parse().ok()?, end.parse().ok()?)
    });
    let mut list = list.into_vec();
    for token in &mut list {
        token.span = spans.next()??;
    }
    spans.next().is_none().then(|| list.into())
}

/// An object with a version, and a list's words or its text.
fn of_json(line: &str) -> Result<Given, String> {
    let value = Value::of(line).ok_or("no JSON")?;
    let version = value.field("version").and_then(Value::number);
    let version = version.ok_or("no version from -32768 to 32767")?;
    if let Some(words) = value.field("words") {
        let Value::List(words) = words else {
            return Err("the words are no list of numbers".to_string());
        };
        let words = words.iter().map(Value::number);
        let words: Option<Vec<u32>> = words.collect();
        return Ok((version, words.ok_or("a word is no number below 2^32")?));
    }
    let text = value.field("text").and_then(Value::text);
    let text = text.ok_or("neither words nor a text")?;
    let list: Tokens = text.parse().map_err(|why| format!("`{text}`: {why}"))?;
    Ok((version, list.words()))
}

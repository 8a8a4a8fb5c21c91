//! The one list that a command shows: written after `-e`, or a list of an archive as `FILE#N`.

use crate::args::Args;
use crate::escape;
use crate::excerpt::Excerpt;
use crate::failure::Failure;
use crate::input::Input;
use crate::output;
use sorbrudder::{MOST_TOKENS, Reader, Span, Token, Tokens};
use std::borrow::Cow;
use std::ffi::{OsStr, OsString};
use std::os::unix::ffi::OsStrExt as _;
use std::path::PathBuf;

/// The file and the number of `FILE#N`.
fn split(word: &OsStr) -> Option<(PathBuf, &str)> {
    let bytes = word.as_bytes();
    let sign = bytes.iter().rposition(|byte| *byte == b'#')?;
    let number = std::str::from_utf8(&bytes[sign + 1..]).ok()?;
    Some((PathBuf::from(OsStr::from_bytes(&bytes[..sign])), number))
}

/// The files that the list and its text are taken from.
pub fn files(args: &Args) -> Vec<PathBuf> {
    let archive = |word: &OsString| split(word).map(|(file, _)| file);
    let archives = args.rest.iter().filter_map(archive);
    archives.chain(args.path("--source")).collect()
}

/// A list with the text that its spans lie in.
pub struct OneList {
    /// What the text is called: a file's name, or how the list was named.
    pub name: String,
    pub source: String,
    /// Whether the text is a file's, of which the list may be a small part.
    pub is_of_file: bool,
    pub list: Tokens,
    /// The version that the archive has for it.
    pub version: Option<i16>,
}

impl OneList {
    pub fn of(args: &Args) -> Result<Self, Failure> {
        match (args.value("-e"), &args.rest[..]) {
            (Some(text), []) => Self::written(&text.to_string_lossy()),
            (None, [file]) => Self::of_archive(args, file),
            _ => Err(args.wrong("give one list, as FILE#N or after `-e`")),
        }
    }

    fn written(text: &str) -> Result<Self, Failure> {
        let list = text.parse::<Tokens>().map_err(|why| {
            let excerpt = Excerpt {
                name: "-e",
                source: text,
                is_coloured: false,
            };
            let at = u32::try_from(why.at).ok();
            let span = at.and_then(|at| Span::new(at, at)).unwrap_or_default();
            let place = excerpt.of(span, &why.to_string());
            let place = place.trim_end();
            Failure::Usage(format!("the list is not in the notation of lists\n{place}"))
        })?;
        Ok(Self {
            name: String::from("-e"),
            source: text.to_string(),
            is_of_file: false,
            list,
            version: None,
        })
    }

    fn of_archive(args: &Args, word: &OsStr) -> Result<Self, Failure> {
        let named = split(word);
        let named = named.and_then(|(file, number)| Some((file, number.parse::<u64>().ok()?)));
        let Some((file, number)) = named else {
            let word = word.to_string_lossy();
            return Err(args.wrong(&format!("`{word}` names no list: write FILE#N, N from 0")));
        };
        let mut input = Input::open(&file)?;
        let mut count = 0_u64;
        while let Some(list) = input.next_list()? {
            if list.number == number {
                let name = format!("{}#{number}", escape::path(&file));
                return Self::of_words(args, name, list.words, list.version);
            }
            count += 1;
        }
        let file = escape::path(&file);
        let lists = match count {
            0 => String::from("it has none"),
            1 => String::from("it has one, 0"),
            _ => format!("it has {count}, 0 to {}", count - 1),
        };
        Err(Failure::Found(format!(
            "{file} has no list {number}: {lists}"
        )))
    }

    fn of_words(args: &Args, name: String, words: &[u32], version: i16) -> Result<Self, Failure> {
        let Some(list) = Tokens::from_words(words) else {
            let why = Reader::new().read_words(words, version).err();
            let why = why.map_or(String::new(), |why| format!(": {why}"));
            return Err(Failure::Found(format!("its words are no tokens{why}")));
        };
        if list.len() > MOST_TOKENS {
            let tokens = words.len() / Token::WORDS;
            return Err(Failure::Found(format!(
                "it has {tokens} tokens, which is too many to read"
            )));
        }
        let version = Some(version);
        if let Some(file) = args.path("--source") {
            let source = std::fs::read_to_string(&file).map_err(|why| Failure::io(&file, &why))?;
            return Ok(Self {
                name: escape::path(&file),
                source,
                is_of_file: true,
                list,
                version,
            });
        }
        // An archive has no text: the list is printed, and read again with its places in what was printed.
        let source = list.to_string();
        let list = source.parse().unwrap_or(list);
        Ok(Self {
            name,
            source,
            is_of_file: false,
            list,
            version,
        })
    }

    /// The text, to be shown in parts.
    pub fn excerpt(&self) -> Excerpt<'_> {
        Excerpt {
            name: &self.name,
            source: &self.source,
            is_coloured: output::is_coloured(),
        }
    }

    /// The text as it is shown: of a file the lines that the list lies in.
    pub fn shown(&self) -> Cow<'_, str> {
        let spans = self.list.iter().map(|token| token.span);
        let within = |byte: u32| (byte as usize).min(self.source.len());
        let first = spans.clone().map(|span| within(span.start())).min();
        let last = spans.map(|span| within(span.end().max(span.start()))).max();
        let (Some(first), Some(last), true) = (first, last, self.is_of_file) else {
            return escape::lines(&self.source);
        };
        let bytes = self.source.as_bytes();
        let start = bytes[..first].iter().rposition(|byte| *byte == b'\n');
        let end = bytes[last..].iter().position(|byte| *byte == b'\n');
        let end = end.map_or(bytes.len(), |end| last + end);
        escape::lines(&self.source[start.map_or(0, |start| start + 1)..end])
    }
}

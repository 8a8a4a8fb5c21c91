//! What is told of one list: a line of text, or a line of JSON.

use crate::escape;
use crate::failure::Failure;
use crate::input::Listed;
use crate::json::Object;
use sorbrudder::{LiftError, Limit, Message, Op, ReadError, Span, Token};
use std::path::Path;

/// Which list it is about.
#[derive(Clone, Copy, Debug)]
pub struct About<'f> {
    file: &'f Path,
    number: u64,
    byte: u64,
    version: i16,
}

impl<'f> About<'f> {
    pub fn list(file: &'f Path, list: Listed<'_>) -> Self {
        Self {
            file,
            number: list.number,
            byte: list.byte,
            version: list.version,
        }
    }
}

/// A node of a tree or a token of a list, by its number.
#[derive(Clone, Copy, Debug)]
pub enum Which {
    Node(usize),
    Token(usize),
}

/// A node or a token that something is said of.
#[derive(Clone, Copy, Debug)]
pub struct Place {
    pub which: Which,
    pub op: Op,
    pub span: Span,
}

impl Place {
    /// The place of a token of a list that has no bad word.
    fn of_token(words: &[u32], token: usize) -> Option<Self> {
        let words = words.chunks_exact(Token::WORDS).nth(token)?;
        let Token { op, span, .. } = Token::from_words(words.try_into().ok()?)?;
        Some(Self {
            which: Which::Token(token),
            op,
            span,
        })
    }
}

/// What became of a list.
#[derive(Clone, Debug)]
pub struct Line {
    /// One word for it.
    pub result: &'static str,
    /// The version that it was compared with or lifted to.
    pub to: Option<i16>,
    /// What there is to say in words.
    pub text: String,
    pub place: Option<Place>,
    /// One word for why.
    pub reason: Option<&'static str>,
    /// The rule by which the versions differ.
    pub rule: Option<&'static str>,
    /// Messages, or a refusal.
    pub messages: Vec<Said>,
    /// How the list is read with all its brackets, at its own version and at the other.
    pub readings: [Option<String>; 2],
    /// The list as it was and as it is written, in the notation.
    pub lists: Option<[String; 2]>,
}

/// A message or a refusal: its number, where it points, and its words.
#[derive(Clone, Debug)]
pub struct Said {
    number: u32,
    span: Option<Span>,
    text: String,
}

impl Said {
    fn refusal(number: u32) -> Self {
        Self {
            number,
            span: None,
            text: String::new(),
        }
    }

    fn too_deep(place: Option<Place>) -> Self {
        Self {
            span: place.map(|place| place.span),
            ..Self::refusal(TOO_DEEP)
        }
    }

    fn as_json(&self) -> Object {
        let mut object = Object::new();
        object.number("number", self.number);
        if let Some(span) = self.span {
            object
                .number("start", span.start())
                .number("end", span.end());
        }
        if !self.text.is_empty() {
            object.text("text", &self.text);
        }
        object
    }
}

impl From<&Message> for Said {
    fn from(message: &Message) -> Self {
        Self {
            number: message.number(),
            span: Some(message.span()),
            text: message.to_string(),
        }
    }
}

/// The library's number for a list that is too deep.
const TOO_DEEP: u32 = 18;

/// The line of JSON about a file that could not be read or written to its end.
pub fn of_failure(file: &Path, failure: &Failure) -> String {
    let result = match failure {
        Failure::Damaged(_) => "damaged",
        Failure::Closed | Failure::Cut => return String::new(),
        _ => "failed",
    };
    let mut object = Object::new();
    object
        .file(file)
        .text("result", result)
        .text("text", failure.text().unwrap_or_default());
    object.done() + "\n"
}

impl Line {
    pub fn new(result: &'static str, to: Option<i16>) -> Self {
        Self {
            result,
            to,
            text: String::new(),
            place: None,
            reason: None,
            rule: None,
            messages: Vec::new(),
            readings: [None, None],
            lists: None,
        }
    }

    /// The line about a list that is no tree.
    pub fn of_read_error(why: &ReadError, to: Option<i16>) -> Self {
        let (result, messages) = match why {
            ReadError::Messages(messages) => ("no-tree", messages.iter().map(Said::from).collect()),
            ReadError::Refused(refusal) => ("refused", vec![Said::refusal(refusal.number())]),
            ReadError::TooDeep { .. } => ("too-deep", vec![Said::refusal(TOO_DEEP)]),
            _ => ("refused", Vec::new()),
        };
        Self {
            text: format!("no tree: {why}"),
            messages,
            ..Self::new(result, to)
        }
    }

    /// The line about a list of these words in which a token goes above a limit.
    fn too_deep(words: &[u32], token: usize, limit: &str, to: Option<i16>) -> Self {
        let place = Place::of_token(words, token);
        let at = place.map_or(String::new(), |Place { op, span, .. }| {
            format!(", `{op}` at {span}")
        });
        Self {
            text: format!("too deep for {limit}: token {token}{at}"),
            place,
            messages: vec![Said::too_deep(place)],
            ..Self::new("too-deep", to)
        }
    }

    /// The line about a list of these words that is no tree under a limit.
    pub fn of_limited(why: &ReadError, words: &[u32], limit: Limit) -> Self {
        match why {
            ReadError::TooDeep { token } => {
                Self::too_deep(words, *token, &format!("the limit of {limit}"), None)
            }
            _ => Self::of_read_error(why, None),
        }
    }

    /// The line about a list of these words that is not lifted from engines with this limit.
    pub fn of_lift_error(why: &LiftError, words: &[u32], limit: Limit, to: i16) -> Self {
        let mut line = match why {
            LiftError::Read(ReadError::TooDeep { token }) => {
                let limit = format!("its own limit of {limit}");
                Self::too_deep(words, *token, &limit, Some(to))
            }
            LiftError::Read(why) => Self::of_read_error(why, Some(to)),
            _ => Self {
                text: why.to_string(),
                ..Self::new("stays", Some(to))
            },
        };
        match why {
            LiftError::Read(ReadError::TooDeep { .. }) => line.reason = Some("own-limit"),
            LiftError::TooDeep {
                token,
                op,
                span,
                is_written,
                ..
            } => {
                line.result = "too-deep";
                line.reason = Some(if *is_written {
                    "as-written"
                } else {
                    "as-given"
                });
                line.place = Some(Place {
                    which: Which::Token(*token),
                    op: *op,
                    span: *span,
                });
                line.messages = vec![Said::too_deep(line.place)];
            }
            LiftError::NotPlain {
                node,
                op,
                span,
                reason,
                ..
            } => {
                line.place = Some(Place {
                    which: Which::Node(*node),
                    op: *op,
                    span: *span,
                });
                line.reason = Some(reason.name());
            }
            LiftError::TooLong => line.reason = Some("too-long"),
            LiftError::NoThread => line.reason = Some("no-thread"),
            _ => {}
        }
        line
    }

    pub fn as_text(&self, about: About<'_>) -> String {
        let About {
            file,
            number,
            byte,
            version,
        } = about;
        let file = escape::path(file);
        format!(
            "{file} list {number} (byte {byte}, version {version}): {}\n",
            self.text
        )
    }

    pub fn as_json(&self, about: About<'_>) -> String {
        let mut object = Object::new();
        object
            .file(about.file)
            .number("list", about.number)
            .number("byte", about.byte)
            .number("version", about.version);
        if let Some(to) = self.to {
            object.number("to", to);
        }
        object.text("result", self.result);
        if let Some(place) = self.place {
            let (name, number) = match place.which {
                Which::Node(number) => ("node", number),
                Which::Token(number) => ("token", number),
            };
            object
                .number(name, number as u64)
                .number("op", place.op.number())
                .text("operator", place.op.text())
                .number("start", place.span.start())
                .number("end", place.span.end());
        }
        if let Some(reason) = self.reason {
            object.text("reason", reason);
        }
        let names = ["own_reading", "to_reading"];
        for (name, reading) in names.iter().zip(&self.readings) {
            if let Some(reading) = reading {
                object.text(name, reading);
            }
        }
        if let Some(rule) = self.rule {
            object.text("rule", rule);
        }
        if let Some([before, after]) = &self.lists {
            object.text("list_before", before).text("list_after", after);
        }
        if !self.messages.is_empty() {
            object.objects("messages", self.messages.iter().map(Said::as_json));
        }
        if !self.text.is_empty() {
            object.text("text", &self.text);
        }
        object.done() + "\n"
    }
}

//! A list and what two versions make of it.

use crate::pages::html::{self, added, badge, escaped, hue, with_code};
use crate::pages::pairing::{Mark, Pairing, Part};
use crate::pages::text::{Text, numbered};
use sorbrudder::{Op, ReadError, Reader, Tokens, Tree};
use std::ops::Range;

/// A version and what it makes of the numbered list.
pub struct Reading {
    pub version: i16,
    pub read: Result<Tree, ReadError>,
    /// The nodes of its tree.
    pub marks: Vec<Mark>,
}

/// A list with its text, two readings of it, and what they pair otherwise.
pub struct Compared {
    pub list: Tokens,
    pub text: Text,
    pub readings: [Reading; 2],
    pub parts: Vec<Part>,
}

/// Where a message points: the tokens, and what it says.
pub struct Said {
    pub tokens: Range<usize>,
    pub text: String,
}

impl Compared {
    pub fn of(list: &Tokens, source: &str, versions: [i16; 2]) -> Self {
        let (text, list) = (Text::of(list, source), numbered(list));
        let mut reader = Reader::new();
        let mut readings = versions.map(|version| Reading {
            version,
            read: reader.read_with_rules(&list, version),
            marks: Vec::new(),
        });
        let mut parts = Vec::new();
        if let [Ok(old), Ok(new)] = [&readings[0].read, &readings[1].read] {
            let pairing = Pairing::of(old, new);
            parts = pairing.parts;
            let [one, other] = pairing.marks;
            (readings[0].marks, readings[1].marks) = (one, other);
        } else {
            for reading in &mut readings {
                reading.marks = reading
                    .read
                    .as_ref()
                    .map(Pairing::alone)
                    .unwrap_or_default();
            }
        }
        Self {
            list,
            text,
            readings,
            parts,
        }
    }

    /// For each token the part in which its operator is paired otherwise.
    pub fn parts_of_tokens(&self) -> Vec<Option<usize>> {
        let mut parts = vec![None; self.text.len()];
        for mark in self.readings.iter().flat_map(|reading| &reading.marks) {
            if mark.differs && mark.token < parts.len() {
                parts[mark.token] = mark.part;
            }
        }
        parts
    }

    /// Some tokens as they stand in the source, those that are paired otherwise with the numbers of their parts, and those that a message
    /// points at marked too.
    pub fn source(&self, tokens: Range<usize>) -> String {
        let parts = self.parts_of_tokens();
        let said = self.readings.iter().flat_map(|reading| self.said(reading));
        let said: Vec<Range<usize>> = said.map(|said| said.tokens).collect();
        let mut html = String::new();
        for token in tokens.clone() {
            let text = escaped(self.text.token(token));
            html += &match parts[token] {
                Some(part) => format!("<mark style=\"{}\">{text}{}</mark>", hue(part), badge(part)),
                None if said.iter().any(|said| said.contains(&token)) => {
                    format!("<u class=\"said\">{text}</u>")
                }
                None => text,
            };
            if token + 1 < tokens.end {
                html += &escaped(self.text.gap(token));
            }
        }
        html
    }

    /// Some tokens with brackets round what a reading pairs otherwise than the other: in one part, or in all.
    pub fn bracketed(
        &self,
        reading: &Reading,
        tokens: Range<usize>,
        only: Option<usize>,
    ) -> String {
        let mut before = vec![String::new(); self.text.len()];
        let mut after = before.clone();
        let marks = self.with_brackets(reading);
        // A bracket whose other end is not shown would stand for nothing.
        let is_shown =
            |mark: &&Mark| tokens.start <= mark.tokens.start && mark.tokens.end <= tokens.end;
        for mark in marks.filter(|mark| is_shown(mark) && (only.is_none() || mark.part == only)) {
            let style = mark.part.map(hue).unwrap_or_default();
            // Nodes come from above, so the brackets of a later one stand within those of an earlier one.
            before[mark.tokens.start] += &added("(", &style);
            after[mark.tokens.end - 1].insert_str(0, &added(")", &style));
        }
        let mut html = String::new();
        for token in tokens.clone() {
            html += &before[token];
            html += &escaped(self.text.token(token));
            html += &after[token];
            if token + 1 < tokens.end {
                html += &escaped(self.text.gap(token));
            }
        }
        html
    }

    /// The nodes that need brackets to be seen: those that are paired otherwise below another of their part. A `:` on the right of its
    /// `?` needs none.
    fn with_brackets<'r>(&self, reading: &'r Reading) -> impl Iterator<Item = &'r Mark> {
        let nodes = reading
            .read
            .iter()
            .flat_map(Tree::nodes)
            .zip(&reading.marks);
        let needed = nodes.filter(|(node, mark)| {
            let parent = node.parent();
            let is_then_else = node.op() == Op::CONDITIONAL_ELSE
                && parent.is_some_and(|parent| {
                    parent.op() == Op::CONDITIONAL && parent.child(1) == Some(*node)
                });
            let is_within =
                parent.is_some_and(|parent| reading.marks[parent.number()].part == mark.part);
            let is_there = mark.tokens.end <= self.text.len() && !mark.tokens.is_empty();
            mark.differs && is_within && is_there && !is_then_else
        });
        needed.map(|(_, mark)| mark)
    }

    /// What both versions do in a part, in two sentences.
    pub fn sentences(&self, part: usize) -> String {
        let Part { family, tokens } = &self.parts[part];
        let sentence = |reading: &Reading| {
            let reads = self.bracketed(reading, tokens.clone(), Some(part));
            let habit = with_code(family.habit(reading.version));
            let version = reading.version;
            format!("Version {version} reads <code class=\"reading\">{reads}</code>: it {habit}.")
        };
        self.readings.each_ref().map(sentence).join(" ")
    }

    /// What there is to say of a reading that is no tree.
    pub fn said(&self, reading: &Reading) -> Vec<Said> {
        let whole = |text: String| vec![Said { tokens: 0..0, text }];
        let said = match &reading.read {
            Ok(_) => Vec::new(),
            Err(ReadError::Messages(messages)) => {
                let said = messages.iter().map(|message| Said {
                    tokens: message.span().start() as usize..message.span().end() as usize,
                    text: message.to_string(),
                });
                said.collect()
            }
            Err(why @ ReadError::TooDeep { token }) => vec![Said {
                tokens: *token..*token + 1,
                text: why.to_string(),
            }],
            Err(why) => whole(why.to_string()),
        };
        let within = |said: Said| Said {
            tokens: said.tokens.start..said.tokens.end.min(self.text.len()),
            ..said
        };
        said.into_iter().map(within).collect()
    }

    /// A reading with all its brackets, where it can be written.
    pub fn written(&self, reading: &Reading) -> Option<String> {
        let tree = reading.read.as_ref().ok()?;
        let pieces = self.text.written(tree, &self.list)?;
        Some(html::pieces(&pieces))
    }
}

//! The lines of a text that a span lies in, with signs under what it covers.

use crate::escape;
use crate::width;
use sorbrudder::Span;

/// The most columns that are shown of a line; of a longer one it is the part round the span.
pub const MOST_COLUMNS: usize = 120;

/// The columns that are shown of a longer line before the span.
const LEAD: usize = 40;

/// A text, and what it is called.
#[derive(Clone, Copy)]
pub struct Excerpt<'s> {
    pub name: &'s str,
    pub source: &'s str,
    pub is_coloured: bool,
}

/// A line of a text.
#[derive(Clone, Copy)]
struct Line<'s> {
    /// From 1.
    number: usize,
    /// Where it begins in the text.
    start: usize,
    text: &'s str,
}

impl<'s> Line<'s> {
    /// The line that a byte of a text lies in; a line's end belongs to it.
    fn at(source: &'s str, byte: usize) -> Self {
        let before = &source.as_bytes()[..byte];
        let number = before.iter().filter(|byte| **byte == b'\n').count() + 1;
        let start = before.iter().rposition(|byte| *byte == b'\n');
        Self::from(source, number, start.map_or(0, |end| end + 1))
    }

    fn from(source: &'s str, number: usize, start: usize) -> Self {
        let text = source[start..].lines().next().unwrap_or("");
        Self {
            number,
            start,
            text,
        }
    }

    /// The line before it.
    fn before(self, source: &'s str) -> Option<Self> {
        Some(Self::at(source, self.start.checked_sub(1)?))
    }

    /// A byte of the text as one of the line.
    fn byte(self, of_text: usize) -> usize {
        of_text.saturating_sub(self.start).min(self.text.len())
    }

    /// The character that a byte begins, counted from 1.
    fn column(self, of_text: usize) -> usize {
        self.text[..self.byte(of_text)].chars().count() + 1
    }
}

/// How many columns a character takes at a column, as it is shown.
fn columns_of(c: char, column: usize) -> usize {
    match c != '\t' && escape::is_hidden(c) {
        true => escape::escaped(c).len(),
        false => width::of(c, column),
    }
}

/// How many columns a line takes.
fn columns(line: &str) -> usize {
    line.chars()
        .fold(0, |column, c| column + columns_of(c, column))
}

/// Adds a character as it is shown, of so many columns.
fn push(text: &mut String, c: char, columns: usize) {
    match c {
        '\t' => text.extend(std::iter::repeat_n(' ', columns)),
        c if escape::is_hidden(c) => text.push_str(&escape::escaped(c)),
        c => text.push(c),
    }
}

/// A line, or the part of it round a span, and the columns of the signs under it: how many lie before them, and how many they are.
struct Shown {
    text: String,
    before: usize,
    signs: usize,
}

impl Shown {
    /// A line with what lies between two of its bytes.
    fn of(line: &str, from: usize, to: usize) -> Self {
        let (mut column, mut first, mut last) = (0, None, None);
        for (byte, c) in line.char_indices() {
            first = first.or((byte >= from).then_some(column));
            last = last.or((byte >= to).then_some(column));
            column += columns_of(c, column);
        }
        let (first, last) = (first.unwrap_or(column), last.unwrap_or(column));
        if column <= MOST_COLUMNS {
            return Self::part(line, 0..column, first, last);
        }
        let begin = first.saturating_sub(LEAD);
        Self::part(line, begin..begin + MOST_COLUMNS, first, last)
    }

    /// The columns of a line within these.
    fn part(line: &str, within: std::ops::Range<usize>, first: usize, last: usize) -> Self {
        let (mut text, mut column, mut begin) = (String::new(), 0, None);
        let mut is_cut = false;
        for c in line.chars() {
            let width = columns_of(c, column);
            if column >= within.start && column + width <= within.end {
                begin = begin.or(Some(column));
                push(&mut text, c, width);
            }
            is_cut |= column + width > within.end;
            column += width;
        }
        let begin = begin.unwrap_or(0);
        let is_cut_before = begin > 0;
        let before = first - begin.min(first) + usize::from(is_cut_before);
        let signs = last.min(within.end).saturating_sub(first).max(1);
        let (head, tail) = (
            if is_cut_before { "…" } else { "" },
            if is_cut { "…" } else { "" },
        );
        Self {
            text: format!("{head}{text}{tail}"),
            before,
            signs,
        }
    }
}

impl Excerpt<'_> {
    /// What is said of a span, above the lines that it lies in: the one before it and its first, and its last where that is another.
    pub fn of(&self, span: Span, what: &str) -> String {
        let source = self.source;
        if span.start() as usize > source.len() {
            let (name, len) = (self.name, source.len());
            return format!("{name}: {what} (at {span}, and the text ends at {len})\n");
        }
        let start = floor(source, span.start() as usize);
        let end = floor(source, (span.end() as usize).min(source.len())).max(start);
        let first = Line::at(source, start);
        let last = Line::at(source, floor(source, end.saturating_sub(1)).max(start));
        let margin = last.number.to_string().len();
        let place = format!("{}:{}:{}:", self.name, first.number, first.column(start));
        let mut text = format!("{} {what}\n", self.in_colour("1", &place));
        if let Some(before) = first.before(source) {
            text += &numbered(before, &Shown::of(before.text, 0, 0), margin);
        }
        text += &self.signed(first, start, end, margin);
        if last.number > first.number {
            if last.number > first.number + 1 {
                text += &format!("{:margin$}...\n", "");
            }
            let indent = last.text.len() - last.text.trim_start().len();
            text += &self.signed(last, last.start + indent, end, margin);
        }
        text
    }

    /// The line and the column at which a span begins, both from 1; none where it begins behind the text's end.
    pub fn place(&self, span: Span) -> Option<(usize, usize)> {
        let start = span.start() as usize;
        let start = (start <= self.source.len()).then(|| floor(self.source, start))?;
        let line = Line::at(self.source, start);
        Some((line.number, line.column(start)))
    }

    /// A line, and the signs under it.
    fn signed(&self, line: Line<'_>, start: usize, end: usize, margin: usize) -> String {
        let shown = Shown::of(line.text, line.byte(start), line.byte(end));
        let signs = self.in_colour("1;31", &"^".repeat(shown.signs));
        let under = format!(
            " {:margin$} | {:before$}{signs}\n",
            "",
            "",
            before = shown.before
        );
        numbered(line, &shown, margin) + &under
    }

    fn in_colour(&self, colour: &str, text: &str) -> String {
        match self.is_coloured {
            true => format!("\x1b[{colour}m{text}\x1b[0m"),
            false => text.to_string(),
        }
    }

    /// Whether the text is one line that can be shown whole.
    pub fn is_short(&self) -> bool {
        !self.source.contains('\n') && columns(self.source) <= MOST_COLUMNS
    }

    /// A text of one line.
    pub fn line(&self) -> String {
        let shown = Shown::of(self.source, 0, 0);
        shown.text.trim_end().to_string()
    }

    /// Signs under what a span covers of a text of one line.
    pub fn under(&self, span: Span) -> String {
        let byte = |byte: u32| floor(self.source, byte as usize);
        let shown = Shown::of(self.source, byte(span.start()), byte(span.end()));
        let signs = self.in_colour("1;31", &"^".repeat(shown.signs));
        format!("{:before$}{signs}", "", before = shown.before)
    }
}

/// A line behind its number.
fn numbered(line: Line<'_>, shown: &Shown, margin: usize) -> String {
    let text = format!(" {:>margin$} | {}", line.number, shown.text);
    format!("{}\n", text.trim_end())
}

/// The start of the character that a byte lies in, within the text.
fn floor(source: &str, byte: usize) -> usize {
    let byte = byte.min(source.len());
    (0..=byte)
        .rev()
        .find(|byte| source.is_char_boundary(*byte))
        .unwrap_or(0)
}

//! The source with what each version pairs drawn under it as brackets.

use crate::pages::compared::{Compared, Reading};
use crate::pages::html::{badge, escaped, hue};
use std::fmt::Write as _;
use std::ops::Range;

/// How many signs a line of the figure has at the most, unless a token is longer.
const WIDEST: usize = 90;

/// How many signs the number of a part takes the place of.
const BADGE: usize = 3;

/// How many brackets are drawn below each other.
const DEEPEST: usize = 12;

/// A bracket under some tokens.
struct Bar {
    tokens: Range<usize>,
    /// How many brackets stand above it, the lowest row being 0.
    row: usize,
    class: &'static str,
    style: String,
    label: String,
}

/// The figure.
pub fn html(compared: &Compared) -> String {
    let bars = [0, 1].map(|place| bars(compared, &compared.readings[place]));
    let parts = compared.parts_of_tokens();
    let said = compared
        .readings
        .iter()
        .flat_map(|reading| compared.said(reading));
    let said: Vec<Range<usize>> = said.map(|said| said.tokens).collect();
    let mut html = String::from(
        "<div class=\"figure\" tabindex=\"0\" role=\"group\" aria-label=\"The source, and under it what each version pairs\">\n",
    );
    for line in lines(compared, &parts) {
        html += "<div class=\"cells\"><span class=\"version\"></span>";
        for token in line.clone() {
            let is_said = said.iter().any(|tokens| tokens.contains(&token));
            html += &cell(compared, token, parts[token], is_said);
            // At the end of a line a space stands for whatever breaks it.
            let gap = match compared.text.gap(token) {
                gap if token + 1 < line.end || gap.is_empty() => gap,
                _ => " ",
            };
            let _ = write!(html, "<span class=\"gap\">{}</span>", escaped(gap));
        }
        let mut row = 2;
        for (bars, reading) in bars.iter().zip(&compared.readings) {
            let within: Vec<&Bar> = bars
                .iter()
                .filter(|bar| meets(&bar.tokens, &line))
                .collect();
            let rows = within.iter().map(|bar| bar.row + 1).max().unwrap_or(0);
            if rows > 0 {
                let _ = write!(
                    html,
                    "\n<span class=\"version\" style=\"grid-row:{row}/span {rows}\">version {}</span>\
                     <span class=\"space\" style=\"grid-row:{}\"></span>",
                    reading.version,
                    row + rows
                );
            }
            within
                .iter()
                .for_each(|bar| html += &drawn(bar, &line, row));
            row += rows + 1;
        }
        html += "</div>\n";
    }
    html += "</div>\n";
    if bars.iter().flatten().any(|bar| bar.row + 1 == DEEPEST) {
        let _ = writeln!(
            html,
            "<p class=\"note\">{DEEPEST} brackets are drawn below each other; the trees have all.</p>"
        );
    }
    html
}

fn meets(one: &Range<usize>, other: &Range<usize>) -> bool {
    one.start < other.end && other.start < one.end
}

/// The lines of the figure: a line of the source, or a part of one that is not too wide.
fn lines(compared: &Compared, parts: &[Option<usize>]) -> Vec<Range<usize>> {
    let text = &compared.text;
    let (mut lines, mut start, mut width) = (Vec::new(), 0, 0);
    for (token, part) in parts.iter().enumerate() {
        let badge = part.map_or(0, |_| BADGE);
        let own = text.token(token).chars().count() + badge;
        let breaks = token > start && (width + own > WIDEST || text.gap(token - 1).contains('\n'));
        if breaks {
            lines.push(start..token);
            (start, width) = (token, 0);
        }
        width += own + text.gap(token).chars().count();
    }
    lines.push(start..text.len());
    lines
}

/// A token.
fn cell(compared: &Compared, token: usize, part: Option<usize>, is_said: bool) -> String {
    let text = escaped(compared.text.token(token));
    let (class, style, badge) = match part {
        Some(part) => (" differs", format!(" style=\"{}\"", hue(part)), badge(part)),
        None if is_said => (" said", String::new(), String::new()),
        None => ("", String::new(), String::new()),
    };
    let focus = if token == 0 { 0 } else { -1 };
    format!(
        "<span class=\"token{class}\" data-token=\"{token}\" role=\"button\" tabindex=\"{focus}\"{style}>{text}{badge}</span>"
    )
}

/// The brackets of a reading: one for each node that is paired otherwise, or for each message.
fn bars(compared: &Compared, reading: &Reading) -> Vec<Bar> {
    let said = compared
        .said(reading)
        .into_iter()
        .enumerate()
        .map(|(row, said)| Bar {
            tokens: said.tokens,
            row,
            class: "bar said",
            style: String::new(),
            label: format!("<b class=\"badge said\">{}</b>", row + 1),
        });
    let mut bars: Vec<Bar> = said.filter(|bar| !bar.tokens.is_empty()).collect();
    let Ok(tree) = &reading.read else {
        return bars;
    };
    // How many brackets stand above each node's own: a node comes after all above it, so its children are known before it.
    let mut above = vec![0; tree.len()];
    for node in tree.nodes().rev() {
        let mark = &reading.marks[node.number()];
        let row = above[node.number()];
        if let (true, Some(part)) = (mark.differs && row < DEEPEST, mark.part) {
            bars.push(Bar {
                tokens: mark.tokens.clone(),
                row,
                class: "bar",
                style: hue(part),
                label: format!("<i>{}</i>", escaped(node.op().text())),
            });
        }
        if let Some(parent) = node.parent() {
            let above = &mut above[parent.number()];
            *above = (*above).max(row + usize::from(mark.differs));
        }
    }
    bars
}

/// A bracket on a line of the figure, from this row on. Each token has two columns, the second for what stands after it.
fn drawn(bar: &Bar, line: &Range<usize>, row: usize) -> String {
    let (start, end) = (
        bar.tokens.start.max(line.start),
        bar.tokens.end.min(line.end),
    );
    let (left, right) = (2 + 2 * (start - line.start), 1 + 2 * (end - line.start));
    let row = row + bar.row;
    let mut class = bar.class.to_string();
    class += if start > bar.tokens.start {
        " from-before"
    } else {
        ""
    };
    class += if end < bar.tokens.end { " goes-on" } else { "" };
    let (style, label) = (&bar.style, &bar.label);
    format!(
        "\n<span class=\"{class}\" aria-hidden=\"true\" style=\"grid-area:{row}/{left}/{row}/{right};{style}\">{label}</span>"
    )
}

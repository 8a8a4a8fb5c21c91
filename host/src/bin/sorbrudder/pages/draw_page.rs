//! The page that shows two readings side by side.

use crate::bracketed;
use crate::drawing::{self, Row};
use crate::pages::compared::{Compared, Reading};
use crate::pages::figure;
use crate::pages::html::{badge, document, escaped, hue, with_code};
use crate::pages::pairing::Mark;
use sorbrudder::{Op, ReadError, Reader, Tokens, Tree};

/// The page on a list and its source at two versions.
pub fn html(list: &Tokens, source: &str, versions: [i16; 2]) -> String {
    let compared = Compared::of(list, source, versions);
    let [old, new] = versions;
    let title = format!("Versions {old} and {new}");
    let mut body = format!(
        "<h1>{title}</h1>\n<p class=\"verdict\">{}</p>\n",
        verdict(&compared)
    );
    body += &figure::html(&compared);
    body += &sentences(&compared);
    body += "<p class=\"piece\" role=\"status\"></p>\n<main>\n";
    let mut reader = Reader::new();
    for reading in &compared.readings {
        // The same tree with the spans of the source, for what stands at its nodes.
        let shown = reader.read_with_rules(list, reading.version);
        body += &section(&compared, reading, &shown, source);
    }
    body += "</main>\n";
    document(
        &title,
        include_str!("draw.css"),
        &body,
        include_str!("draw.js"),
    )
}

/// What there is to see, in a sentence.
fn verdict(compared: &Compared) -> String {
    let are_trees = compared.readings.iter().all(|reading| reading.read.is_ok());
    let bracket = "<b class=\"added\">(</b>";
    match (are_trees, compared.parts.len()) {
        (false, _) => "Not every version reads a tree.".to_string(),
        (true, 0) => "Both versions read the same tree.".to_string(),
        (true, 1) => format!(
            "The versions pair one part otherwise; its operators have the number 1. \
             A bracket that was added looks like {bracket}."
        ),
        (true, count) => format!(
            "The versions pair {count} parts otherwise; the operators of each have its number. \
             A bracket that was added looks like {bracket}."
        ),
    }
}

/// A sentence for each part, or for each message.
fn sentences(compared: &Compared) -> String {
    let part = |number: usize| {
        let name = compared.parts[number].family.name();
        let sentences = compared.sentences(number);
        let badge = badge(number);
        format!("<li class=\"part\">{badge} <strong>{name}</strong>. {sentences}</li>\n")
    };
    let parts: String = (0..compared.parts.len()).map(part).collect();
    match parts.is_empty() {
        true => String::new(),
        false => format!("<ul class=\"parts\">\n{parts}</ul>\n"),
    }
}

/// A version's line and tree, or why it reads none.
fn section(
    compared: &Compared,
    reading: &Reading,
    shown: &Result<Tree, ReadError>,
    source: &str,
) -> String {
    let version = reading.version;
    let body = match shown {
        Ok(tree) => {
            let line = compared.written(reading);
            let line = line.unwrap_or_else(|| escaped(&bracketed::line(tree.view(), Some(source))));
            format!(
                "<p class=\"line\">{line}</p>\n<ol class=\"tree\" role=\"tree\" aria-label=\"The tree of version {version}\">\n{}</ol>\n",
                items(compared, reading, tree, source)
            )
        }
        Err(_) => messages(compared, reading),
    };
    format!("<section id=\"version-{version}\">\n<h2>Version {version}</h2>\n{body}</section>\n")
}

/// Why a version reads no tree, numbered as in the figure.
fn messages(compared: &Compared, reading: &Reading) -> String {
    let said = compared.said(reading).into_iter().enumerate();
    let item = said.map(|(number, said)| {
        let badge = match said.tokens.is_empty() {
            true => String::new(),
            false => format!("<b class=\"badge said\">{}</b> ", number + 1),
        };
        format!(
            "<li class=\"none\">{badge}No tree: {}</li>\n",
            with_code(&said.text)
        )
    });
    format!(
        "<ul class=\"messages\">\n{}</ul>\n",
        item.collect::<String>()
    )
}

/// A line for each node.
fn items(compared: &Compared, reading: &Reading, tree: &Tree, source: &str) -> String {
    let rows = drawing::rows(tree.view(), source);
    let rows = rows.into_iter().zip(&reading.marks);
    rows.map(|(row, mark)| item(compared, tree, &row, mark))
        .collect()
}

fn item(compared: &Compared, tree: &Tree, row: &Row, mark: &Mark) -> String {
    let (sign, words) = row.label.split_once(' ').unwrap_or((&row.label, ""));
    let words = match tree.node(row.node) {
        Some(node) if !node.is_leaf() && !words.is_empty() => {
            format!(" <span class=\"words\">{}</span>", escaped(words))
        }
        _ if words.is_empty() => String::new(),
        _ => format!(" {}", escaped(words)),
    };
    let rule = row.rule.map_or(String::new(), |rule| {
        format!(
            "<span class=\"made\">{}</span>",
            drawing::named(rule.name())
        )
    });
    let (class, style, badge) = match mark.part.filter(|_| mark.differs) {
        Some(part) => (
            "node differs",
            format!(" style=\"{}\"", hue(part)),
            badge(part),
        ),
        None => ("node", String::new(), String::new()),
    };
    let focus = if row.node == 0 { 0 } else { -1 };
    format!(
        "<li class=\"{class}\" role=\"treeitem\" tabindex=\"{focus}\" data-node=\"{}\" aria-level=\"{}\" data-tokens=\"{} {}\"{}{style}>\
         <span class=\"branches\" aria-hidden=\"true\">{}</span><span class=\"label\">{}{words}{badge}</span>{rule}</li>\n",
        row.node,
        row.depth + 1,
        mark.tokens.start,
        mark.tokens.end,
        own(compared, tree, row.node, mark),
        row.branches,
        escaped(sign),
    )
}

/// The tokens that are the node's own: its operator, and the closer of a section. A statement has none, and the two nodes of `a - b`
/// have one.
fn own(compared: &Compared, tree: &Tree, number: usize, mark: &Mark) -> String {
    let (Some(node), Some(token)) = (tree.node(number), compared.list.get(mark.token)) else {
        return String::new();
    };
    let is_minus = (node.op(), token.op) == (Op::ADD, Op::NEGATE);
    if token.op != node.op() && !is_minus {
        return String::new();
    }
    let is_section = matches!(
        node.op(),
        Op::LEFT_PARENTHESIS | Op::LEFT_BRACKET | Op::LEFT_BRACE
    );
    match is_section {
        true => format!(" data-own=\"{} {}\"", mark.token, mark.tokens.end - 1),
        false => format!(" data-own=\"{}\"", mark.token),
    }
}

//! `sorbrudder versions`: one list as several versions read it, and the trees where they differ.

use crate::args::Args;
use crate::bracketed;
use crate::drawing::{self, Row};
use crate::escape;
use crate::failure::{Failure, Status};
use crate::json::Object;
use crate::one_list::OneList;
use crate::output;
use crate::rules;
use crate::width;
use sorbrudder::{Node, ReadError, Reader, Tree};

/// The versions that the rules change at, and the one before.
const USUAL: [i16; 3] = [4, 5, 6];

/// A version's reading.
struct Reading {
    version: i16,
    read: Result<Tree, ReadError>,
}

pub fn run(args: &Args) -> Result<Status, Failure> {
    let one = OneList::of(args)?;
    let versions = args.versions("--at")?.unwrap_or(USUAL.to_vec());
    let mut reader = Reader::new();
    let read = |version| Reading {
        version,
        read: reader.read_with_rules(&one.list, version),
    };
    let readings: Vec<Reading> = versions.into_iter().map(read).collect();
    let text = if args.has("--json") {
        readings
            .iter()
            .map(|reading| as_json(reading, &one.source))
            .collect()
    } else {
        as_text(&readings, &one, args.has("--why"))
    };
    output::print(&text)?;
    let is_alike = readings
        .iter()
        .all(|reading| reading.read.is_ok() && reading.read == readings[0].read);
    Ok(if is_alike {
        Status::Well
    } else {
        Status::Found
    })
}

fn line(reading: &Reading, source: &str) -> String {
    match &reading.read {
        Ok(tree) => bracketed::line(tree.view(), Some(source)),
        Err(why) => format!("no tree: {why}"),
    }
}

fn as_json(reading: &Reading, source: &str) -> String {
    let mut object = Object::new();
    object.number("version", reading.version);
    match &reading.read {
        Ok(tree) => {
            object
                .text("result", "tree")
                .text("tree", &tree.to_string());
            object.text("bracketed", &line(reading, source));
        }
        Err(why) => {
            _ = object
                .text("result", "no-tree")
                .text("text", &why.to_string())
        }
    }
    object.done() + "\n"
}

fn as_text(readings: &[Reading], one: &OneList, says_why: bool) -> String {
    let source = &one.source;
    let mut text = format!("{}\n\n", one.shown());
    for reading in readings {
        let line = line(reading, source);
        text += &format!("version {:<4} {}\n", reading.version, escape::line(&line));
    }
    let trees = distinct(readings);
    if trees.len() > 1 {
        text += "\n";
        text += &side_by_side(&trees, source);
        let pairs = trees.windows(2).flat_map(|pair| pair[0].rules_to(&pair[1]));
        let mut rules: Vec<&str> = Vec::new();
        for rule in pairs {
            if !rules.contains(&rule) {
                rules.push(rule);
            }
        }
        text.extend(rules.iter().map(|rule| format!("\n{rule}\n")));
    }
    if says_why && let Some(why) = why_alike(readings, one) {
        text += &format!("\n{}\n", why.text());
    }
    text
}

/// Why all versions, where there are several, read the list as one tree, if they do.
fn why_alike(readings: &[Reading], one: &OneList) -> Option<rules::WhyAlike> {
    let versions = || readings.iter().map(|reading| reading.version);
    let (least, most) = (versions().min()?, versions().max()?);
    let are_trees = readings.iter().all(|reading| reading.read.is_ok());
    let is_one = are_trees && distinct(readings).len() == 1 && least < most;
    let ops = one.list.iter().map(|token| token.op.number());
    is_one.then(|| rules::WhyAlike::of(least, most, ops))
}

/// Readings of one tree: the versions, and what each reads. The trees differ at the most in which rule made a node.
struct Alike<'t>(Vec<(i16, &'t Tree)>);

impl<'t> Alike<'t> {
    fn tree(&self) -> &'t Tree {
        self.0[0].1
    }

    /// The rules by which the versions here and there differ.
    fn rules_to(&self, other: &Self) -> Vec<&'static str> {
        let last = |alike: &Self| alike.0.iter().map(|(version, _)| *version).max();
        let (one, two) = (last(self).unwrap_or(0), last(other).unwrap_or(0));
        rules::all_between((one, self.tree()), (two, other.tree()))
    }

    /// The versions.
    fn head(&self) -> String {
        format!(
            "  version {}",
            listed(self.0.iter().map(|(version, _)| *version))
        )
    }

    /// The rule that made a node; where the versions name it otherwise, each name with its versions.
    fn rule(&self, node: usize) -> String {
        let mut names: Vec<(&str, Vec<i16>)> = Vec::new();
        for (version, tree) in &self.0 {
            let Some(rule) = tree.node(node).and_then(Node::rule) else {
                continue;
            };
            match names.iter_mut().find(|(name, _)| *name == rule.name()) {
                Some((_, versions)) => versions.push(*version),
                None => names.push((rule.name(), vec![*version])),
            }
        }
        match &names[..] {
            [] => String::new(),
            [(name, _)] => drawing::named(name),
            _ => {
                let names = names.iter().map(|(name, versions)| {
                    format!("{name} at {}", listed(versions.iter().copied()))
                });
                drawing::named(&names.collect::<Vec<_>>().join("; "))
            }
        }
    }
}

/// Versions with commas between them.
fn listed(versions: impl Iterator<Item = i16>) -> String {
    let versions: Vec<String> = versions.map(|version| version.to_string()).collect();
    versions.join(", ")
}

/// Each tree once, with the versions that read it.
fn distinct(readings: &[Reading]) -> Vec<Alike<'_>> {
    let mut trees: Vec<Alike<'_>> = Vec::new();
    for reading in readings {
        let Ok(tree) = &reading.read else {
            continue;
        };
        match trees.iter_mut().find(|known| known.tree() == tree) {
            Some(known) => known.0.push((reading.version, tree)),
            None => trees.push(Alike(vec![(reading.version, tree)])),
        }
    }
    trees
}

/// The trees beside each other, with a sign at each node of a part that differs.
fn side_by_side(trees: &[Alike<'_>], source: &str) -> String {
    let columns: Vec<Vec<(bool, String)>> = (0..trees.len())
        .map(|place| column(trees, place, source))
        .collect();
    let widths = columns.iter().map(|column| {
        let lines = column.iter().map(|(_, line)| width::of_text(line));
        lines.max().unwrap_or(0) + 4
    });
    let widths: Vec<usize> = widths.collect();
    let rows = columns.iter().map(Vec::len).max().unwrap_or(0);
    let is_coloured = output::is_coloured();
    let mut text = String::new();
    for row in 0..rows {
        let mut line = String::new();
        for (column, width) in columns.iter().zip(&widths) {
            let (is_marked, cell) = column
                .get(row)
                .map_or((false, ""), |(marked, cell)| (*marked, cell));
            let blank = width.saturating_sub(width::of_text(cell));
            let cell = format!("{cell}{:blank$}", "");
            match is_marked && is_coloured {
                true => line += &format!("\x1b[1;31m{cell}\x1b[0m"),
                false => line += &cell,
            }
        }
        text += line.trim_end();
        text += "\n";
    }
    text
}

/// A column: the versions, then the tree's lines, each marked or not.
fn column(trees: &[Alike<'_>], place: usize, source: &str) -> Vec<(bool, String)> {
    let alike = &trees[place];
    let (tree, other) = (alike.tree(), trees[usize::from(place == 0)].tree());
    let marked = drawing::marked(tree.len(), tree.differences(other), |difference| {
        difference.old
    });
    let lines = drawing::rows(tree.view(), source);
    let row = |row: Row| {
        let sign = if marked[row.node] { "* " } else { "  " };
        let rule = alike.rule(row.node);
        (
            marked[row.node],
            format!("{sign}{}{}{rule}", row.branches, escape::line(&row.label)),
        )
    };
    std::iter::once((false, alike.head()))
        .chain(lines.into_iter().map(row))
        .collect()
}

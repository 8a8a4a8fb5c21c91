//! `sorbrudder diff`: which lists another version reads otherwise, where, and by which rule. It writes nothing.

use crate::args::Args;
use crate::bracketed;
use crate::check::{is_refused, note_read, note_words};
use crate::failure::{Failure, Status};
use crate::helpers::{Helpers, Task};
use crate::input::{Batch, Input, Listed};
use crate::line::{About, Line, Place, Which};
use crate::output;
use crate::paths;
use crate::rules::{self, WhyAlike};
use crate::salvage;
use crate::several::{self, How, Sink as _, Stdout, Teller};
use crate::summary;
use sorbrudder::{ReadError, Reader, Rule, Token, Tokens, Tree};
use std::path::Path;

/// What was found, by the words of the results.
#[derive(Clone, Copy, Debug, Default)]
struct Found {
    lists: u64,
    same: u64,
    differ: u64,
    only_old: u64,
    only_new: u64,
    no_trees: u64,
    refused: u64,
}

impl Found {
    fn add(&mut self, result: &str) {
        self.lists += 1;
        *match result {
            "same" => &mut self.same,
            "differs" => &mut self.differ,
            "only-old" => &mut self.only_old,
            "only-new" => &mut self.only_new,
            "no-tree" => &mut self.no_trees,
            _ => &mut self.refused,
        } += 1;
    }

    fn join(&mut self, other: Self) {
        self.lists += other.lists;
        self.same += other.same;
        self.differ += other.differ;
        self.only_old += other.only_old;
        self.only_new += other.only_new;
        self.no_trees += other.no_trees;
        self.refused += other.refused;
    }

    fn told(&self) -> String {
        format!(
            "{} read alike, {} otherwise, {} trees no longer, {} trees only then, {} no trees at all, {} refused",
            self.same, self.differ, self.only_old, self.only_new, self.no_trees, self.refused,
        )
    }
}

/// Compares how lists are read at their own versions and at another.
struct Diff {
    to: i16,
    is_json: bool,
}

impl Task for Diff {
    type State = (Reader, Reader);
    type Done = (Found, String);

    fn state(&self) -> (Reader, Reader) {
        (Reader::new(), Reader::new())
    }

    fn work(
        &self,
        (old, new): &mut (Reader, Reader),
        file: &Path,
        batch: &Batch,
    ) -> (Found, String) {
        let (mut found, mut text) = (Found::default(), String::new());
        for list in batch.lists() {
            let line = compare(old, new, list, self.to);
            found.add(line.result);
            let about = About::list(file, list);
            if self.is_json {
                text += &line.as_json(about);
            } else if line.result != "same" {
                text += &line.as_text(about);
            }
        }
        (found, text)
    }
}

pub fn run(args: &Args) -> Result<Status, Failure> {
    if args.rest.is_empty() {
        return Err(args.wrong("name the files or folders to compare"));
    }
    let (to, is_json) = (args.needed_version("--to")?, args.has("--json"));
    let task = &Diff { to, is_json };
    let jobs = args.jobs()?;
    let found = paths::find(args)?;
    let (mut sum, mut read) = (Found::default(), 0);
    // Where nobody reads the lines to their end, the lists are read all the same: the status speaks of all of them.
    let mut stdout = Stdout {
        goes_on: true,
        is_closed: false,
    };
    let how = How {
        task,
        jobs,
        is_json,
    };
    let status = several::each(&how, &found.files, &mut stdout, diff_file, |found| {
        read += 1;
        sum.join(found);
    })?;
    output::tell(&format!(
        "{} lists at version {to}: {}",
        sum.lists,
        sum.told()
    ));
    found.tell();
    let is_found = sum.same < sum.lists;
    let status = status.max(if is_found {
        Status::Found
    } else {
        Status::Well
    });
    if is_json {
        let counts = [
            ("lists", sum.lists),
            ("same", sum.same),
            ("differ", sum.differ),
            ("only_old", sum.only_old),
            ("only_new", sum.only_new),
            ("no_trees", sum.no_trees),
            ("refused", sum.refused),
        ];
        let failed = found.files.len() as u64 - read;
        let files = [found.files.len() as u64, failed, found.skipped];
        stdout.text(&summary::record("diff", Some(to), files, &counts, status))?;
    }
    Ok(status)
}

fn diff_file(
    file: &Path,
    teller: &mut Teller<Found>,
    helpers: &Helpers<'_, Diff>,
) -> Result<Found, Failure> {
    let input = Input::open(file);
    if let Ok(input) = &input {
        note_words(input, teller);
    }
    let mut sum = Found::default();
    let read = salvage::each_whole(file, input, helpers, |(found, text)| {
        sum.join(found);
        teller.text(&text);
        teller.open()
    });
    note_read(file, &read, sum.lists, &sum.told(), teller);
    read.map(|()| sum)
}

/// The line about a list as its own version and another read it.
pub fn compare(old: &mut Reader, new: &mut Reader, list: Listed<'_>, to: i16) -> Line {
    let from = list.version;
    let read = (
        old.read_words(list.words, from),
        new.read_words(list.words, to),
    );
    match read {
        (Ok(old), Ok(new)) if old == new => {
            let tokens = list.words.chunks_exact(Token::WORDS);
            let ops = tokens.filter_map(|words| Token::from_words(words.try_into().ok()?));
            let why = WhyAlike::of(from, to, ops.map(|token| token.op.number()));
            Line {
                reason: Some(why.word()),
                ..Line::new("same", Some(to))
            }
        }
        (Err(why), Err(_)) if is_refused(&why) || from == to => Line::of_read_error(&why, Some(to)),
        (Err(why), Err(_)) => Line {
            text: format!("no tree at {from} and at {to}: {why}"),
            ..Line::of_read_error(&why, Some(to))
        },
        _ => otherwise(old, list, to),
    }
}

/// A list that is read otherwise is read again, so that the library says by which rules.
fn otherwise(reader: &mut Reader, list: Listed<'_>, to: i16) -> Line {
    let from = list.version;
    let tokens = Tokens::from_words(list.words).unwrap_or_default();
    let read = [from, to].map(|version| reader.read_with_rules(&tokens, version));
    match read {
        [Ok(old), Ok(new)] => differing((&old, from), (&new, to)),
        [Ok(tree), Err(why)] => one_sided("only-old", (&tree, from), (&why, to), to),
        [Err(why), Ok(tree)] => one_sided("only-new", (&tree, to), (&why, from), to),
        [Err(why), Err(_)] => Line::of_read_error(&why, Some(to)),
    }
}

/// Two trees: the highest node that differs, and the rule.
fn differing((old, from): (&Tree, i16), (new, to): (&Tree, i16)) -> Line {
    let mut line = Line::new("differs", Some(to));
    let lines = [old, new].map(|tree| bracketed::line(tree.view(), None));
    line.text = format!("{from} reads {}, {to} reads {}", lines[0], lines[1]);
    if let Some(first) = old.differences(new).next() {
        let (one, other) = (first.old, first.new);
        let made: Vec<Rule> = [one, other].iter().filter_map(|node| node.rule()).collect();
        let rule = rules::between(from, to, &made);
        line.text += &format!(
            "; from node {}, `{}` at {}, on",
            one.number(),
            one.op(),
            one.span()
        );
        line.text += &rule.map_or(String::new(), |rule| format!(": {rule}"));
        line.place = Some(Place {
            which: Which::Node(one.number()),
            op: one.op(),
            span: one.span(),
        });
        line.rule = rule;
    }
    line.readings = lines.map(Some);
    line
}

/// A tree at one version only.
fn one_sided(
    result: &'static str,
    (tree, at): (&Tree, i16),
    (why, none_at): (&ReadError, i16),
    to: i16,
) -> Line {
    let made: Vec<Rule> = tree.nodes().filter_map(|node| node.rule()).collect();
    let rule = rules::between(at, none_at, &made);
    let read = bracketed::line(tree.view(), None);
    let because = rule.map_or(String::new(), |rule| format!(": {rule}"));
    let text = format!("{at} reads {read}, {none_at} no tree ({why}){because}");
    Line {
        result,
        text,
        rule,
        readings: match result {
            "only-old" => [Some(read), None],
            _ => [None, Some(read)],
        },
        ..Line::of_read_error(why, Some(to))
    }
}

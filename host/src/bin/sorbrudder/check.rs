//! `sorbrudder check`: reads archives and says what is in them.

use crate::args::Args;
use crate::escape;
use crate::failure::{Failure, Status};
use crate::helpers::{Helpers, Task};
use crate::input::{Batch, Input};
use crate::line::{About, Line};
use crate::output;
use crate::paths;
use crate::salvage;
use crate::several::{self, How, Sink as _, Stdout, Teller};
use crate::summary;
use sorbrudder::{Limit, ReadError, Reader};
use std::path::Path;

/// What was found in a file, or in all.
#[derive(Clone, Copy, Debug, Default)]
pub struct Found {
    pub files: u64,
    pub lists: u64,
    trees: u64,
    no_trees: u64,
    too_deep: u64,
    refused: u64,
}

impl Found {
    fn join(&mut self, other: Self) {
        self.lists += other.lists;
        self.trees += other.trees;
        self.no_trees += other.no_trees;
        self.too_deep += other.too_deep;
        self.refused += other.refused;
    }

    fn told(&self) -> String {
        format!(
            "{} trees, {} no trees, {} too deep, {} refused",
            self.trees, self.no_trees, self.too_deep, self.refused
        )
    }
}

/// Says once a file that damage at a token's end would not be seen in it.
pub fn note_words<T>(input: &Input, teller: &mut Teller<T>) {
    if input.is_words() {
        let file = escape::path(&input.path);
        teller.note(format!(
            "{file}: a plain file of words; that it was cut at a token's end could not be seen"
        ));
    }
}

/// What was read of a damaged file, on a line of its own.
pub fn note_read<T>(
    file: &Path,
    read: &Result<(), Failure>,
    lists: u64,
    told: &str,
    teller: &mut Teller<T>,
) {
    if lists > 0 && matches!(read, Err(Failure::Damaged(_))) {
        teller.note(format!("{}: read of it: {told}", escape::path(file)));
    }
}

/// Reads lists at their own versions.
struct Check {
    limit: Limit,
    is_json: bool,
}

impl Task for Check {
    type State = Reader;
    type Done = (Found, String);

    fn state(&self) -> Reader {
        Reader::new().with_limit(self.limit)
    }

    fn work(&self, reader: &mut Reader, file: &Path, batch: &Batch) -> (Found, String) {
        let (mut found, mut text) = (Found::default(), String::new());
        for list in batch.lists() {
            found.lists += 1;
            let line = match reader.read_words(list.words, list.version) {
                Ok(_) => Line::new("tree", None),
                Err(why) => Line::of_limited(&why, list.words, self.limit),
            };
            match line.result {
                "tree" => found.trees += 1,
                "no-tree" => found.no_trees += 1,
                "too-deep" => found.too_deep += 1,
                _ => found.refused += 1,
            }
            let about = About::list(file, list);
            if self.is_json {
                text += &line.as_json(about);
            } else if line.result != "tree" {
                text += &line.as_text(about);
            }
        }
        (found, text)
    }
}

pub fn run(args: &Args) -> Result<Status, Failure> {
    if args.rest.is_empty() {
        return Err(args.wrong("name the files or folders to check"));
    }
    let (limit, is_json) = (args.limit("--limit")?, args.has("--json"));
    let task = &Check { limit, is_json };
    let jobs = args.jobs()?;
    let found = paths::find(args)?;
    let mut sum = Found::default();
    // Where nobody reads the lines to their end, the lists are read all the same: the status speaks of all of them.
    let mut stdout = Stdout {
        goes_on: true,
        is_closed: false,
    };
    let how = How {
        task,
        jobs,
        is_json,
    };
    let status = several::each(
        &how,
        &found.files,
        &mut stdout,
        check_file,
        |found: Found| {
            sum.files += 1;
            sum.join(found);
        },
    )?;
    let damaged = found.files.len() as u64 - sum.files;
    output::tell(&format!(
        "{} files, {} lists: {}; {damaged} files not read to their end",
        found.files.len(),
        sum.lists,
        sum.told(),
    ));
    found.tell();
    let is_found = sum.trees < sum.lists;
    let status = status.max(if is_found {
        Status::Found
    } else {
        Status::Well
    });
    if is_json {
        let counts = [
            ("lists", sum.lists),
            ("trees", sum.trees),
            ("no_trees", sum.no_trees),
            ("too_deep", sum.too_deep),
            ("refused", sum.refused),
        ];
        let files = [found.files.len() as u64, damaged, found.skipped];
        stdout.text(&summary::record("check", None, files, &counts, status))?;
    }
    Ok(status)
}

fn check_file(
    file: &Path,
    teller: &mut Teller<Found>,
    helpers: &Helpers<'_, Check>,
) -> Result<Found, Failure> {
    let input = Input::open(file);
    if let Ok(input) = &input {
        note_words(input, teller);
    }
    let mut sum = Found::default();
    let read = salvage::each_whole(file, input, helpers, |(found, text)| {
        sum.join(found);
        teller.text(&text);
        teller.open()
    });
    note_read(file, &read, sum.lists, &sum.told(), teller);
    read.map(|()| sum)
}

/// Whether a list was turned back and not read.
pub fn is_refused(why: &ReadError) -> bool {
    matches!(why, ReadError::Refused(_))
}

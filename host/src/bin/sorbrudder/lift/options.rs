//! What `sorbrudder lift` is told.

use crate::args::Args;
use crate::failure::Failure;
use crate::output::is_coloured;
use crate::paths::{is_stream, place_of};
use sorbrudder::Limit;
use sorbrudder::archive::Format;
use std::path::{Path, PathBuf};

/// Where lifted lists go.
#[derive(Clone, Debug, PartialEq, Eq)]
pub enum Target {
    Nothing,
    Stdout,
    InPlace,
    File(PathBuf),
    /// The files of the first folder go under the second, by the same names.
    Folder(PathBuf, PathBuf),
}

#[derive(Clone, Debug)]
pub struct Options {
    pub to: i16,
    /// The nesting limit of the engine that is lifted to, and of those that the lists were written for.
    pub limit: Limit,
    pub own_limit: Limit,
    pub target: Target,
    /// How files are written; as each is where nothing is said.
    pub format: Option<Format>,
    pub backs_up: bool,
    pub is_strict: bool,
    pub settles: bool,
    pub is_json: bool,
    /// Whether each list that is written anew is shown as it was and as it is, and whether in colour.
    pub shows: bool,
    pub is_coloured: bool,
    /// The report's file.
    pub report: Option<PathBuf>,
}

impl Options {
    pub fn of(args: &Args) -> Result<Self, Failure> {
        let target = target(args)?;
        if args.has("--backup") && !args.has("--in-place") {
            return Err(args.wrong("`--backup` goes with `--in-place`"));
        }
        if args.has("--strict") && target == Target::Stdout {
            return Err(args.wrong("`--strict` does not go with `-o -`, where a list is written before the next is read"));
        }
        let (to_stdout, report) = match args.path("--report") {
            Some(report) if is_stream(&report) => (true, None),
            report => (false, report),
        };
        Ok(Self {
            to: args.needed_version("--to")?,
            limit: args.limit("--limit")?,
            own_limit: args.limit("--own-limit")?,
            target,
            format: format(args)?,
            backs_up: args.has("--backup"),
            is_strict: args.has("--strict"),
            settles: args.has("--settle"),
            is_json: args.has("--json") || to_stdout,
            shows: args.has("--diff"),
            is_coloured: is_coloured(),
            report,
        })
    }

    /// Where the lists of a file go.
    pub fn target_of(&self, file: &Path) -> Option<PathBuf> {
        match &self.target {
            Target::Nothing | Target::Stdout => None,
            Target::InPlace => Some(file.to_path_buf()),
            Target::File(target) => Some(target.clone()),
            Target::Folder(from, to) => Some(to.join(file.strip_prefix(from).unwrap_or(file))),
        }
    }
}

fn format(args: &Args) -> Result<Option<Format>, Failure> {
    match (args.has("--plain"), args.has("--container")) {
        (true, true) => Err(args.wrong("`--plain` and `--container` exclude each other")),
        (true, false) => Ok(Some(Format::Words)),
        (false, true) => Ok(Some(Format::Container)),
        (false, false) => Ok(None),
    }
}

/// Where the lists go. What would be complained of is complained of in a dry run too.
fn target(args: &Args) -> Result<Target, Failure> {
    let target = named_target(args)?;
    match args.has("--dry-run") {
        true => Ok(Target::Nothing),
        false => Ok(target),
    }
}

fn named_target(args: &Args) -> Result<Target, Failure> {
    if args.rest.is_empty() {
        return Err(args.wrong("name what to lift"));
    }
    match (args.path("-o"), args.has("--in-place")) {
        (Some(_), true) => Err(args.wrong("`-o` and `--in-place` exclude each other")),
        (None, false) if args.has("--dry-run") => Ok(Target::Nothing),
        (None, false) => Err(args.wrong("say where to: `-o OUT` or `--in-place`")),
        (None, true) if args.rest.iter().any(|word| word == "-") => {
            Err(args.wrong("standard input is not lifted in place"))
        }
        (None, true) => Ok(Target::InPlace),
        (Some(out), false) => match &args.rest[..] {
            [from] => beside(args, Path::new(from), out),
            _ => Err(args.wrong("with `-o`, lift one file or one folder")),
        },
    }
}

/// The target of one file or folder that is not lifted in place.
fn beside(args: &Args, from: &Path, out: PathBuf) -> Result<Target, Failure> {
    let is_folder = !is_stream(from) && from.is_dir();
    if is_stream(&out) {
        return match is_folder {
            true => Err(args.wrong("a folder cannot go to standard output")),
            false => Ok(Target::Stdout),
        };
    }
    let places = (place_of(from), place_of(&out));
    if !is_stream(from) && places.0 == places.1 {
        return Err(args.wrong("input and output are the same; `--in-place` replaces the input"));
    }
    if is_folder && places.1.starts_with(&places.0) {
        return Err(args.wrong("the output lies in the folder that is lifted"));
    }
    match is_folder {
        true => Ok(Target::Folder(from.to_path_buf(), out)),
        false => Ok(Target::File(out)),
    }
}

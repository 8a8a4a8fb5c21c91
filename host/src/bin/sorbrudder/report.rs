//! `sorbrudder report`: one page on all lists of an archive that another version reads otherwise.

use crate::args::Args;
use crate::check::is_refused;
use crate::failure::{Failure, Status};
use crate::input::Input;
use crate::output;
use crate::pages::compared::Compared;
use crate::pages::report::{Group, Report};
use crate::paths::{self, is_stream, place_of};
use crate::replace::Replacement;
use sorbrudder::archive::List;
use sorbrudder::{Reader, Tokens};
use std::io::Write as _;
use std::path::{Path, PathBuf};

/// How many lists of a group the page has where nothing is said.
const MOST: usize = 10_000;

pub fn run(args: &Args) -> Result<Status, Failure> {
    if args.rest.is_empty() {
        return Err(args.wrong("name the files or folders to report on"));
    }
    let to = args.needed_version("--to")?;
    let Some(target) = args.path("-o") else {
        return Err(args.wrong("`-o PAGE.html` is missing"));
    };
    let most = most(args)?;
    check_place(args, &target)?;
    let found = paths::find(args)?;
    let mut report = Report::new(to, most);
    let mut status = Status::Well;
    for file in &found.files {
        if let Err(failure) = add_file(&mut report, file, to) {
            let why = failure.text().unwrap_or_default();
            output::complain(&format!("sorbrudder: {why}"));
            report.add_failure(why);
            status = status.max(failure.status());
        }
    }
    write(&report, &target)?;
    output::tell(&report.summary());
    found.tell();
    let found = if report.are_all_alike() {
        Status::Well
    } else {
        Status::Found
    };
    Ok(status.max(found))
}

fn most(args: &Args) -> Result<usize, Failure> {
    let Some(value) = args.value("--most") else {
        return Ok(MOST);
    };
    let value = value.to_string_lossy();
    let wrong = |_| args.wrong(&format!("`--most` takes a number of lists, not `{value}`"));
    value.trim().parse().map_err(wrong)
}

/// Complains where the page would take the place of what it is about, or be taken for an archive the next time.
fn check_place(args: &Args, target: &Path) -> Result<(), Failure> {
    if is_stream(target) {
        return Ok(());
    }
    let place = place_of(target);
    for path in args.rest.iter().map(PathBuf::from) {
        if is_stream(&path) {
            continue;
        }
        if place == place_of(&path) {
            return Err(args.wrong("the page would take the place of what it is about"));
        }
        if path.is_dir() && place.starts_with(place_of(&path)) {
            return Err(args.wrong("the page would lie in a folder that it is about"));
        }
    }
    Ok(())
}

/// Adds the lists of a file; those before a fault are on the page.
fn add_file(report: &mut Report, file: &Path, to: i16) -> Result<(), Failure> {
    let name = file.to_string_lossy();
    let mut input = Input::open(file)?;
    report.files += 1;
    let (mut old, mut new) = (Reader::new(), Reader::new());
    while let Some(list) = input.next_list()? {
        add_list(report, &name, &list, [&mut old, &mut new], to);
    }
    Ok(())
}

fn add_list(
    report: &mut Report,
    file: &str,
    list: &List<'_>,
    [old, new]: [&mut Reader; 2],
    to: i16,
) {
    report.lists += 1;
    let read = (
        old.read_words(list.words, list.version),
        new.read_words(list.words, to),
    );
    let group = match read {
        (Ok(old), Ok(new)) if old == new => return report.alike += 1,
        (Ok(_), Ok(_)) => None,
        (Ok(_), Err(_)) => Some(Group::OnlyOld),
        (Err(_), Ok(_)) => Some(Group::OnlyNew),
        (Err(why), Err(_)) if is_refused(&why) => return report.refused += 1,
        (Err(_), Err(_)) => return report.no_trees += 1,
    };
    let tokens = Tokens::from_words(list.words).unwrap_or_default();
    // An archive has no text: the list is shown as it is printed.
    let compared = Compared::of(&tokens, "", [list.version, to]);
    let group = group.unwrap_or_else(|| Group::of(&compared.parts));
    report.add(group, file, list.number, &compared);
}

fn write(report: &Report, target: &Path) -> Result<(), Failure> {
    if is_stream(target) {
        return report.write(|text| output::print(text).map(|_| ()));
    }
    let mut replacement = Replacement::of(target)?;
    report.write(|text| {
        let written = replacement.write_all(text.as_bytes());
        written.map_err(|why| Failure::io(target, &why))
    })?;
    replacement.put_in_place()
}

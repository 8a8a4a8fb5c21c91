//! Where a lift writes: no file takes the place of one that is read or written too, unless that is what was asked for.

use super::options::{Options, Target};
use crate::args::Args;
use crate::escape;
use crate::failure::Failure;
use crate::paths::{is_stream, place_of};
use crate::replace::backup_of;
use std::collections::HashMap;
use std::path::{Path, PathBuf};

/// Files by the places that they lead to, each with what it is to the lift.
struct Taken<'a> {
    args: &'a Args,
    places: HashMap<PathBuf, (PathBuf, &'static str)>,
}

impl Taken<'_> {
    /// Takes the place of a file, which nothing else may have.
    fn take(&mut self, file: &Path, what: &'static str) -> Result<(), Failure> {
        let before = self.places.insert(place_of(file), (file.into(), what));
        let Some((other, was)) = before else {
            return Ok(());
        };
        let (file, other) = (escape::path(file), escape::path(&other));
        Err(self.args.wrong(&format!(
            "{file}, {what}, would take the place of {other}, {was}"
        )))
    }
}

/// Complains where something that is written would be lost, or something that is read, before anything is.
pub fn check(args: &Args, files: &[PathBuf], options: &Options) -> Result<(), Failure> {
    let places = HashMap::new();
    let mut taken = Taken { args, places };
    for file in files.iter().filter(|file| !is_stream(file)) {
        let is_known = taken.places.contains_key(&place_of(file));
        // What is only read may be read twice.
        if is_known && options.target == Target::InPlace {
            let file = escape::path(file);
            return Err(args.wrong(&format!("{file} would be lifted twice at once")));
        }
        if !is_known {
            taken.take(file, "which is lifted")?;
        }
    }
    for file in files {
        match options.target_of(file) {
            Some(target) if options.target != Target::InPlace => {
                taken.take(&target, "which is written")?;
            }
            Some(_) if options.backs_up => taken.take(&backup_of(file), "a backup")?,
            _ => {}
        }
    }
    match &options.report {
        Some(report) => taken.take(report, "the report"),
        None => Ok(()),
    }
}

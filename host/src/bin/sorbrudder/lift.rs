//! `sorbrudder lift`: carries archives over to a version.

mod carry;
mod options;
mod places;

use crate::args::Args;
use crate::failure::{Failure, Status};
use crate::helpers::Helpers;
use crate::output;
use crate::paths;
use crate::replace::Replacement;
use crate::several::{self, How, Sink, Stderr, Stdout, Teller};
use crate::summary;
use carry::Carried;
use options::{Options, Target};
use std::io::Write as _;
use std::path::Path;

/// Where the lines about lists go, and the report's file.
struct Lines {
    lines: Box<dyn Sink>,
    report: Option<Replacement>,
}

impl Sink for Lines {
    fn text(&mut self, text: &str) -> Result<(), Failure> {
        self.lines.text(text)
    }

    fn report(&mut self, text: &str) -> Result<(), Failure> {
        let Some(report) = &mut self.report else {
            return Ok(());
        };
        let written = report.write_all(text.as_bytes());
        written.map_err(|why| report.failed(&why))
    }
}

pub fn run(args: &Args) -> Result<Status, Failure> {
    let options = Options::of(args)?;
    let found = paths::find(args)?;
    let files = &found.files;
    places::check(args, files, &options)?;
    let lines: Box<dyn Sink> = if options.target == Target::Stdout {
        Box::new(Stderr)
    } else {
        // Where nobody reads the lines to their end, the archives are lifted all the same.
        Box::new(Stdout {
            goes_on: true,
            is_closed: false,
        })
    };
    let report = options.report.as_deref().map(Replacement::of).transpose()?;
    let mut lines = Lines { lines, report };
    let (mut sum, mut done) = (Carried::default(), 0);
    let how = How {
        task: &options,
        jobs: args.jobs()?,
        is_json: options.is_json,
    };
    let lift = |file: &Path, teller: &mut Teller<Carried>, helpers: &Helpers<'_, Options>| {
        carry::carry(file, &options, teller, helpers)
    };
    let status = several::each(&how, files, &mut lines, lift, |carried| {
        sum.join(carried);
        done += 1;
    })?;
    let is_found = sum.stayed() > 0;
    let status = status.max(if is_found {
        Status::Found
    } else {
        Status::Well
    });
    let failed = (files.len() - done) as u64;
    let counted = [files.len() as u64, failed, found.skipped];
    let record = summary::record("lift", Some(options.to), counted, &sum.counts(), status);
    if options.is_json {
        lines.text(&record)?;
    }
    lines.report(&record)?;
    if let Some(report) = lines.report {
        report.put_in_place()?;
    }
    tell(&sum, &options, files.len() - done);
    found.tell();
    Ok(status)
}

/// The summary.
fn tell(sum: &Carried, options: &Options, failed: usize) {
    let (to, stayed) = (options.to, sum.stayed());
    output::tell(&format!(
        "{} lists to version {to}: {} written anew ({} of them scripts), {} left alone (both versions read them alike), \
         {stayed} stayed behind ({} no trees, {} refused, {} not writable, {} too deep)",
        sum.lists,
        sum.written,
        sum.scripts,
        sum.same,
        sum.no_trees,
        sum.refused,
        sum.not_writable,
        sum.too_deep,
    ));
    if sum.unsettled > 0 {
        output::tell(&format!(
            "{} of those left alone could not be settled: other versions may read them otherwise",
            sum.unsettled
        ));
    }
    if failed > 0 {
        output::tell(&format!(
            "{failed} files could not be lifted; their lists are not counted"
        ));
    }
    if sum.untouched > 0 {
        output::tell(&format!(
            "{} files were left as they are, since all their lists stay",
            sum.untouched
        ));
    }
    if options.target == Target::Nothing {
        output::tell("nothing was written (--dry-run)");
    } else if sum.held_back > 0 {
        output::tell(&format!(
            "{} files were not written, since lists stayed behind (--strict)",
            sum.held_back
        ));
    } else if stayed > 0 {
        output::tell(&format!(
            "the lists that stayed behind keep their own version: rewrite them before the pack declares version {to}"
        ));
    }
}

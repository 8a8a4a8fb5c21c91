//! `sorbrudder draw`: two readings of a list as a page for a browser.

use crate::args::Args;
use crate::failure::{Failure, Status};
use crate::one_list::{self, OneList};
use crate::output;
use crate::pages;
use crate::paths::{is_stream, place_of};
use crate::replace::Replacement;
use std::io::Write as _;
use std::path::PathBuf;

/// What is drawn where nothing is said.
const USUAL: [i16; 2] = [4, 6];

pub fn run(args: &Args) -> Result<Status, Failure> {
    let Some(target) = args.path("-o") else {
        return Err(args.wrong("`-o OUT.html` is missing"));
    };
    let versions = args.versions("--at")?.unwrap_or(USUAL.to_vec());
    let [old, new] = versions[..] else {
        return Err(args.wrong("`--at` takes two versions, as in `--at 4,6`"));
    };
    let is_drawn_from = |file: &PathBuf| place_of(file) == place_of(&target);
    if !is_stream(&target) && one_list::files(args).iter().any(is_drawn_from) {
        return Err(args.wrong("the page would take the place of what it is drawn from"));
    }
    let one = OneList::of(args)?;
    let page = pages::draw(&one.list, &one.source, [old, new]);
    if is_stream(&target) {
        return output::print(&page);
    }
    let mut replacement = Replacement::of(&target)?;
    let written = replacement.write_all(page.as_bytes());
    written.map_err(|why| Failure::io(&target, &why))?;
    replacement.put_in_place()?;
    Ok(Status::Well)
}

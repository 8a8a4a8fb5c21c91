//! The command `sorbrudder`: checks, compares, lifts, shows and draws archives of Molang token lists. `sorbrudder --help` says how.

#![deny(unsafe_code)]

mod args;
mod bracketed;
mod cat;
mod check;
mod commands;
mod completions;
mod diff;
mod draw;
mod drawing;
mod escape;
mod excerpt;
mod explain;
mod failure;
mod glob;
mod help;
mod helpers;
mod input;
mod json;
mod lift;
mod line;
mod lock;
mod man;
mod nearest;
mod one_list;
mod ops;
mod output;
mod pack;
mod pages;
mod parse;
mod paths;
mod progress;
mod read;
mod replace;
mod report;
mod rules;
mod salvage;
mod several;
mod sum;
mod summary;
#[allow(unsafe_code)]
mod system;
mod versions;
mod width;
mod written;

use args::Args;
use failure::{Failure, Status};
use std::ffi::OsString;
use std::process::ExitCode;

fn main() -> ExitCode {
    let words: Vec<OsString> = std::env::args_os().skip(1).collect();
    let status = run(&words).unwrap_or_else(|failure| {
        if let Some(text) = failure.text() {
            output::complain(&format!("sorbrudder: {text}"));
        }
        failure.status()
    });
    ExitCode::from(status as u8)
}

fn run(words: &[OsString]) -> Result<Status, Failure> {
    // What goes with every command may stand before its name too.
    let mut before = 0;
    while let Some(taken) = words.get(before).and_then(|word| args::everywhere(word)) {
        before = (before + taken).min(words.len());
    }
    let (before, rest) = words.split_at(before);
    let Some((first, rest)) = rest.split_first() else {
        return run_alone(before);
    };
    let name = first.to_string_lossy();
    if name == "help" {
        let mut names = rest.iter().filter(|word| !args::is_option(word));
        return help::print(names.next().map(|word| word.to_string_lossy()).as_deref());
    }
    if args::is_option(first) {
        return run_alone(std::slice::from_ref(first));
    }
    let Some(command) = commands::named(&name) else {
        return Err(help::unknown(&name));
    };
    let args = Args::parse(command.name, command.options, &[before, rest].concat());
    // A wrong word beside `--help` is no reason not to help.
    let words = before.iter().chain(rest).take_while(|word| *word != "--");
    if words.clone().any(|word| word == "--help" || word == "-h") {
        return help::print(Some(command.name));
    }
    let args = args?;
    args.heed();
    match args.has("--version") {
        true => version(),
        false => (command.run)(&args),
    }
}

/// What goes with every command, and no command.
fn run_alone(words: &[OsString]) -> Result<Status, Failure> {
    let args = Args::parse("help", &[], words)?;
    args.heed();
    if args.has("--version") {
        return version();
    }
    if args.has("--help") {
        return help::print(None);
    }
    output::complain(help::all().trim_end());
    Ok(Status::Usage)
}

fn version() -> Result<Status, Failure> {
    output::print(&format!("sorbrudder {}\n", env!("CARGO_PKG_VERSION")))
}

//! Standard output, which somebody may stop reading, and standard error, which is for a person.

use crate::escape;
use crate::failure::{Failure, Status};
use std::io::{self, IsTerminal as _, Write as _};
use std::sync::OnceLock;
use std::sync::atomic::{AtomicBool, Ordering};

/// When colours are wanted.
#[derive(Clone, Copy, Debug, PartialEq, Eq)]
pub enum Colour {
    /// On a terminal, unless NO_COLOR is set to something.
    Auto,
    Always,
    Never,
}

static COLOUR: OnceLock<Colour> = OnceLock::new();
static IS_QUIET: AtomicBool = AtomicBool::new(false);

/// Says when colours are wanted; the first time counts.
pub fn colour(when: Colour) {
    let _ = COLOUR.set(when);
}

/// Leaves out what is told beside the answer: summaries, remarks, progress.
pub fn be_quiet() {
    IS_QUIET.store(true, Ordering::Relaxed);
}

pub fn is_quiet() -> bool {
    IS_QUIET.load(Ordering::Relaxed)
}

fn failed(why: &io::Error) -> Failure {
    match why.kind() {
        io::ErrorKind::BrokenPipe => Failure::Closed,
        _ => Failure::Io(format!("standard output: {why}")),
    }
}

/// Writes all of a text, and says where nobody reads it any more.
pub fn write(text: &str) -> Result<(), Failure> {
    let mut out = io::stdout().lock();
    let written = out.write_all(text.as_bytes()).and_then(|()| out.flush());
    written.map_err(|why| failed(&why))
}

/// Prints all of a text. That nobody reads it to its end changes nothing: the status has still to say what was found.
pub fn print(text: &str) -> Result<Status, Failure> {
    match write(text) {
        Ok(()) | Err(Failure::Closed) => Ok(Status::Well),
        Err(failure) => Err(failure),
    }
}

/// Tells a line on standard error, unless it is to be quiet. It is for a person: that nobody can read it changes nothing.
pub fn tell(line: &str) {
    if !is_quiet() {
        complain(line);
    }
}

/// Tells why something failed, whether it is to be quiet or not.
pub fn complain(line: &str) {
    let line = format!("{}\n", escape::lines(line));
    let _ = io::stderr().write_all(line.as_bytes());
}

/// Whether colours are wanted.
pub fn is_coloured() -> bool {
    match COLOUR.get() {
        Some(Colour::Always) => true,
        Some(Colour::Never) => false,
        Some(Colour::Auto) | None => {
            let refused = std::env::var_os("NO_COLOR").is_some_and(|value| !value.is_empty());
            !refused && io::stdout().is_terminal()
        }
    }
}

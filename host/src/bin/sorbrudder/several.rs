//! Several files at a time, their output in the order of the files.

use crate::escape;
use crate::failure::{Failure, Status};
use crate::helpers::{Helpers, Task};
use crate::line::of_failure;
use crate::output::{complain, tell};
use crate::paths::is_stream;
use crate::progress::{PAUSE, Progress};
use std::collections::VecDeque;
use std::io::{self, Write};
use std::path::{Path, PathBuf};
use std::sync::mpsc::{Receiver, RecvTimeoutError, SyncSender, sync_channel};
use std::thread::{Scope, scope};

/// The most files that are worked on at once.
const AT_ONCE: usize = 8;

/// How many pieces of output of a file may wait for their turn, and how long a piece is.
const WAITING: usize = 16;
const PIECE: usize = 1 << 14;

/// What comes from the work on a file.
enum Told<T> {
    Text(String),
    Report(String),
    Note(String),
    Done(Result<T, Failure>),
}

/// Where the work on a file writes to. It waits where its turn has not come and enough is waiting already.
pub struct Teller<T> {
    to: SyncSender<Told<T>>,
    text: String,
    report: String,
    is_closed: bool,
}

impl<T> Teller<T> {
    /// Complains where nobody listens any more.
    pub fn open(&self) -> Result<(), Failure> {
        match self.is_closed {
            true => Err(Failure::Closed),
            false => Ok(()),
        }
    }

    /// Output.
    pub fn text(&mut self, text: &str) {
        self.text.push_str(text);
        if self.text.len() > PIECE {
            self.send();
        }
    }

    /// A line for the report's file.
    pub fn report(&mut self, text: &str) {
        self.report.push_str(text);
        if self.report.len() > PIECE {
            self.send();
        }
    }

    /// A remark for standard error.
    pub fn note(&mut self, text: String) {
        self.send();
        self.is_closed |= self.to.send(Told::Note(text)).is_err();
    }

    fn send(&mut self) {
        let (text, report) = (
            std::mem::take(&mut self.text),
            std::mem::take(&mut self.report),
        );
        self.is_closed |= self.to.send(Told::Text(text)).is_err();
        self.is_closed |= self.to.send(Told::Report(report)).is_err();
    }
}

/// What is done with the output.
pub trait Sink {
    fn text(&mut self, text: &str) -> Result<(), Failure>;

    fn report(&mut self, _: &str) -> Result<(), Failure> {
        Ok(())
    }
}

/// Standard output; where nobody reads it any more, the command goes on or not.
pub struct Stdout {
    pub goes_on: bool,
    pub is_closed: bool,
}

impl Sink for Stdout {
    fn text(&mut self, text: &str) -> Result<(), Failure> {
        if self.is_closed {
            return Ok(());
        }
        match crate::output::write(text) {
            Err(Failure::Closed) if self.goes_on => self.is_closed = true,
            other => other?,
        }
        Ok(())
    }
}

/// Standard error, where standard output has other things to carry.
pub struct Stderr;

impl Sink for Stderr {
    fn text(&mut self, text: &str) -> Result<(), Failure> {
        // What is said there is for a person; that nobody reads it changes nothing.
        let _ = io::stderr().write_all(text.as_bytes());
        Ok(())
    }
}

/// How the work is done: what with each list, by how many threads, and whether what is told is JSON.
pub struct How<'k, K> {
    pub task: &'k K,
    pub jobs: usize,
    pub is_json: bool,
}

/// Works on each file, and adds up what comes of it. A file that fails is told of, in JSON too where that is asked for, and the others are
/// worked on all the same. A failure of which there is nothing to say ends the work.
pub fn each<K: Task, T: Send>(
    how: &How<'_, K>,
    files: &[PathBuf],
    sink: &mut dyn Sink,
    work: impl Fn(&Path, &mut Teller<T>, &Helpers<'_, K>) -> Result<T, Failure> + Sync,
    mut add: impl FnMut(T),
) -> Result<Status, Failure> {
    let mut progress = Progress::over(bytes_of(files));
    let mut status = Status::Well;
    scope(|scope| {
        let helpers = Helpers::begin(scope, how.jobs, how.task)?;
        let mut waiting = files.iter();
        let mut begun = VecDeque::new();
        loop {
            while begun.len() < how.jobs.min(AT_ONCE)
                && let Some(file) = waiting.next()
            {
                begun.push_back(begin(scope, file, how.is_json, helpers.clone(), &work)?);
            }
            let Some(told) = begun.pop_front() else {
                return Ok(());
            };
            match finish(&told, sink, &mut progress)? {
                Ok(done) => add(done),
                Err(failure) => {
                    let Some(text) = failure.text() else {
                        return Err(failure);
                    };
                    complain(&format!("sorbrudder: {}", escape::line(text)));
                    status = status.max(failure.status());
                }
            }
        }
    })?;
    progress.clear();
    Ok(status)
}

/// All bytes that are to be read; 0 where a stream is among the files.
fn bytes_of(files: &[PathBuf]) -> u64 {
    if files.iter().any(|file| is_stream(file)) {
        return 0;
    }
    let len = |file: &PathBuf| std::fs::metadata(file).map_or(0, |file| file.len());
    files.iter().map(len).sum()
}

/// Begins the work on a file on a thread of its own.
fn begin<'s, K: Task, T: Send + 's>(
    scope: &'s Scope<'s, '_>,
    file: &'s Path,
    is_json: bool,
    helpers: Helpers<'s, K>,
    work: &'s (impl Fn(&Path, &mut Teller<T>, &Helpers<'_, K>) -> Result<T, Failure> + Sync),
) -> Result<Receiver<Told<T>>, Failure> {
    let (to, told) = sync_channel(WAITING);
    let run = move || {
        let mut teller = Teller {
            to,
            text: String::new(),
            report: String::new(),
            is_closed: false,
        };
        let done = work(file, &mut teller, &helpers);
        if let Err(failure) = &done {
            let line = of_failure(file, failure);
            teller.report(&line);
            teller.text(if is_json { &line } else { "" });
        }
        teller.send();
        let _ = teller.to.send(Told::Done(done));
    };
    let thread = std::thread::Builder::new().spawn_scoped(scope, run);
    thread.map_err(|why| Failure::Io(format!("no thread: {why}")))?;
    Ok(told)
}

/// Passes on what comes from the work on a file, until it is done.
fn finish<T>(
    told: &Receiver<Told<T>>,
    sink: &mut dyn Sink,
    progress: &mut Progress,
) -> Result<Result<T, Failure>, Failure> {
    loop {
        match told.recv_timeout(PAUSE) {
            Ok(Told::Text(text)) if text.is_empty() => {}
            Ok(Told::Report(text)) => sink.report(&text)?,
            Ok(Told::Text(text)) => {
                progress.clear();
                sink.text(&text)?;
            }
            Ok(Told::Note(text)) => {
                progress.clear();
                tell(&format!("sorbrudder: {}", escape::line(&text)));
            }
            Ok(Told::Done(done)) => {
                progress.clear();
                return Ok(done);
            }
            Err(RecvTimeoutError::Timeout) => {}
            Err(RecvTimeoutError::Disconnected) => {
                let why = "the work on a file ended before its end".to_string();
                return Ok(Err(Failure::Io(why)));
            }
        }
        progress.show();
    }
}

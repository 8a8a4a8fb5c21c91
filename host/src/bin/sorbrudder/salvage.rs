//! `sorbrudder salvage`: what is whole of a damaged archive.

use crate::args::Args;
use crate::escape;
use crate::failure::{Failure, Status};
use crate::helpers::{Helpers, Task};
use crate::input::{Batch, Input, Source};
use crate::json::Object;
use crate::output;
use crate::paths::{is_stream, place_of};
use crate::replace::Replacement;
use crate::written::{Digest, read_back};
use sorbrudder::archive::{Format, ListsWriter, Piece, Salvage};
use std::fs::File;
use std::io::{self, BufWriter, Read, Write};
use std::path::Path;

/// What was found of an archive.
#[derive(Default)]
struct Saved {
    lists: u64,
    /// How many lists its end says that there were.
    count: Option<u64>,
    /// How many places with lost bytes, and how many bytes.
    places: u64,
    bytes: u64,
}

impl Saved {
    /// Whether there is neither a list nor an end that says that there was none.
    fn is_nothing(&self) -> bool {
        self.lists == 0 && (self.places > 0 || self.count.is_none())
    }

    fn told(&self) -> String {
        let of = self.count.map(|count| format!(" of {count}"));
        format!(
            "{}{} lists are whole, and {} bytes at {} places are lost",
            self.lists,
            of.unwrap_or_default(),
            self.bytes,
            self.places
        )
    }
}

pub fn run(args: &Args) -> Result<Status, Failure> {
    let [from] = &args.rest[..] else {
        return Err(args.wrong("name one archive"));
    };
    let Some(out) = args.path("-o") else {
        return Err(args.wrong("say where to: `-o OUT`"));
    };
    let from = Path::new(from);
    if !is_stream(from) && place_of(from) == place_of(&out) {
        return Err(args.wrong("input and output are the same"));
    }
    let input = open(from)?;
    let pieces = Salvage::new(input).map_err(|why| Failure::io(from, &why))?;
    let teller = Teller {
        from,
        is_json: args.has("--json"),
        is_stderr: is_stream(&out),
    };
    let saved = if is_stream(&out) {
        let stdout = BufWriter::new(io::stdout());
        write(pieces, stdout, &out, &teller)?.0
    } else {
        let (saved, mut written, digest) = write(pieces, Replacement::of(&out)?, &out, &teller)?;
        read_back(&mut written, digest, &out)?;
        written.put_in_place()?;
        saved
    };
    output::tell(&saved.told());
    match saved.places {
        0 => Ok(Status::Well),
        _ => Ok(Status::Found),
    }
}

fn open(path: &Path) -> Result<Box<dyn Read>, Failure> {
    if is_stream(path) {
        return Ok(Box::new(io::stdin()));
    }
    let file = File::open(path).map_err(|why| Failure::io(path, &why))?;
    Ok(Box::new(file))
}

/// Tells what is lost of an archive.
struct Teller<'f> {
    from: &'f Path,
    is_json: bool,
    /// Standard output carries the archive.
    is_stderr: bool,
}

impl Teller<'_> {
    fn lost(&self, start: u64, end: u64) -> Result<(), Failure> {
        let line = if self.is_json {
            let mut object = Object::new();
            object
                .file(self.from)
                .text("result", "lost")
                .number("start", start)
                .number("end", end);
            object.done() + "\n"
        } else {
            let from = escape::path(self.from);
            format!("{from}: bytes {start} to {end} are lost\n")
        };
        match self.is_stderr {
            true => output::tell(line.trim_end()),
            false => _ = output::print(&line)?,
        }
        Ok(())
    }
}

/// Writes the lists that are whole.
fn write<R: Read, W: Write>(
    mut pieces: Salvage<R>,
    out: W,
    named: &Path,
    teller: &Teller<'_>,
) -> Result<(Saved, W, Digest), Failure> {
    let failed = |why: io::Error| match why.kind() {
        io::ErrorKind::BrokenPipe if is_stream(named) => Failure::Cut,
        _ => Failure::io(named, &why),
    };
    let mut saved = Saved::default();
    let mut digest = Digest::new();
    let mut writer = ListsWriter::new(out, pieces.format()).map_err(failed)?;
    loop {
        let piece = pieces.next_piece();
        match piece.map_err(|why| Failure::io(teller.from, &why))? {
            None => break,
            Some(Piece::List(list)) => {
                saved.lists += 1;
                digest.add(list.version, list.words);
                writer.write(list.version, list.words).map_err(failed)?;
            }
            Some(Piece::Lost { start, end }) => {
                saved.places += 1;
                saved.bytes += end - start;
                teller.lost(start, end)?;
            }
        }
    }
    saved.count = pieces.count();
    if saved.is_nothing() {
        let (from, why) = (
            escape::path(teller.from),
            "no list is whole; nothing was written",
        );
        return Err(Failure::Damaged(format!("{from}: {why}")));
    }
    let (out, _) = writer.finish().map_err(failed)?;
    Ok((saved, out, digest))
}

/// The lists of a damaged container behind its first damage: those that are whole, but for the first so many.
struct Behind<'f> {
    file: &'f Path,
    pieces: Salvage<File>,
    before: u64,
    saved: Saved,
}

impl<'f> Behind<'f> {
    /// None where the file is no container.
    fn of(file: &'f Path, before: u64) -> Option<Self> {
        let pieces = Salvage::new(File::open(file).ok()?).ok()?;
        let is_container = pieces.format() == Format::Container;
        is_container.then(|| Self {
            file,
            pieces,
            before,
            saved: Saved::default(),
        })
    }

    /// The failure once all was read: where a list is whole, with what there is to say of it.
    fn damaged(&self, why: String) -> Failure {
        let told = self.saved.told();
        Failure::Damaged(match self.saved.lists {
            0 => why,
            _ => format!("{why}; {told}; `sorbrudder salvage` writes what is whole"),
        })
    }
}

impl Source for Behind<'_> {
    fn path(&self) -> &Path {
        self.file
    }

    fn fill(&mut self, batch: &mut Batch) -> Result<bool, Failure> {
        batch.format = Some(Format::Container);
        while !batch.is_full() {
            let piece = self.pieces.next_piece();
            match piece.map_err(|why| Failure::io(self.file, &why))? {
                None => {
                    self.saved.count = self.pieces.count();
                    return Ok(false);
                }
                Some(Piece::List(list)) => {
                    self.saved.lists += 1;
                    if list.number >= self.before {
                        batch.push(list.into());
                    }
                }
                Some(Piece::Lost { start, end }) => {
                    self.saved.places += 1;
                    self.saved.bytes += end - start;
                }
            }
        }
        Ok(true)
    }
}

/// Works on all lists of a file, on behind damage too where it is a container; then the failure tells how much of it is whole.
pub fn each_whole<T: Task>(
    file: &Path,
    input: Result<Input, Failure>,
    helpers: &Helpers<'_, T>,
    mut take: impl FnMut(T::Done) -> Result<(), Failure>,
) -> Result<(), Failure> {
    let (read, before) = match input {
        Ok(mut input) => (helpers.each(&mut input, &mut take), input.count()),
        Err(why) => (Err(why), 0),
    };
    let why = match read {
        Err(Failure::Damaged(why)) if !is_stream(file) => why,
        other => return other,
    };
    let Some(mut behind) = Behind::of(file, before) else {
        return Err(Failure::Damaged(why));
    };
    helpers.each(&mut behind, take)?;
    Err(behind.damaged(why))
}

/// The failure; of a damaged container it tells how much is whole, though nothing was made of what is behind the damage.
pub fn with_whole(failure: Failure, file: &Path) -> Failure {
    let why = match failure {
        Failure::Damaged(why) if !is_stream(file) => why,
        other => return other,
    };
    // Every list is one of the first so many: the batch stays empty, and all is read at once.
    let Some(mut behind) = Behind::of(file, u64::MAX) else {
        return Failure::Damaged(why);
    };
    match behind.fill(&mut Batch::default()) {
        Ok(_) => behind.damaged(why),
        Err(_) => Failure::Damaged(why),
    }
}

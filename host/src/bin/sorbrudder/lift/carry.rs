//! One archive carried over to a version.

use super::options::{Options, Target};
use crate::bracketed;
use crate::check::note_words;
use crate::diff;
use crate::escape;
use crate::failure::Failure;
use crate::helpers::{Helpers, Task};
use crate::input::{Batch, Input, Listed};
use crate::line::{About, Line};
use crate::lock::Held;
use crate::replace::{self, Replacement};
use crate::salvage;
use crate::several::Teller;
use crate::written::{Digest, Marks, Meant, read_back_shared};
use sorbrudder::archive::{Encoded, Format, ListsWriter};
use sorbrudder::{LiftError, LiftedWords, Lifter, Op, Reader, Tokens};
use std::io::{self, BufWriter, Write};
use std::path::Path;

/// What became of lists.
#[derive(Clone, Copy, Debug, Default)]
pub struct Carried {
    pub lists: u64,
    pub written: u64,
    /// How many of those are scripts: lists of statements.
    pub scripts: u64,
    pub same: u64,
    /// How many of those were to be settled and could not be.
    pub unsettled: u64,
    pub no_trees: u64,
    pub refused: u64,
    pub not_writable: u64,
    pub too_deep: u64,
    /// Files that were not written, since lists stayed behind.
    pub held_back: u64,
    /// Files that were not touched, since all their lists stay as they are.
    pub untouched: u64,
}

impl Carried {
    /// How many lists keep their own version.
    pub fn stayed(&self) -> u64 {
        self.no_trees + self.refused + self.not_writable + self.too_deep
    }

    fn add(&mut self, result: &str) {
        self.lists += 1;
        *match result {
            "lifted" | "settled" => &mut self.written,
            "same" => &mut self.same,
            "no-tree" => &mut self.no_trees,
            "refused" => &mut self.refused,
            "too-deep" => &mut self.too_deep,
            _ => &mut self.not_writable,
        } += 1;
    }

    /// The counts by their names in the summary's record.
    pub fn counts(&self) -> [(&'static str, u64); 11] {
        [
            ("lists", self.lists),
            ("written", self.written),
            ("scripts", self.scripts),
            ("same", self.same),
            ("unsettled", self.unsettled),
            ("no_trees", self.no_trees),
            ("refused", self.refused),
            ("not_writable", self.not_writable),
            ("too_deep", self.too_deep),
            ("held_back", self.held_back),
            ("untouched", self.untouched),
        ]
    }

    pub fn join(&mut self, other: Self) {
        self.lists += other.lists;
        self.written += other.written;
        self.scripts += other.scripts;
        self.same += other.same;
        self.unsettled += other.unsettled;
        self.no_trees += other.no_trees;
        self.refused += other.refused;
        self.not_writable += other.not_writable;
        self.too_deep += other.too_deep;
        self.held_back += other.held_back;
        self.untouched += other.untouched;
    }
}

/// Lifts a file to where it goes. Of a damaged one nothing is written, and what is whole of it is told.
pub fn carry(
    file: &Path,
    options: &Options,
    teller: &mut Teller<Carried>,
    helpers: &Helpers<'_, Options>,
) -> Result<Carried, Failure> {
    let carried = carry_file(file, options, teller, helpers);
    carried.map_err(|why| salvage::with_whole(why, file))
}

fn carry_file(
    file: &Path,
    options: &Options,
    teller: &mut Teller<Carried>,
    helpers: &Helpers<'_, Options>,
) -> Result<Carried, Failure> {
    let held = match options.target {
        Target::InPlace => Some(Held::of(file)?),
        _ => None,
    };
    let mut input = match &held {
        Some(held) => Input::of(file, held.file().map_err(|why| Failure::io(file, &why))?)?,
        None => Input::open(file)?,
    };
    note_words(&input, teller);
    let Some(target) = options.target_of(file) else {
        let out: Box<dyn Write> = match options.target {
            Target::Stdout => Box::new(BufWriter::with_capacity(1 << 16, io::stdout())),
            _ => Box::new(io::sink()),
        };
        return Ok(carry_lists(&mut input, options, out, teller, helpers)?.carried);
    };
    if let (Target::Folder(..), Some(folder)) = (&options.target, target.parent()) {
        std::fs::create_dir_all(folder).map_err(|why| Failure::io(folder, &why))?;
    }
    let replacement = Replacement::of(&target)?;
    let written = carry_lists(&mut input, options, replacement, teller, helpers)?;
    let (mut carried, mut replacement) = (written.carried, written.out);
    if options.is_strict && carried.stayed() > 0 {
        carried.held_back = 1;
        return Ok(carried);
    }
    if held.is_some() && !written.is_changed {
        carried.untouched = 1;
        return Ok(carried);
    }
    read_back_shared(&mut replacement, written.meant, &target, helpers)?;
    if let Some(held) = &held {
        replacement.check(held.seen())?;
    }
    if options.backs_up {
        replace::back_up(file)?;
    }
    match held {
        Some(held) => replacement.put_in_place_of(held.seen())?,
        None => replacement.put_in_place()?,
    }
    Ok(carried)
}

/// What was written.
struct Written<W> {
    carried: Carried,
    meant: Meant,
    /// Whether it is another file than the one that was read.
    is_changed: bool,
    out: W,
}

/// The format to write, which is said where it is another than the file's.
fn format(input: &Input, options: &Options, teller: &mut Teller<Carried>) -> Format {
    let (from, file) = (input.format(), escape::path(&input.path));
    let format = options.format.unwrap_or(from);
    match (from, format) {
        (Format::Words, Format::Container) => teller.note(format!(
            "{file}: a plain file of words becomes a container (--container)"
        )),
        (Format::Container, Format::Words) => teller.note(format!(
            "{file}: a container becomes a plain file of words (--plain)"
        )),
        _ => {}
    }
    format
}

/// What comes of a batch of lists.
#[derive(Default)]
pub struct Lifted {
    carried: Carried,
    /// The lists as they are written to a container, or to a plain file.
    encoded: Encoded,
    lists: Batch,
    failed: Option<io::Error>,
    /// The digests of the lists.
    digests: Vec<u64>,
    is_changed: bool,
    text: String,
    report: String,
}

/// What a thread lifts with, and reads with where both readings are told.
pub struct Tools {
    lifter: Lifter,
    readers: Option<(Reader, Reader)>,
}

impl Options {
    /// Whether each list that is written anew is told of with all that there is to say.
    fn tells_all(&self) -> bool {
        self.is_json || self.shows || self.report.is_some()
    }
}

impl Task for Options {
    type State = Tools;
    type Done = Lifted;

    fn state(&self) -> Tools {
        let lifter = Lifter::new()
            .with_limit_from(self.own_limit)
            .with_limit_to(self.limit);
        let readers = self.tells_all().then(|| (Reader::new(), Reader::new()));
        Tools { lifter, readers }
    }

    fn work(&self, tools: &mut Tools, file: &Path, batch: &Batch) -> Lifted {
        let Tools { lifter, readers } = tools;
        let mut done = Lifted::default();
        let is_plain = self.format.or(batch.format) == Some(Format::Words);
        for list in batch.lists() {
            let unsettled = unsettled(lifter, list, self);
            let (line, version, words) = match lift_list(lifter, list, self, unsettled) {
                Ok(lifted) => {
                    let is_script = lifted.tree.root().op() == Op::SEMICOLON;
                    done.carried.scripts += u64::from(lifted.changed && is_script);
                    done.carried.unsettled += u64::from(unsettled.is_some());
                    let line = told(&lifted, list, self, unsettled);
                    let line = match readers {
                        Some(readers) if lifted.changed => with_all(line, &lifted, list, readers),
                        _ => line,
                    };
                    (line, self.to, lifted.words)
                }
                Err(why) => (
                    Line::of_lift_error(&why, list.words, self.own_limit, self.to),
                    list.version,
                    list.words,
                ),
            };
            done.is_changed |= version != list.version || words != list.words;
            done.digests.push(Digest::of_list(version, words));
            if is_plain {
                done.lists.push(Listed {
                    version,
                    words,
                    ..list
                });
            } else if let Err(why) = done.encoded.add(version, words) {
                done.failed = Some(why);
            }
            done.carried.add(line.result);
            tell(&line, About::list(file, list), self, &mut done);
        }
        done
    }
}

/// Lifts every list, writes it, and tells of it.
fn carry_lists<W: Write>(
    input: &mut Input,
    options: &Options,
    out: W,
    teller: &mut Teller<Carried>,
    helpers: &Helpers<'_, Options>,
) -> Result<Written<W>, Failure> {
    let path = input.path.clone();
    let format = format(input, options, teller);
    let mut is_changed = format != input.format();
    let failed = |why: io::Error| match why.kind() {
        io::ErrorKind::BrokenPipe if options.target == Target::Stdout => Failure::Cut,
        _ => Failure::Io(format!(
            "writing what {} is lifted to: {why}",
            escape::path(&path)
        )),
    };
    let mut writer = ListsWriter::new(out, format).map_err(failed)?;
    let mut carried = Carried::default();
    let (mut digest, mut marks) = (Digest::new(), Marks::new());
    helpers.each(input, |done| {
        if let Some(why) = done.failed {
            return Err(failed(why));
        }
        match format {
            Format::Container => writer.append(&done.encoded).map_err(failed)?,
            Format::Words => {
                for list in done.lists.lists() {
                    writer.write(list.version, list.words).map_err(failed)?;
                }
            }
        }
        done.digests.iter().for_each(|list| digest.add_list(*list));
        marks.note(writer.mark(), digest);
        is_changed |= done.is_changed;
        carried.join(done.carried);
        teller.report(&done.report);
        teller.text(&done.text);
        Ok(())
    })?;
    let (out, _) = writer.finish().map_err(failed)?;
    Ok(Written {
        carried,
        meant: Meant { digest, marks },
        is_changed,
        out,
    })
}

/// Why a list that is to be settled cannot be: it is not plain, or too deep with all its brackets.
fn unsettled(lifter: &mut Lifter, list: Listed<'_>, options: &Options) -> Option<LiftError> {
    match options.settles {
        true => lifter.settle_words(list.words, list.version).err(),
        false => None,
    }
}

/// The list as it is settled, or lifted. One that cannot be settled stays as it is where both versions read it alike.
fn lift_list<'l>(
    lifter: &'l mut Lifter,
    list: Listed<'l>,
    options: &Options,
    unsettled: Option<LiftError>,
) -> Result<LiftedWords<'l>, LiftError> {
    if options.settles && unsettled.is_none() {
        return lifter.settle_words(list.words, list.version);
    }
    lifter
        .lift_words(list.words)
        .from(list.version)
        .to(options.to)
}

/// The line about a list that was lifted, or left alone.
fn told(
    lifted: &LiftedWords<'_>,
    list: Listed<'_>,
    options: &Options,
    unsettled: Option<LiftError>,
) -> Line {
    if let Some(why) = unsettled {
        return Line {
            result: "same",
            text: format!("left alone, not settled: {why}"),
            ..Line::of_lift_error(&why, list.words, options.own_limit, options.to)
        };
    }
    let result = match (lifted.changed, options.settles) {
        (true, true) => "settled",
        (true, false) => "lifted",
        (false, _) => "same",
    };
    Line::new(result, Some(options.to))
}

/// The line about a list that is written anew, with both readings of the old list, the rule, and both lists.
fn with_all(
    line: Line,
    lifted: &LiftedWords<'_>,
    list: Listed<'_>,
    (old, new): &mut (Reader, Reader),
) -> Line {
    let to = line.to.unwrap_or(list.version);
    let compared = diff::compare(old, new, list, to);
    let readings = match compared.result {
        // It is settled: both versions read it as this.
        "same" => [0, 1].map(|_| Some(bracketed::line(lifted.tree, None))),
        _ => compared.readings,
    };
    let text = |words: &[u32]| Tokens::from_words(words).map(|list| list.to_string());
    let lists = text(list.words).zip(text(lifted.words));
    Line {
        result: line.result,
        readings,
        lists: lists.map(|(before, after)| [before, after]),
        ..compared
    }
}

/// A list as it was and as it is, a line each.
fn shown([before, after]: &[String; 2], is_coloured: bool) -> String {
    match is_coloured {
        true => format!("\x1b[31m- {before}\x1b[0m\n\x1b[32m+ {after}\x1b[0m\n"),
        false => format!("- {before}\n+ {after}\n"),
    }
}

/// Tells of a list: in text only where it stays behind, or is left alone and was to be settled, or is to be shown.
fn tell(line: &Line, about: About<'_>, options: &Options, done: &mut Lifted) {
    if options.report.is_some() {
        done.report += &line.as_json(about);
    }
    if options.is_json {
        done.text += &line.as_json(about);
    } else if let (true, Some(lists)) = (options.shows, &line.lists) {
        let head = Line {
            text: format!("{} to version {}", line.result, options.to),
            ..line.clone()
        };
        done.text += &head.as_text(about);
        done.text += &shown(lists, options.is_coloured);
    } else if line.result == "same" && !line.text.is_empty() {
        done.text += &line.as_text(about);
    } else if !matches!(line.result, "lifted" | "settled" | "same") {
        let stays = Line {
            text: format!("stays behind: {}", line.text),
            ..line.clone()
        };
        done.text += &stays.as_text(about);
    }
}

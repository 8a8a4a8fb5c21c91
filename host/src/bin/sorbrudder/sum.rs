//! `sorbrudder sum`: adds up the summaries of several runs, of shards of an archive or of several hosts.

use crate::args::Args;
use crate::escape;
use crate::failure::{Failure, Status};
use crate::json::Object;
use crate::output;
use crate::parse::Value;
use crate::paths::is_stream;
use std::fs::File;
use std::io::{self, BufRead, BufReader};
use std::path::Path;

/// What runs of one command come to.
#[derive(Debug, Default)]
struct Sum {
    /// The command, and the version that it was told.
    of: Option<(String, Option<i16>)>,
    runs: u64,
    /// The counts in the order of the first record.
    counts: Vec<(String, u64)>,
    status: u8,
}

pub fn run(args: &Args) -> Result<Status, Failure> {
    if args.rest.is_empty() {
        return Err(args.wrong("name the reports to add up, or `-`"));
    }
    let mut sum = Sum::default();
    for path in args.rest.iter().map(Path::new) {
        add_report(&mut sum, path)?;
    }
    let text = match args.has("--json") {
        true => sum.as_json(),
        false => escape::lines(&sum.as_text()).into_owned(),
    };
    output::print(&text)?;
    Ok(match sum.status {
        0 => Status::Well,
        1 => Status::Found,
        2 => Status::Usage,
        3 => Status::Io,
        _ => Status::Damaged,
    })
}

/// Adds the summaries of a report. One that does not end with a summary was cut.
fn add_report(sum: &mut Sum, path: &Path) -> Result<(), Failure> {
    let failed = |why: io::Error| Failure::io(path, &why);
    let wrong = |why: &str| Failure::Damaged(format!("{}: {why}", escape::path(path)));
    let report: Box<dyn BufRead> = match is_stream(path) {
        true => Box::new(BufReader::new(io::stdin())),
        false => Box::new(BufReader::new(File::open(path).map_err(failed)?)),
    };
    let mut ends = false;
    for (place, line) in report.split(b'\n').enumerate() {
        let line = line.map_err(failed)?;
        let number = place + 1;
        let text = std::str::from_utf8(&line).ok();
        let value = text.and_then(Value::of);
        let result = value.as_ref().and_then(|value| value.field("result"));
        let Some(result) = result.and_then(Value::text) else {
            return Err(wrong(&format!("line {number} is no record of a report")));
        };
        ends = result == "summary";
        if let (true, Some(value)) = (ends, &value) {
            sum.add(value)
                .map_err(|why| wrong(&format!("line {number}: {why}")))?;
        }
    }
    match ends {
        true => Ok(()),
        false => Err(wrong("it does not end with a summary: it was cut")),
    }
}

impl Sum {
    fn add(&mut self, record: &Value) -> Result<(), String> {
        let command = record.field("command").and_then(Value::text);
        let command = command.ok_or("a summary without its command")?;
        let to = record.field("to").and_then(Value::number);
        let of = (command.to_string(), to);
        let first = self.of.get_or_insert_with(|| of.clone());
        if *first != of {
            return Err(format!(
                "a summary of {} among those of {}",
                named(&of),
                named(first)
            ));
        }
        let Value::Object(fields) = record else {
            return Err("no record".to_string());
        };
        for (name, value) in fields {
            let Some(count) = value.number::<u64>().filter(|_| name != "to") else {
                continue;
            };
            match name.as_str() {
                "status" => self.status = self.status.max(u8::try_from(count).unwrap_or(u8::MAX)),
                // A sum of sums.
                "runs" => self.runs += count,
                _ => add_count(&mut self.counts, name, count)?,
            }
        }
        self.runs += u64::from(record.field("runs").is_none());
        Ok(())
    }

    fn as_text(&self) -> String {
        let counts = self.counts.iter().map(|(name, count)| {
            let name = name.replace('_', " ");
            format!("{name} {count}")
        });
        let of = self.of.as_ref().map(named).unwrap_or_default();
        let counts: Vec<String> = counts.collect();
        format!("{of}, {} runs: {}\n", self.runs, counts.join(", "))
    }

    /// The record that one run over everything would have ended with, and how many runs it was.
    fn as_json(&self) -> String {
        let mut object = Object::new();
        object.text("result", "summary");
        if let Some((command, to)) = &self.of {
            object.text("command", command);
            if let Some(to) = to {
                object.number("to", *to);
            }
        }
        for (name, count) in &self.counts {
            object.number(name, *count);
        }
        object
            .number("status", self.status)
            .number("runs", self.runs);
        object.done() + "\n"
    }
}

fn add_count(counts: &mut Vec<(String, u64)>, name: &str, count: u64) -> Result<(), String> {
    match counts.iter_mut().find(|(known, _)| known == name) {
        Some((_, sum)) => {
            let added = sum.checked_add(count);
            *sum = added.ok_or("the counts are more than can be counted")?;
        }
        None => counts.push((name.to_string(), count)),
    }
    Ok(())
}

/// A command with its version.
fn named((command, to): &(String, Option<i16>)) -> String {
    match to {
        Some(to) => format!("{command} --to {to}"),
        None => command.clone(),
    }
}

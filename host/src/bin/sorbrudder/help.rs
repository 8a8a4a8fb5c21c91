//! What `--help` says, made from the table of the commands.

use crate::args;
use crate::commands::{self, COMMANDS, Command, EVERYWHERE, NOTES, STATUSES, TITLE};
use crate::escape;
use crate::failure::{Failure, Status};
use crate::nearest::did_you_mean;
use crate::output;

/// How wide a line is.
const WIDTH: usize = 100;

/// Where the texts of commands and options begin.
const COMMAND_TEXT: usize = 38;
const OPTION_TEXT: usize = 18;

/// A text broken into lines, all of which begin behind so many blanks; those of the first are there already.
fn wrapped(text: &str, indent: usize) -> String {
    let mut lines = String::new();
    let mut column = indent;
    for word in text.split_whitespace() {
        let width = word.chars().count();
        if column > indent && column + 1 + width > WIDTH {
            lines += &format!("\n{:indent$}", "");
            column = indent;
        }
        if column > indent {
            lines.push(' ');
            column += 1;
        }
        lines += word;
        column += width;
    }
    lines
}

/// A head, and a text beside it or, where the head is long, below it.
fn entry(head: &str, text: &str, column: usize) -> String {
    let width = head.chars().count();
    let text = wrapped(text, column);
    match width + 2 <= column {
        true => format!("{head:column$}{text}\n"),
        false => format!("{head}\n{:column$}{text}\n", ""),
    }
}

fn paragraphs(texts: &[&str]) -> String {
    let paragraph = |text: &&str| format!("\n{}\n", wrapped(text, 0));
    texts.iter().map(paragraph).collect()
}

fn options(options: &[args::Option]) -> String {
    let line = |option: &args::Option| {
        let head = format!("  {}", option.shown());
        entry(&head, option.says, OPTION_TEXT)
    };
    options.iter().map(line).collect()
}

/// A way to write a command.
pub fn usage(command: &Command, way: &str) -> String {
    let usage = format!("sorbrudder {} {way}", command.name);
    usage.trim_end().to_string()
}

/// What there is to say of all commands.
pub fn all() -> String {
    let mut text = format!("{}\n\n", wrapped(&format!("sorbrudder: {TITLE}"), 0));
    for command in COMMANDS {
        let first = command.usage.first().copied().unwrap_or_default();
        let head = format!("  {}", usage(command, first));
        text += &entry(&head, command.line, COMMAND_TEXT);
        let others = command
            .usage
            .iter()
            .skip(1)
            .filter(|way| !way.starts_with("-e"));
        text.extend(others.map(|way| format!("  {}\n", usage(command, way))));
    }
    text += "\nWith every command:\n";
    text += &options(EVERYWHERE);
    text += &paragraphs(&["`sorbrudder COMMAND --help` says more."]);
    text += &paragraphs(NOTES);
    text += "\nExit status:\n";
    let status = |(number, what): &(&str, &str)| format!("  {number}  {what}\n");
    text.extend(STATUSES.iter().map(status));
    text
}

/// What there is to say of a command.
fn of(command: &Command) -> String {
    let rest = if command.options.is_empty() {
        ""
    } else {
        " [options]"
    };
    let ways = command.usage.iter();
    let mut text: String = ways
        .map(|way| format!("{}{rest}\n", usage(command, way)))
        .collect();
    text += &paragraphs(command.about);
    if !command.options.is_empty() {
        text.push('\n');
        text += &options(command.options);
    }
    text += &paragraphs(command.notes);
    text
}

/// Why there is no such command.
pub fn unknown(name: &str) -> Failure {
    let names = COMMANDS.iter().map(|command| command.name);
    let (meant, name) = (did_you_mean(name, names), escape::line(name));
    Failure::Usage(format!(
        "there is no command `{name}`{meant}; `sorbrudder --help` lists them"
    ))
}

/// Prints what there is to say of a command, or of all.
pub fn print(command: Option<&str>) -> Result<Status, Failure> {
    match command {
        None => output::print(&all()),
        Some(name) => match commands::named(name) {
            Some(command) => output::print(&of(command)),
            None => Err(unknown(name)),
        },
    }
}

#[cfg(test)]
mod tests {
    use super::{WIDTH, all, of};
    use crate::commands::COMMANDS;

    #[test]
    fn no_line_is_wider_than_it_may_be() {
        let texts = COMMANDS.iter().map(of).chain([all()]);
        for text in texts {
            for line in text.lines() {
                assert!(
                    line.chars().count() <= WIDTH && line == line.trim_end(),
                    "{line}"
                );
            }
        }
    }
}

//! `sorbrudder man`: the page for man, made from the table of the commands.

use crate::args::{self, Args};
use crate::commands::{COMMANDS, Command, EVERYWHERE, NOTES, STATUSES, TITLE};
use crate::failure::{Failure, Status};
use crate::help::usage;
use crate::output;

pub fn run(args: &Args) -> Result<Status, Failure> {
    if !args.rest.is_empty() {
        return Err(args.wrong("it takes no word"));
    }
    output::print(&page())
}

/// A text with the signs that roff has a use for, on one line; what stands between `` ` `` is bold.
fn text(text: &str) -> String {
    let mut out = String::new();
    let mut is_bold = false;
    for c in text.chars() {
        match c {
            '`' => {
                is_bold = !is_bold;
                out.push_str(if is_bold { "\\fB" } else { "\\fR" });
            }
            '\\' => out.push_str("\\e"),
            '-' => out.push_str("\\-"),
            '\'' => out.push_str("\\(aq"),
            '^' => out.push_str("\\(ha"),
            '~' => out.push_str("\\(ti"),
            c => out.push(c),
        }
    }
    match out.starts_with('.') {
        true => format!("\\&{out}"),
        false => out,
    }
}

fn paragraphs(texts: &[&str]) -> String {
    let paragraph = |words: &&str| format!(".PP\n{}\n", text(words));
    texts.iter().map(paragraph).collect()
}

fn options(options: &[args::Option]) -> String {
    let option = |option: &args::Option| {
        let names: Vec<String> = option
            .names()
            .map(|name| format!("\\fB{}\\fR", text(name)))
            .collect();
        let value = option
            .value
            .name()
            .map(|name| format!(" \\fI{}\\fR", text(name)));
        let (names, value) = (names.join(", "), value.unwrap_or_default());
        format!(".TP\n{names}{value}\n{}\n", text(option.says))
    };
    options.iter().map(option).collect()
}

fn command(command: &Command) -> String {
    let mut page = format!(".SS {}\n", text(command.name));
    let rest = if command.options.is_empty() {
        ""
    } else {
        " [options]"
    };
    for way in command.usage {
        page += &format!(".PP\n\\fB{}\\fR{rest}\n", text(&usage(command, way)));
    }
    page += &paragraphs(command.about);
    page += &options(command.options);
    page += &paragraphs(command.notes);
    page
}

/// The page.
fn page() -> String {
    let version = env!("CARGO_PKG_VERSION");
    let mut page = format!(
        ".TH SORBRUDDER 1 \"\" \"sorbrudder {version}\" \"User Commands\"\n.nh\n.SH NAME\nsorbrudder \\- {}\n",
        text(TITLE)
    );
    page += ".SH SYNOPSIS\n\\fBsorbrudder\\fR \\fICOMMAND\\fR [\\fIoptions\\fR]\n";
    page += ".SH DESCRIPTION\n";
    for command in COMMANDS {
        page += &format!(
            ".TP\n\\fB{}\\fR\n{}\n",
            text(command.name),
            text(command.line)
        );
    }
    page += &paragraphs(NOTES);
    page += ".SH OPTIONS\nThese go with every command.\n";
    page += &options(EVERYWHERE);
    page += ".SH COMMANDS\n";
    page.extend(COMMANDS.iter().map(command));
    page += ".SH EXIT STATUS\n";
    for (number, what) in STATUSES {
        page += &format!(".TP\n{number}\n{}\n", text(what));
    }
    page += ".SH ENVIRONMENT\n.TP\nNO_COLOR\nif it is set to something, no colours are used but with \\fB\\-\\-color always\\fR\n";
    page
}

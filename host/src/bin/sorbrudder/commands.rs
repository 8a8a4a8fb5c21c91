//! The table of the commands: what each takes, does and says. The help, the man page and the completions are made from it, so a new
//! command is one entry here, and a new option is one line of its command's entry.

use crate::args::{self, Args, Value};
use crate::failure::{Failure, Status};
use crate::{
    cat, check, completions, diff, draw, explain, lift, man, ops, pack, read, report, salvage, sum,
    versions,
};

/// A command.
pub struct Command {
    pub name: &'static str,
    /// What follows the name, way by way, but for the options that can be left out.
    pub usage: &'static [&'static str],
    /// What it does, on a line.
    pub line: &'static str,
    /// What it does, in paragraphs.
    pub about: &'static [&'static str],
    pub options: &'static [args::Option],
    /// What there is to say besides, in paragraphs.
    pub notes: &'static [&'static str],
    /// What stands after its name.
    pub takes: Takes,
    pub run: fn(&Args) -> Result<Status, Failure>,
}

/// What stands after a command's name beside options.
#[derive(Clone, Copy, Debug, PartialEq, Eq)]
pub enum Takes {
    Nothing,
    /// Files and folders.
    Files,
    /// A list of a file, `FILE#N`.
    List,
    /// One of these words.
    Words(&'static [&'static str]),
}

/// The command of a name.
pub fn named(name: &str) -> Option<&'static Command> {
    COMMANDS.iter().find(|command| command.name == name)
}

pub const TITLE: &str =
    "archives of Molang token lists, checked, compared, lifted to a version, shown and drawn";

/// What goes with every command.
pub const EVERYWHERE: &[args::Option] = &[
    args::flag("--quiet", "leaves out progress, remarks and the summary on standard error; what fails is told all the same").or("-q"),
    args::with(
        "--color",
        Value::OneOf("WHEN", &["auto", "always", "never"]),
        "colours: `auto`, which is the usual, on a terminal unless NO_COLOR is set; `always`; `never`",
    ),
    args::flag("--help", "says more of a command").or("-h"),
    args::flag("--version", "prints the version of the command").or("-V"),
];

/// What there is to say of all commands, in paragraphs.
pub const NOTES: &[&str] = &[
    "Lists are numbered from 0. A folder stands for all archives in it, by name, but for those whose names begin with a dot or end in \
     `.bak`; files that are no archives are skipped and counted, and a folder without an archive is a wrong argument. `-` is standard \
     input or output.",
    "What is told of lists goes to standard output, `--json` makes it a line of JSON a list (and one for a file that fails, and a \
     summary); a file's name that is not UTF-8 is there with its bytes in hexadecimal (file_bytes). Progress and the summary go to \
     standard error. Where nobody reads standard output any more, a command goes on, and its status speaks of all lists; of an archive \
     that is written there it ends with status 3, since it is cut. Control characters of names and sources are shown as escapes.",
];

/// The exit statuses.
pub const STATUSES: &[(&str, &str)] = &[
    ("0", "all well"),
    ("1", "some lists differ, stayed behind or are no trees"),
    ("2", "wrong arguments"),
    ("3", "input or output failed"),
    ("4", "an archive is damaged"),
];

// Options that several commands have.
const E: args::Option = args::value(
    "-e",
    "LIST",
    "a list in the notation: names and numbers, Molang's signs, math.sin, variable.x",
);
const SOURCE: args::Option = args::with(
    "--source",
    Value::File("TEXT"),
    "the file with the text that the list's spans lie in",
);
const AT: args::Option = args::value(
    "--at",
    "V",
    "the version; else the list's own, else 13, the newest",
);
const LIMIT: args::Option = args::value(
    "--limit",
    "N",
    "a nesting limit, 1 to 4096, which is the usual",
);
const JOBS: args::Option = args::value(
    "-j",
    "N",
    "how many threads work, else as many as the machine has; what is written and told is the same",
);
const GLOB: args::Option = args::value(
    "--glob",
    "PATTERN",
    "which files of a folder are meant, by their names or, with a /, by their paths in it: *, ?, [a-z], **, and ! before a pattern of what \
     is left out; it can be given several times",
);
const TO_COMPARE: args::Option = args::value("--to", "V", "the version to compare with");

pub const COMMANDS: &[Command] = &[
    Command {
        name: "check",
        usage: &["PATH.."],
        line: "reads only: lists, trees, messages, refusals, damage",
        about: &[
            "Reads every list of the archives at its own version, and tells of those that are no trees. Nothing is written.",
        ],
        options: &[
            args::value(
                "--limit",
                "N",
                "the nesting limit of the engine that the lists are for, 1 to 4096, which is the usual: a list in which more brackets are \
                 open at once is told of, with the token that opens the first too many",
            ),
            args::flag(
                "--json",
                "a line of JSON for every list: file, list, byte, version, result (tree, no-tree, too-deep, refused), messages with \
                 number, start, end and text, and token, op, operator, start and end where it is too deep; at the end a record with the \
                 result summary and the counts",
            ),
            GLOB,
            JOBS,
        ],
        notes: &[
            "An archive that is cut or has a bit turned over is told of on standard error, with how much of it is whole (`sorbrudder \
             salvage` writes it), and the status is 4. In a plain file of words, damage at a token's end cannot be seen, which is said \
             once a file.",
        ],
        takes: Takes::Files,
        run: check::run,
    },
    Command {
        name: "diff",
        usage: &["PATH.. --to V"],
        line: "which lists version V reads otherwise, at which node, by which rule; writes nothing",
        about: &[
            "Reads every list at its own version and at V, and tells of those that are not read alike: both readings with all their \
             brackets, the first node that differs, and the rule. Nothing is written. Nesting limits are not looked at: `check --limit` \
             and `lift --limit` do.",
        ],
        options: &[
            TO_COMPARE,
            args::flag(
                "--json",
                "a line of JSON for every list: file, list, byte, version, to, result (same, differs, only-old, only-new, no-tree, \
                 refused), both readings (own_reading, to_reading), the rule, messages, and node, op, operator, start and end of the first \
                 difference; at the end a record with the result summary and the counts",
            ),
            GLOB,
            JOBS,
        ],
        notes: &[],
        takes: Takes::Files,
        run: diff::run,
    },
    Command {
        name: "lift",
        usage: &["IN -o OUT --to V", "PATH.. --in-place --to V"],
        line: "carries the lists over to version V, so that it reads each as its own version does",
        about: &[
            "Writes the lists of IN so that version V reads each as the tree that its own version reads. A list that both read alike is \
             left alone. A list that differs is written with brackets; `a - b` in it becomes `a + (- b)`, which is the same tree. A list \
             that is no tree, or cannot be written, or is too deep, stays as it is, at its own version, and is told of; then the status \
             is 1.",
            "What cannot be written: blocks, loops, arrays, members and `->`, a bracket round several parts, a `:` that is not the right \
             side of a `?`, and a list that would have more than 4,096 tokens with its brackets, which may happen from some 2,050 tokens \
             on. What is too deep: with `--limit N`, a list in which more than N brackets are open at once, as it is or with the brackets \
             that it needs; a list can be deeper than it was when it is written.",
        ],
        options: &[
            args::with(
                "-o",
                Value::File("OUT"),
                "a file, a folder where IN is one, or - for standard output",
            ),
            args::value("--to", "V", "the version to lift to"),
            args::value(
                "--limit",
                "N",
                "the nesting limit of the engine that is lifted to, 1 to 4096, which is the usual",
            ),
            args::value(
                "--own-limit",
                "N",
                "the nesting limit of the engines that the lists were written for; one that is deeper was no tree there",
            ),
            args::flag(
                "--in-place",
                "replaces the files themselves, but for those in which every list stays as it is",
            ),
            args::flag(
                "--backup",
                "keeps each old file as FILE.bak, which must not be there yet",
            ),
            args::flag(
                "--dry-run",
                "writes no archive, and tells what would be done; it needs no `-o` and no `--in-place`",
            ),
            args::flag(
                "--diff",
                "shows each list that is written anew, as it was and as it is; with `--dry-run`, as it would be",
            ),
            args::flag(
                "--strict",
                "a file in which a list stays behind is not written at all; not with `-o -`",
            ),
            args::flag(
                "--settle",
                "writes every list that can be written with all its brackets, so that every version reads it the same; a list that cannot \
                 be, and that both versions read alike, is left alone and told of: another version may read it otherwise",
            ),
            args::flag(
                "--plain",
                "writes plain files of words (docs/FORMAT.md); else a file stays what it is",
            ),
            args::flag("--container", "writes containers"),
            args::with(
                "--report",
                Value::File("FILE"),
                "a line of JSON for every list; `--report -` is `--json`",
            ),
            args::flag(
                "--json",
                "the same on standard output: file, list, byte, version, to, result (same, lifted, settled, stays, no-tree, too-deep, \
                 refused), and node or token, op, operator, start, end and reason of what stays behind or is not settled; the reason of \
                 too-deep is as-given, as-written (the token is then one of the list with its brackets) or own-limit. Of a list that is \
                 written anew both readings (own_reading, to_reading), the rule, list_before and list_after. At the end a record with the \
                 result summary and the counts, which `sorbrudder sum` adds up",
            ),
            GLOB,
            JOBS,
        ],
        notes: &[
            "A file is written beside its target, brought to the disk, read back and compared, and then put in the target's place at once, \
             with its owner, rights and attributes. Killed at any moment or on a full disk, the old file is whole; a file \
             `.sorbrudder-*.tmp` that is left is removed by the next run that writes to the folder. Of two runs on one file in place the \
             second ends with 3, or works on what the first left; what another program writes meanwhile stays, and the status is 3. A file \
             with several names (hard links) is not replaced. A target, a backup or a report that would take the place of a file that is \
             lifted, or of another that is written, is a wrong argument, and nothing is begun.",
        ],
        takes: Takes::Files,
        run: lift::run,
    },
    Command {
        name: "cat",
        usage: &["PATH.."],
        line: "the lists as text, a line each, or as lines of JSON",
        about: &[
            "Writes the lists of archives down, a line each: the version, a tab, the list in the notation, and, where the spans of its \
             tokens are not those that they have in this text, a tab and the spans. Words that are no tokens are a $ and the words in \
             hexadecimal. `sorbrudder pack` makes the same archive of it again.",
        ],
        options: &[
            args::flag(
                "--json",
                "a line of JSON for every list: file, list, version, text (where it is tokens) and words",
            ),
            GLOB,
            JOBS,
        ],
        notes: &[],
        takes: Takes::Files,
        run: cat::run,
    },
    Command {
        name: "pack",
        usage: &["IN.. -o OUT"],
        line: "an archive of lists that are written so",
        about: &[
            "Makes an archive of lists that are written down as `sorbrudder cat` does it, a line each, as text or as JSON, or by hand: a \
             version, a blank and a list in the notation. Empty lines and lines that begin with # are passed over. An object of JSON needs \
             a version, and words or a text. A line that is none of these ends it with 4, and nothing is written.",
        ],
        options: &[
            args::with(
                "-o",
                Value::File("OUT"),
                "the archive, or - for standard output",
            ),
            args::flag(
                "--plain",
                "a plain file of words instead of a container (docs/FORMAT.md)",
            ),
        ],
        notes: &[],
        takes: Takes::Files,
        run: pack::run,
    },
    Command {
        name: "salvage",
        usage: &["IN -o OUT"],
        line: "what is whole of a damaged archive",
        about: &[
            "Writes what is whole of a damaged archive, and tells which bytes are lost. In a container each list has its length and its \
             checksum, so it goes on behind the damage; of a plain file of words what is before the damage is whole (docs/FORMAT.md). OUT \
             has the format of IN. The status is 0 where nothing is lost, 1 where something is and OUT has the rest, and 4 where no list \
             is whole, and nothing is written.",
        ],
        options: &[
            args::with(
                "-o",
                Value::File("OUT"),
                "the archive that is written, or - for standard output; never IN itself",
            ),
            args::flag(
                "--json",
                "a line of JSON for each place where bytes are lost: file, result (lost), start, end",
            ),
        ],
        notes: &[],
        takes: Takes::Files,
        run: salvage::run,
    },
    Command {
        name: "sum",
        usage: &["REPORT.."],
        line: "adds up the reports of several runs",
        about: &[
            "Adds up the summaries of several runs of one command, of shards or of several hosts (docs/SHARDS.md): what `--report` has \
             written, or the lines of `--json`. A report that does not end with its summary was cut, and the status is 4. Else it is the \
             highest of the runs.",
        ],
        options: &[args::flag(
            "--json",
            "the record that one run over everything would have ended with, and how many runs it was; it can be added up again",
        )],
        notes: &[],
        takes: Takes::Files,
        run: sum::run,
    },
    Command {
        name: "read",
        usage: &["FILE#N", "-e LIST"],
        line: "the tree of list N of an archive; -e 'a && b || c' instead of FILE#N takes a list",
        about: &[
            "Prints the tree of a list: as a line with all its brackets, and as a drawing, a node a line, with the rule that paired its \
             operands in square brackets.",
        ],
        options: &[
            E,
            AT,
            LIMIT,
            SOURCE,
            args::flag(
                "--json",
                "one object: version, source, bracketed, tree, nodes, each with its rule where it has children",
            ),
        ],
        notes: &[],
        takes: Takes::List,
        run: read::run,
    },
    Command {
        name: "versions",
        usage: &["FILE#N", "-e LIST"],
        line: "the list as versions 4, 5 and 6 read it, and the trees where they differ",
        about: &[
            "Prints a list as several versions read it, a line with all its brackets for each, then the trees where they differ, each \
             once, with a * at each node of a part that differs, and in square brackets the rule that paired a node's operands. The \
             status is 1 where the versions differ.",
        ],
        options: &[
            E,
            args::value("--at", "V,V..", "the versions; else 4,5,6"),
            SOURCE,
            args::flag(
                "--why",
                "where all versions read it alike, a last line that says why",
            ),
            args::flag(
                "--json",
                "a line of JSON for every version: version, result, tree, bracketed",
            ),
        ],
        notes: &[],
        takes: Takes::List,
        run: versions::run,
    },
    Command {
        name: "explain",
        usage: &["FILE#N", "-e LIST"],
        line: "why a list is no tree",
        about: &[
            "Prints why a list is no tree, each message with the line that it is about and signs under what it points at; with `--limit N` \
             also the bracket that opens one more than N. The status is 1 where the list is no tree.",
            "Of a text of several lines, and of a file after `--source`, each message has its place, FILE:LINE:COLUMN, both from 1, the \
             column in characters, the line and the one before it, and of what goes over several lines the first and the last.",
        ],
        options: &[
            E,
            AT,
            LIMIT,
            SOURCE,
            args::flag(
                "--json",
                "one object: version, result, source, text, messages with number, start, end, line, column and text",
            ),
        ],
        notes: &[],
        takes: Takes::List,
        run: explain::run,
    },
    Command {
        name: "draw",
        usage: &["FILE#N -o PAGE", "-e LIST -o PAGE"],
        line: "two trees side by side as a page for a browser",
        about: &[
            "Writes a page with the trees of two versions side by side, each node with the rule that paired its operands. The source \
             stands above them with what each version pairs drawn under it as brackets. The operators that are paired otherwise have the \
             number and the colour of their part, in the source, in the trees and before the sentences on it; the place of a message is \
             marked where a version reads no tree. A node under the pointer, in focus or clicked shows its piece of the source, and a \
             token its nodes. The page is one file that needs nothing from elsewhere, says all without its script, and can be printed. It \
             never takes the place of what it is drawn from.",
        ],
        options: &[
            E,
            args::value("--at", "V,V", "the two versions; else 4,6"),
            SOURCE,
            args::with(
                "-o",
                Value::File("PAGE"),
                "the page's file, or - for standard output",
            ),
        ],
        notes: &[],
        takes: Takes::List,
        run: draw::run,
    },
    Command {
        name: "report",
        usage: &["PATH.. --to V -o PAGE"],
        line: "all lists that version V reads otherwise as one page, grouped by the rule",
        about: &[
            "Writes one page on all lists of the archives that version V reads otherwise than their own: how many, and each with its text, \
             both readings with brackets round what is paired otherwise, and the list as `lift` writes it, or why it stays behind. The \
             lists stand in groups by the rule that changes them: nested conditionals, AND and OR, comparisons and equality.",
            "The page is one file that needs nothing from elsewhere. It has a table of contents and a search (/ leads to it, arrows from \
             list to list); without its script it has all lists, and each can be opened. What is open is printed in full. The status is \
             that of `diff`: 1 where not all lists are read alike.",
        ],
        options: &[
            TO_COMPARE,
            args::with(
                "-o",
                Value::File("PAGE"),
                "the page, or - for standard output; not a file or in a folder that it is about",
            ),
            args::value(
                "--most",
                "N",
                "at most so many lists of each group, 10,000 being the usual; all are counted",
            ),
            GLOB,
        ],
        notes: &[],
        takes: Takes::Files,
        run: report::run,
    },
    Command {
        name: "ops",
        usage: &[""],
        line: "the operators",
        about: &[
            "Prints the operators: number, sign or name in Molang, name in the crate, and what it does in words. The numbers 256 to 1023 \
             are the hosts' own, for names that Molang does not have; in the notation such a name is # and its number.",
        ],
        options: &[args::flag(
            "--json",
            "a line of JSON for every operator: op, name, operator, words",
        )],
        notes: &[],
        takes: Takes::Nothing,
        run: ops::run,
    },
    Command {
        name: "completions",
        usage: &["bash|zsh|fish"],
        line: "what completes these words in a shell",
        about: &[
            "Prints the completions for a shell, made from the same table as this help. `make install` puts them where the shells look \
             for them; else `source <(sorbrudder completions bash)` is enough for a session of bash.",
        ],
        options: &[],
        notes: &[],
        takes: Takes::Words(completions::SHELLS),
        run: completions::run,
    },
    Command {
        name: "man",
        usage: &[""],
        line: "the page for man, which `make install` installs",
        about: &[
            "Prints the page sorbrudder(1), made from the same table as this help; `sorbrudder man | man -l -` shows it.",
        ],
        options: &[],
        notes: &[],
        takes: Takes::Nothing,
        run: man::run,
    },
];

#[cfg(test)]
mod tests {
    use super::{COMMANDS, EVERYWHERE};

    #[test]
    fn every_command_and_every_option_is_told_of_once() {
        for command in COMMANDS {
            let name = command.name;
            assert!(
                !command.line.is_empty() && !command.about.is_empty(),
                "{name}"
            );
            assert!(!command.usage.is_empty(), "{name}");
            let same = COMMANDS.iter().filter(|other| other.name == name);
            assert_eq!(same.count(), 1, "{name}");
            let options = command.options.iter().chain(EVERYWHERE);
            let names = options.clone().flat_map(|option| option.names());
            for option in options {
                assert!(!option.says.is_empty(), "{name} {}", option.name);
                for of in option.names() {
                    let same = names.clone().filter(|other| *other == of);
                    assert_eq!(same.count(), 1, "{name} {of}");
                }
            }
        }
    }
}

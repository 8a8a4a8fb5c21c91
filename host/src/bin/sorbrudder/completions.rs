//! `sorbrudder completions`: what completes the command's words in bash, zsh and fish, made from the table of the commands.

use crate::args::{self, Args, Value};
use crate::commands::{COMMANDS, Command, EVERYWHERE, Takes};
use crate::failure::{Failure, Status};
use crate::output;

pub const SHELLS: &[&str] = &["bash", "zsh", "fish"];

pub fn run(args: &Args) -> Result<Status, Failure> {
    let [shell] = &args.rest[..] else {
        return Err(args.wrong("name one shell: bash, zsh or fish"));
    };
    match shell.to_str() {
        Some("bash") => output::print(&bash()),
        Some("zsh") => output::print(&zsh()),
        Some("fish") => output::print(&fish()),
        _ => {
            let shell = shell.to_string_lossy();
            Err(args.wrong(&format!(
                "there are completions for bash, zsh and fish, not for `{shell}`"
            )))
        }
    }
}

/// The options of a command, those of all among them.
fn options(command: &Command) -> impl Iterator<Item = &'static args::Option> + use<> {
    command.options.iter().chain(EVERYWHERE)
}

/// The names of options with blanks between them.
fn names<'o>(options: impl Iterator<Item = &'o args::Option>) -> String {
    let names: Vec<&str> = options.flat_map(args::Option::names).collect();
    names.join(" ")
}

/// The names of the commands, and `help`.
fn commands() -> String {
    let names: Vec<&str> = COMMANDS.iter().map(|command| command.name).collect();
    names.join(" ") + " help"
}

fn bash() -> String {
    let mut arms = String::new();
    for command in COMMANDS {
        let values: String = options(command).filter_map(bash_value).collect();
        let rest = match command.takes {
            Takes::Nothing => String::new(),
            Takes::Files | Takes::List => String::from("files=yes"),
            Takes::Words(words) => format!("words=\"{}\"", words.join(" ")),
        };
        let (name, names) = (command.name, names(options(command)));
        arms += &format!("        {name})\n            options=\"{names}\" {rest}\n");
        arms += &format!("            case $before in\n{values}            esac ;;\n");
    }
    let everywhere: String = EVERYWHERE.iter().filter_map(bash_value).collect();
    BASH.replace("@ARMS@", &arms)
        .replace("@EVERYWHERE@", &everywhere)
        .replace("@OPTIONS@", &names(EVERYWHERE.iter()))
        .replace("@COMMANDS@", &commands())
}

/// What bash completes after an option.
fn bash_value(option: &args::Option) -> Option<String> {
    let set = match option.value {
        Value::None => return None,
        Value::Text(_) => String::from("options= files= words="),
        Value::File(_) => String::from("options= files=yes"),
        Value::OneOf(_, words) => format!("options= files= words=\"{}\"", words.join(" ")),
    };
    let names: Vec<&str> = option.names().collect();
    Some(format!("                {}) {set} ;;\n", names.join("|")))
}

/// The function of bash, in which the words in capitals stand for what is made from the table.
const BASH: &str = r#"# Completions of sorbrudder for bash, made by `sorbrudder completions bash`.
_sorbrudder() {
    local word=${COMP_WORDS[COMP_CWORD]} before=${COMP_WORDS[COMP_CWORD-1]} command= options= words= files= i
    for ((i = 1; i < COMP_CWORD; i++)); do
        case ${COMP_WORDS[i]} in
            --color) ((i++)) ;;
            -*) ;;
            *) command=${COMP_WORDS[i]}; break ;;
        esac
    done
    case $command in
        '')
            options="@OPTIONS@" words="@COMMANDS@"
            case $before in
@EVERYWHERE@            esac ;;
        help) words="@COMMANDS@" ;;
@ARMS@    esac
    COMPREPLY=()
    if [[ $word == -* && -n $options ]]; then
        COMPREPLY=($(compgen -W "$options" -- "$word"))
    elif [[ -n $files ]]; then
        compopt -o default 2>/dev/null
    else
        COMPREPLY=($(compgen -W "$words" -- "$word"))
    fi
}
complete -F _sorbrudder sorbrudder
"#;

/// A text for a shell's quotes of one stroke.
fn quoted(text: &str) -> String {
    format!("'{}'", text.replace('\'', r"'\''"))
}

/// What is said of an option, short enough for a line of a menu: up to its first pause.
fn short(says: &str) -> &str {
    let end = says.find([';', ':', ',']).unwrap_or(says.len());
    says[..end].trim()
}

fn zsh() -> String {
    let mut arms = String::new();
    for command in COMMANDS {
        let rest = match command.takes {
            Takes::Nothing => None,
            Takes::Files | Takes::List => Some(quoted("*:file:_files")),
            Takes::Words(words) => Some(quoted(&format!("1:word:({})", words.join(" ")))),
        };
        let specs = options(command).flat_map(zsh_option).chain(rest);
        let specs: String = specs
            .map(|spec| format!(" \\\n                {spec}"))
            .collect();
        let name = command.name;
        arms += &format!("        {name})\n            _arguments -s{specs} ;;\n");
    }
    let lines = COMMANDS.iter().map(|command| {
        let line = format!("{}:{}", command.name, command.line.replace(':', r"\:"));
        format!("        {}\n", quoted(&line))
    });
    let all = EVERYWHERE.iter().flat_map(zsh_option);
    let all = all.map(|spec| format!("{spec} \\\n        "));
    ZSH.replace("@ARMS@", &arms)
        .replace("@LINES@", &lines.collect::<String>())
        .replace("@EVERYWHERE@", &all.collect::<String>())
}

/// The function of zsh, in which the words in capitals stand for what is made from the table.
const ZSH: &str = r#"#compdef sorbrudder
# Completions of sorbrudder for zsh, made by `sorbrudder completions zsh`.
_sorbrudder() {
    local curcontext=$curcontext state line
    local -a commands
    commands=(
@LINES@        'help:says more of a command'
    )
    _arguments -C \
        @EVERYWHERE@'1:command:->command' '*::word:->words' && return
    case $state in
        command) _describe command commands; return ;;
    esac
    case $line[1] in
        help) _describe command commands ;;
@ARMS@    esac
}
if [ "$funcstack[1]" = _sorbrudder ]; then
    _sorbrudder "$@"
else
    compdef _sorbrudder sorbrudder
fi
"#;

/// An option as `_arguments` takes it, one word for each of its names.
fn zsh_option(option: &args::Option) -> Vec<String> {
    let says = short(option.says)
        .replace(['[', ']'], "")
        .replace(':', r"\:");
    let value = match option.value {
        Value::None => String::new(),
        Value::Text(name) => format!(":{name}:"),
        Value::File(name) => format!(":{name}:_files"),
        Value::OneOf(name, words) => format!(":{name}:({})", words.join(" ")),
    };
    option
        .names()
        .map(|name| quoted(&format!("{name}[{says}]{value}")))
        .collect()
}

fn fish() -> String {
    let mut lines = String::from(
        "# Completions of sorbrudder for fish, made by `sorbrudder completions fish`.\n",
    );
    let none = "__fish_use_subcommand";
    for command in COMMANDS {
        let line = quoted(command.line);
        lines += &format!(
            "complete -c sorbrudder -n {none} -f -a {} -d {line}\n",
            command.name
        );
    }
    lines += &format!("complete -c sorbrudder -n {none} -f -a help -d 'says more of a command'\n");
    let help = quoted("__fish_seen_subcommand_from help");
    lines += &format!(
        "complete -c sorbrudder -n {help} -f -a {}\n",
        quoted(&commands())
    );
    lines.extend(EVERYWHERE.iter().map(|option| fish_option(option, "")));
    for command in COMMANDS {
        let seen = format!(
            " -n {}",
            quoted(&format!("__fish_seen_subcommand_from {}", command.name))
        );
        match command.takes {
            Takes::Nothing => lines += &format!("complete -c sorbrudder{seen} -f\n"),
            Takes::Files | Takes::List => {}
            Takes::Words(words) => {
                lines += &format!(
                    "complete -c sorbrudder{seen} -f -a {}\n",
                    quoted(&words.join(" "))
                );
            }
        }
        lines.extend(
            command
                .options
                .iter()
                .map(|option| fish_option(option, &seen)),
        );
    }
    lines
}

/// An option's line for fish.
fn fish_option(option: &args::Option, seen: &str) -> String {
    let names: String = option
        .names()
        .map(|name| match name.strip_prefix("--") {
            Some(long) => format!(" -l {long}"),
            None => format!(" -s {}", name.trim_start_matches('-')),
        })
        .collect();
    let value = match option.value {
        Value::None => String::new(),
        Value::Text(_) => String::from(" -x"),
        Value::File(_) => String::from(" -r -F"),
        Value::OneOf(_, words) => format!(" -x -a {}", quoted(&words.join(" "))),
    };
    format!(
        "complete -c sorbrudder{seen}{names}{value} -d {}\n",
        quoted(short(option.says))
    )
}

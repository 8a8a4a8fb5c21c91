//! The words after a command: options, their values, and the rest.

use crate::commands::EVERYWHERE;
use crate::escape;
use crate::failure::Failure;
use crate::nearest::did_you_mean;
use crate::output::{self, Colour};
use sorbrudder::Limit;
use std::borrow::Cow;
use std::ffi::{OsStr, OsString};
use std::os::unix::ffi::OsStrExt as _;
use std::path::PathBuf;

/// An option of a command: how it is written, what follows it, and what is said of it.
#[derive(Copy, Clone, Debug)]
pub struct Option {
    pub name: &'static str,
    /// Its other name, where it has one.
    other: std::option::Option<&'static str>,
    pub value: Value,
    pub says: &'static str,
}

/// What follows an option, by the name that the help has for it.
#[derive(Copy, Clone, Debug, PartialEq, Eq)]
pub enum Value {
    None,
    Text(&'static str),
    File(&'static str),
    OneOf(&'static str, &'static [&'static str]),
}

impl Value {
    pub fn name(self) -> std::option::Option<&'static str> {
        match self {
            Self::None => None,
            Self::Text(name) | Self::File(name) | Self::OneOf(name, _) => Some(name),
        }
    }
}

/// An option that is there or not.
pub const fn flag(name: &'static str, says: &'static str) -> Option {
    with(name, Value::None, says)
}

/// An option before a value.
pub const fn value(name: &'static str, value: &'static str, says: &'static str) -> Option {
    with(name, Value::Text(value), says)
}

/// An option before a value of a kind.
pub const fn with(name: &'static str, value: Value, says: &'static str) -> Option {
    Option {
        name,
        other: None,
        value,
        says,
    }
}

impl Option {
    /// The option with another name besides.
    pub const fn or(self, other: &'static str) -> Self {
        Self {
            other: Some(other),
            ..self
        }
    }

    /// Its names, the short one first.
    pub fn names(&self) -> impl Iterator<Item = &'static str> + Clone + use<> {
        self.other.into_iter().chain([self.name])
    }

    /// Its names with the name of its value.
    pub fn shown(&self) -> String {
        let names: Vec<&str> = self.names().collect();
        let value = self.value.name().map(|name| format!(" {name}"));
        names.join(", ") + &value.unwrap_or_default()
    }
}

/// Whether a word is an option, and neither a file nor a stream.
pub fn is_option(word: &OsStr) -> bool {
    let bytes = word.as_bytes();
    bytes.starts_with(b"-") && bytes != b"-" && !bytes.starts_with(b"-#")
}

/// An option's name, and the value that stands in the same word.
fn split(word: &OsStr) -> (Cow<'_, str>, std::option::Option<OsString>) {
    let bytes = word.as_bytes();
    let Some(sign) = bytes.iter().position(|byte| *byte == b'=') else {
        return (word.to_string_lossy(), None);
    };
    let value = OsStr::from_bytes(&bytes[sign + 1..]).to_os_string();
    (String::from_utf8_lossy(&bytes[..sign]), Some(value))
}

/// How many words an option that goes with every command takes; none where it is no such option.
pub fn everywhere(word: &OsStr) -> std::option::Option<usize> {
    let (name, joined) = split(word);
    let named = |option: &&Option| option.names().any(|known| known == name);
    let option = EVERYWHERE.iter().find(named)?;
    let is_next = option.value != Value::None && joined.is_none();
    Some(1 + usize::from(is_next))
}

/// The most threads that can be asked for.
const MOST_JOBS: usize = 1_024;

/// What a command was given.
#[derive(Debug)]
pub struct Args {
    command: &'static str,
    options: Vec<(&'static str, OsString)>,
    /// What is no option.
    pub rest: Vec<OsString>,
}

impl Args {
    pub fn parse(
        command: &'static str,
        known: &[Option],
        words: &[OsString],
    ) -> Result<Self, Failure> {
        let mut args = Self {
            command,
            options: Vec::new(),
            rest: Vec::new(),
        };
        let mut words = words.iter();
        while let Some(word) = words.next() {
            if word == "--" {
                args.rest.extend(words.cloned());
                break;
            }
            if is_option(word) {
                args.take(word, known, &mut words)?;
            } else {
                args.rest.push(word.clone());
            }
        }
        Ok(args)
    }

    /// An option, with its value from the same word or from the next.
    fn take<'w>(
        &mut self,
        word: &OsStr,
        known: &[Option],
        words: &mut impl Iterator<Item = &'w OsString>,
    ) -> Result<(), Failure> {
        let (name, joined) = split(word);
        let mut options = known.iter().chain(EVERYWHERE);
        let named = |option: &&Option| option.names().any(|known| known == name);
        let Some(option) = options.find(named) else {
            let options = known.iter().chain(EVERYWHERE);
            let meant = did_you_mean(&name, options.flat_map(Option::names));
            return Err(self.wrong(&format!("there is no option `{name}`{meant}")));
        };
        let value = match (option.value != Value::None, joined) {
            (true, Some(joined)) => joined,
            (true, None) => match words.next() {
                Some(value) => value.clone(),
                None => return Err(self.wrong(&format!("`{name}` lacks its value"))),
            },
            (false, None) => OsString::new(),
            (false, Some(_)) => return Err(self.wrong(&format!("`{name}` takes no value"))),
        };
        if let Value::OneOf(_, words) = option.value
            && !words.iter().any(|word| *word == value)
        {
            let (words, value) = (words.join(", "), value.to_string_lossy());
            return Err(self.wrong(&format!("`{name}` takes one of {words}, not `{value}`")));
        }
        self.options.push((option.name, value));
        Ok(())
    }

    /// Heeds what goes with every command.
    pub fn heed(&self) {
        if self.has("--quiet") {
            output::be_quiet();
        }
        output::colour(match self.value("--color").and_then(OsStr::to_str) {
            Some("always") => Colour::Always,
            Some("never") => Colour::Never,
            _ => Colour::Auto,
        });
    }

    /// A complaint about the arguments.
    pub fn wrong(&self, why: &str) -> Failure {
        let (command, why) = (self.command, escape::line(why));
        Failure::Usage(format!(
            "{command}: {why}; see `sorbrudder {command} --help`"
        ))
    }

    pub fn has(&self, name: &str) -> bool {
        self.value(name).is_some()
    }

    /// The value that was given last.
    pub fn value(&self, name: &str) -> std::option::Option<&OsStr> {
        let given = self.options.iter().rev().find(|(given, _)| *given == name);
        given.map(|(_, value)| value.as_os_str())
    }

    /// All values that were given, in their order.
    pub fn values<'a>(&'a self, name: &'a str) -> impl Iterator<Item = &'a OsStr> {
        let given = self.options.iter().filter(move |(given, _)| *given == name);
        given.map(|(_, value)| value.as_os_str())
    }

    pub fn path(&self, name: &str) -> std::option::Option<PathBuf> {
        self.value(name).map(PathBuf::from)
    }

    /// A version, where it was given.
    pub fn version(&self, name: &str) -> Result<std::option::Option<i16>, Failure> {
        let Some(value) = self.value(name) else {
            return Ok(None);
        };
        self.version_of(name, &value.to_string_lossy()).map(Some)
    }

    /// Versions with commas between them.
    pub fn versions(&self, name: &str) -> Result<std::option::Option<Vec<i16>>, Failure> {
        let Some(value) = self.value(name) else {
            return Ok(None);
        };
        let value = value.to_string_lossy();
        let versions = value.split(',').map(|word| self.version_of(name, word));
        versions.collect::<Result<_, _>>().map(Some)
    }

    fn version_of(&self, name: &str, word: &str) -> Result<i16, Failure> {
        let version = word.trim().parse();
        version.map_err(|_| {
            self.wrong(&format!(
                "`{name}` takes a version from -32768 to 32767, not `{word}`"
            ))
        })
    }

    /// A nesting limit; the greatest where none was given.
    pub fn limit(&self, name: &str) -> Result<Limit, Failure> {
        let Some(value) = self.value(name) else {
            return Ok(Limit::MOST);
        };
        let value = value.to_string_lossy();
        let limit = value.trim().parse().ok().and_then(Limit::new);
        limit.ok_or_else(|| {
            self.wrong(&format!(
                "`{name}` takes a nesting limit from 1 to {}, not `{value}`",
                Limit::MOST
            ))
        })
    }

    /// How many threads are to work: as many as `-j` says, else as the machine has.
    pub fn jobs(&self) -> Result<usize, Failure> {
        let Some(value) = self.value("-j") else {
            return Ok(std::thread::available_parallelism().map_or(1, usize::from));
        };
        let value = value.to_string_lossy();
        let jobs = value.trim().parse().ok();
        jobs.filter(|jobs| (1..=MOST_JOBS).contains(jobs))
            .ok_or_else(|| self.wrong(&format!("`-j` takes 1 to {MOST_JOBS}, not `{value}`")))
    }

    /// A version that has to be given.
    pub fn needed_version(&self, name: &str) -> Result<i16, Failure> {
        let version = self.version(name)?;
        version.ok_or_else(|| self.wrong(&format!("`{name} VERSION` is missing")))
    }
}

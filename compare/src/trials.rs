//! Inputs of a program, each with what has to be printed for it.

use crate::listing::refused;

/// An input, and what is printed for it.
pub struct Trial {
    /// What the input is.
    pub what: String,
    pub input: Vec<u8>,
    pub printed: String,
}

impl Trial {
    pub fn new(what: impl Into<String>, input: Vec<u8>, printed: impl Into<String>) -> Self {
        Self {
            what: what.into(),
            input,
            printed: printed.into(),
        }
    }

    /// An input that is turned back.
    pub fn refused(what: impl Into<String>, input: Vec<u8>, number: u32, place: usize) -> Self {
        Self::new(what, input, refused(number, place))
    }
}

/// Says for which trial a program first prints something else.
pub fn differing<'t>(
    trials: impl IntoIterator<Item = &'t Trial>,
    program: impl Fn(&[u8]) -> String,
) -> Option<String> {
    trials.into_iter().find_map(|trial| {
        let found = program(&trial.input);
        let differs = found != trial.printed;
        differs.then(|| format!("{}: {}", trial.what, first_line(&found, &trial.printed)))
    })
}

/// Panics where a program prints something else.
pub fn all_alike<'t>(
    trials: impl IntoIterator<Item = &'t Trial>,
    program: impl Fn(&[u8]) -> String,
) {
    if let Some(difference) = differing(trials, program) {
        panic!("{difference}");
    }
}

/// What a program with a mistake prints for an input.
pub type Mistaken = fn(&[u8]) -> String;

/// Panics where a mistake is not found; says by which trial it is.
pub fn all_found<'t>(
    trials: impl IntoIterator<Item = &'t Trial> + Copy,
    mistakes: impl IntoIterator<Item = (&'static str, Mistaken)>,
) {
    for (name, mistaken) in mistakes {
        match differing(trials, mistaken) {
            Some(shown) => println!("{name}: {shown}"),
            None => panic!("{name} is not found"),
        }
    }
}

/// The first line in which two texts differ.
fn first_line(found: &str, wanted: &str) -> String {
    let (mut found, mut wanted) = (found.split('\n'), wanted.split('\n'));
    let mut line = 1;
    loop {
        let (found, wanted) = (found.next(), wanted.next());
        if found != wanted || found.is_none() {
            return format!("line {line} is {found:?} and not {wanted:?}");
        }
        line += 1;
    }
}

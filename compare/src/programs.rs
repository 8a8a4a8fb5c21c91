//! The programs, run as a person runs them: where `make programs` puts them (`target/bin`), or where the environment variable of their name in
//! capitals says.

use std::env;
use std::fs::{self, File};
use std::io::Write;
use std::path::PathBuf;
use std::process::{self, Child, Command, Stdio};
use std::thread;
use std::time::Instant;

/// A program by its place.
pub struct Program {
    path: PathBuf,
}

/// What a program wrote: to standard output and to standard error.
#[derive(Debug, PartialEq, Eq)]
pub struct Said {
    pub printed: String,
    pub complained: String,
}

impl Program {
    /// By the rule of build.rs.
    pub fn named(name: &str) -> Self {
        let path = match env::var_os(name.to_uppercase()) {
            Some(path) => PathBuf::from(path),
            None => PathBuf::from(env!("CARGO_MANIFEST_DIR"))
                .join("../target/bin")
                .join(name),
        };
        Self { path }
    }

    /// By its name, where it is built; where it is not, says that it was not `done`.
    pub fn built(name: &str, done: &str) -> Option<Self> {
        let program = Self::named(name);
        if !program.path.is_file() {
            println!("{name} is not built, and was not {done}; run: make programs");
            return None;
        }
        Some(program)
    }

    /// Starts it, with pipes.
    pub fn spawn(&self) -> Child {
        let mut command = Command::new(&self.path);
        command.stdin(Stdio::piped()).stdout(Stdio::piped());
        command.spawn().expect("the program starts")
    }

    /// What it prints to an input.
    pub fn run(&self, input: &[u8]) -> String {
        self.run_pieces([input])
    }

    /// What it prints to an input that comes in pieces.
    pub fn run_pieces<'p>(
        &self,
        pieces: impl IntoIterator<Item = &'p [u8], IntoIter: Send>,
    ) -> String {
        String::from_utf8(self.write_pieces(pieces)).expect("it prints text")
    }

    /// The bytes that it writes to an input that comes in pieces.
    pub fn write_pieces<'p>(
        &self,
        pieces: impl IntoIterator<Item = &'p [u8], IntoIter: Send>,
    ) -> Vec<u8> {
        let mut child = self.spawn();
        let mut input = child.stdin.take().expect("its input is a pipe");
        let pieces = pieces.into_iter();
        // Beside the reading of its output, which would fill the pipe of a program that prints before its input has ended.
        let done = thread::scope(|scope| {
            scope.spawn(move || {
                for piece in pieces {
                    input.write_all(piece).expect("the program reads on");
                }
            });
            child.wait_with_output().expect("the program ends")
        });
        assert!(done.status.success(), "{}", done.status);
        done.stdout
    }

    /// What it says on standard error, and what it prints if its output is a pipe, with this input and this output.
    pub fn run_between(&self, input: impl Into<Stdio>, output: impl Into<Stdio>) -> Said {
        let mut command = Command::new(&self.path);
        command.stdin(input).stdout(output).stderr(Stdio::piped());
        let child = command.spawn().expect("the program starts");
        let done = child.wait_with_output().expect("the program ends");
        assert!(done.status.success(), "{}", done.status);
        let text = |bytes| String::from_utf8(bytes).expect("it prints text");
        Said {
            printed: text(done.stdout),
            complained: text(done.stderr),
        }
    }

    /// How many seconds it takes to read an input from a file and to print what nobody reads.
    pub fn seconds(&self, input: &[u8]) -> f64 {
        let path = env::temp_dir().join(format!("sorbrudder-bench-{}", process::id()));
        fs::write(&path, input).expect("a file of its input");
        let file = File::open(&path).expect("the file is there");
        fs::remove_file(&path).expect("the file is there");
        let mut command = Command::new(&self.path);
        command.stdin(file).stdout(Stdio::null());
        let since = Instant::now();
        let status = command.status().expect("the program starts");
        let seconds = since.elapsed().as_secs_f64();
        assert!(status.success(), "{status}");
        seconds
    }
}

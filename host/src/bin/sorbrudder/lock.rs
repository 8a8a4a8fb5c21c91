//! A file that one run works on at a time, and what tells that another program has changed it.

use crate::escape;
use crate::failure::Failure;
use crate::replace::one_name;
use crate::system;
use std::collections::HashSet;
use std::fs::{File, Metadata, OpenOptions};
use std::os::unix::fs::MetadataExt as _;
use std::path::Path;
use std::sync::{LazyLock, Mutex, PoisonError};

/// The files that this run has locked, under whatever name, so that it does not take itself for another run.
static LOCKED: LazyLock<Mutex<HashSet<(u64, u64)>>> = LazyLock::new(Mutex::default);

/// A file that no other run lifts in place as long as this is there.
pub struct Held {
    file: File,
    seen: Seen,
}

impl Held {
    /// Takes the lock of a file. A run replaces the file under the name that another waits at, so the name is looked at again once the
    /// lock is held.
    pub fn of(path: &Path) -> Result<Self, Failure> {
        let failed = |why| Failure::io(path, &why);
        loop {
            let file = open(path).map_err(failed)?;
            // From the lock to its entry no other thread of this run looks for it.
            let mut ours = LOCKED.lock().unwrap_or_else(PoisonError::into_inner);
            let locked = system::try_lock(&file);
            let locked = locked.map_err(|why| {
                Failure::Io(format!(
                    "{}: it cannot be locked: {why}",
                    escape::path(path)
                ))
            })?;
            let held = file.metadata().map_err(failed)?;
            let place = (held.dev(), held.ino());
            if !locked {
                if ours.contains(&place) {
                    one_name(path, &path.canonicalize().map_err(failed)?, &held)?;
                }
                let why = "another run is lifting it; nothing was written";
                return Err(Failure::Io(format!("{}: {why}", escape::path(path))));
            }
            ours.insert(place);
            drop(ours);
            if is_one_file(&held, &path.metadata().map_err(failed)?) {
                let seen = Seen::of(&held);
                return Ok(Self { file, seen });
            }
        }
    }

    /// The file as it was when the lock was taken.
    pub fn seen(&self) -> Seen {
        self.seen
    }

    /// The file, to be read.
    pub fn file(&self) -> std::io::Result<File> {
        self.file.try_clone()
    }
}

/// A network's file system locks only what could be written.
fn open(path: &Path) -> std::io::Result<File> {
    let both = OpenOptions::new().read(true).write(true).open(path);
    both.or_else(|_| File::open(path))
}

pub fn is_one_file(one: &Metadata, other: &Metadata) -> bool {
    (one.dev(), one.ino()) == (other.dev(), other.ino())
}

/// What changes where another program writes to a file or puts another in its place.
#[derive(Copy, Clone, Debug, PartialEq, Eq)]
pub struct Seen {
    file: (u64, u64),
    len: u64,
    changed: (i64, i64),
}

impl Seen {
    pub fn of(file: &Metadata) -> Self {
        Self {
            file: (file.dev(), file.ino()),
            len: file.len(),
            changed: (file.mtime(), file.mtime_nsec()),
        }
    }

    /// Whether a name leads to the file as it was seen.
    pub fn is_at(self, path: &Path) -> bool {
        path.symlink_metadata()
            .is_ok_and(|file| Self::of(&file) == self)
    }
}

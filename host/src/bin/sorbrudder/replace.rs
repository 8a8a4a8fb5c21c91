//! A file that is written beside its target, synced, and takes the target's place at once or not at all.

use crate::escape;
use crate::failure::Failure;
use crate::lock::{Seen, is_one_file};
use crate::system;
use std::collections::HashSet;
use std::fs::{File, Metadata, OpenOptions};
use std::io::{self, BufWriter, Write};
use std::os::unix::fs::{MetadataExt as _, fchown};
use std::path::{Path, PathBuf};
use std::sync::atomic::{AtomicUsize, Ordering};
use std::sync::{LazyLock, Mutex, PoisonError};

/// How many such files this process has begun.
static BEGUN: AtomicUsize = AtomicUsize::new(0);

/// The folders that this process has looked through for what other runs have left.
static SWEPT: LazyLock<Mutex<HashSet<PathBuf>>> = LazyLock::new(Mutex::default);

/// A file under way. Dropped before it is put in place, it is removed, and the target is as it was.
pub struct Replacement {
    /// The target as the user named it, for what is told.
    named: PathBuf,
    target: PathBuf,
    beside: PathBuf,
    file: BufWriter<File>,
    /// What stands under the name beside is another program's.
    is_kept: bool,
}

impl Replacement {
    /// Begins a file beside its target, which may be there or not. A link is followed, so that the file that it names is replaced. A
    /// target that has another name, or whose owner and attributes the new file cannot have, is turned back.
    pub fn of(named: &Path) -> Result<Self, Failure> {
        let failed = |why| Failure::io(named, &why);
        let there = std::fs::metadata(named).ok();
        let target = match &there {
            Some(there) if !there.is_file() => return Err(refused(named, "it is no regular file")),
            Some(there) => {
                let target = named.canonicalize().map_err(failed)?;
                one_name(named, &target, there)?;
                target
            }
            None => named.to_path_buf(),
        };
        sweep(folder_of(&target));
        let (beside, file) = begin(folder_of(&target)).map_err(|why| {
            let why = format!("no file can be written beside it: {why}");
            refused(named, &why)
        })?;
        // From here on the file is removed where something fails.
        let begun = Self {
            named: named.to_path_buf(),
            target,
            beside,
            file: BufWriter::with_capacity(1 << 16, file),
            is_kept: false,
        };
        if let Some(there) = there {
            begun.take_after(&there)?;
        }
        Ok(begun)
    }

    /// A failure to write, told of the target.
    pub fn failed(&self, why: &io::Error) -> Failure {
        Failure::io(&self.named, why)
    }

    /// Gives the new file the owner, the rights and the attributes of the target.
    fn take_after(&self, there: &Metadata) -> Result<(), Failure> {
        let file = self.file.get_ref();
        let own = file.metadata().map_err(|why| self.failed(&why))?;
        let differs = |one: u32, other: u32| (one != other).then_some(one);
        let (user, group) = (
            differs(there.uid(), own.uid()),
            differs(there.gid(), own.gid()),
        );
        if user.is_some() || group.is_some() {
            fchown(file, user, group).map_err(|why| {
                let owner = format!("user {}, group {}", there.uid(), there.gid());
                let why = format!("its owner ({owner}) cannot be kept: {why}");
                refused(&self.named, &why)
            })?;
        }
        // The owner comes first: to change it takes rights away.
        let kept = file.set_permissions(there.permissions());
        kept.map_err(|why| self.failed(&why))?;
        self.take_attributes()
    }

    fn take_attributes(&self) -> Result<(), Failure> {
        let file = self.file.get_ref();
        let target = File::open(&self.target).map_err(|why| self.failed(&why))?;
        let attributes = system::attributes(&target).map_err(|why| self.failed(&why))?;
        for (name, value) in attributes {
            // The system may have given the new file a label of its own accord.
            if system::attribute(file, &name).is_ok_and(|own| own == value) {
                continue;
            }
            system::set_attribute(file, &name, &value).map_err(|why| {
                let name = name.to_string_lossy();
                let why = format!("its attribute {name} cannot be kept: {why}");
                refused(&self.named, &why)
            })?;
        }
        Ok(())
    }

    /// Brings all that was written to the disk, and opens it to be read back.
    pub fn synced(&mut self) -> Result<File, Failure> {
        let synced = self
            .file
            .flush()
            .and_then(|()| self.file.get_ref().sync_all());
        let opened = synced.and_then(|()| File::open(&self.beside));
        opened.map_err(|why| self.failed(&why))
    }

    /// Puts the synced file in the target's place.
    pub fn put_in_place(mut self) -> Result<(), Failure> {
        self.synced()?;
        self.rename()
    }

    /// Complains where the target is not the file any more that was seen.
    pub fn check(&self, seen: Seen) -> Result<(), Failure> {
        match seen.is_at(&self.target) {
            true => Ok(()),
            false => Err(self.changed()),
        }
    }

    fn changed(&self) -> Failure {
        refused(
            &self.named,
            "another program changed it while it was lifted",
        )
    }

    /// Puts the synced file in the place of the file that was seen. What another program has put there since stays.
    pub fn put_in_place_of(mut self, seen: Seen) -> Result<(), Failure> {
        self.synced()?;
        self.check(seen)?;
        if system::exchange(&self.beside, &self.target).is_err() {
            // Not every file system can exchange two names.
            return self.rename();
        }
        // A program that had opened the file before the exchange may write to it still: the look comes after the wait for the disk.
        self.sync_folder();
        if seen.is_at(&self.beside) {
            return Ok(());
        }
        // Between the look and the exchange another program was faster: its file goes back to its name.
        self.is_kept = system::exchange(&self.beside, &self.target).is_err();
        match self.is_kept {
            true => Err(Failure::Io(format!(
                "{}: another program changed it while it was lifted; what it wrote is in {}",
                escape::path(&self.named),
                escape::path(&self.beside)
            ))),
            false => Err(self.changed()),
        }
    }

    fn rename(&self) -> Result<(), Failure> {
        let renamed = std::fs::rename(&self.beside, &self.target);
        renamed.map_err(|why| self.failed(&why))?;
        self.sync_folder();
        Ok(())
    }

    /// The name is on the disk once its folder is. Not every system can sync one, and the file is whole either way.
    fn sync_folder(&self) {
        let _ = File::open(folder_of(&self.target)).and_then(|folder| folder.sync_all());
    }
}

impl Write for Replacement {
    fn write(&mut self, bytes: &[u8]) -> io::Result<usize> {
        self.file.write(bytes)
    }

    fn flush(&mut self) -> io::Result<()> {
        self.file.flush()
    }
}

impl Drop for Replacement {
    fn drop(&mut self) {
        // After a rename there is nothing to remove, and after an exchange the old file.
        if !self.is_kept {
            let _ = std::fs::remove_file(&self.beside);
        }
    }
}

/// Why a target is not replaced.
fn refused(named: &Path, why: &str) -> Failure {
    Failure::Io(format!(
        "{}: {why}; nothing was written",
        escape::path(named)
    ))
}

/// A new file takes the place of one name: of a file that has two, the other would lead to the old one. A backup that a run has left before
/// it was ended is such a name, and meant to be.
pub fn one_name(named: &Path, target: &Path, there: &Metadata) -> Result<(), Failure> {
    let backup = std::fs::symlink_metadata(backup_of(target));
    let is_kept = backup.is_ok_and(|backup| is_one_file(&backup, there));
    match there.nlink() - u64::from(is_kept) {
        0 | 1 => Ok(()),
        names => {
            let why = format!(
                "it has {names} names (hard links), and only one would lead to the new file"
            );
            Err(refused(named, &why))
        }
    }
}

/// A new file in a folder, locked as long as this run is at work on it. A name that is taken is passed by, and so is one that another run
/// has just taken for left over.
fn begin(folder: &Path) -> io::Result<(PathBuf, File)> {
    loop {
        let number = BEGUN.fetch_add(1, Ordering::Relaxed);
        let beside = folder.join(format!(".sorbrudder-{}-{number}.tmp", std::process::id()));
        let mut new = OpenOptions::new();
        let file = match new.write(true).create_new(true).open(&beside) {
            Err(why) if why.kind() == io::ErrorKind::AlreadyExists => continue,
            file => file?,
        };
        let is_ours =
            || is_one_file(&file.metadata().ok()?, &beside.metadata().ok()?).then_some(());
        match system::try_lock(&file) {
            Ok(true) if is_ours().is_some() => return Ok((beside, file)),
            Ok(_) => {}
            // Where nothing can be locked, nothing is taken for left over.
            Err(_) => return Ok((beside, file)),
        }
    }
}

/// Removes from a folder what runs have left that were ended before their end: the files that nobody holds. Each folder is looked through
/// once a run; what cannot be looked at or removed stays.
fn sweep(folder: &Path) {
    let mut swept = SWEPT.lock().unwrap_or_else(PoisonError::into_inner);
    if !swept.insert(folder.to_path_buf()) {
        return;
    }
    let Ok(entries) = std::fs::read_dir(folder) else {
        return;
    };
    let names = entries.filter_map(|entry| Some(entry.ok()?.file_name()));
    for name in names.filter(|name| is_beside(&name.to_string_lossy())) {
        let left = folder.join(name);
        let is_left = || {
            let file = File::open(&left).ok()?;
            let is_free = system::try_lock(&file).ok()?;
            // Another run may have removed it since, and a third have begun one of this name.
            (is_free && file.metadata().ok()?.nlink() > 0).then_some(file)
        };
        if let Some(_held) = is_left() {
            let _ = std::fs::remove_file(&left);
        }
    }
}

/// Whether a file is named as this command names what it writes beside a target.
fn is_beside(name: &str) -> bool {
    let numbers = name
        .strip_prefix(".sorbrudder-")
        .and_then(|name| name.strip_suffix(".tmp")?.split_once('-'));
    let is_number = |text: &str| !text.is_empty() && text.bytes().all(|byte| byte.is_ascii_digit());
    numbers.is_some_and(|(process, file)| is_number(process) && is_number(file))
}

fn folder_of(file: &Path) -> &Path {
    match file.parent() {
        Some(folder) if folder != Path::new("") => folder,
        _ => Path::new("."),
    }
}

/// The name that a file is kept under: `NAME.bak`.
pub fn backup_of(file: &Path) -> PathBuf {
    let mut name = file.as_os_str().to_os_string();
    name.push(".bak");
    PathBuf::from(name)
}

/// Keeps a file under another name as well, which has to be free or to be the file's already.
pub fn back_up(file: &Path) -> Result<(), Failure> {
    let backup = backup_of(file);
    let failed = |why| Failure::Io(format!("the backup {}: {why}", escape::path(&backup)));
    // A second name of a link would be a link too, and lead to the new file: the file itself is kept.
    let there = file.canonicalize().map_err(failed)?;
    let failed = match std::fs::hard_link(&there, &backup) {
        Ok(()) => return Ok(()),
        Err(why) => failed(why),
    };
    let names = (there.metadata(), backup.symlink_metadata());
    match names {
        (Ok(there), Ok(backup)) if is_one_file(&there, &backup) => Ok(()),
        _ => Err(failed),
    }
}

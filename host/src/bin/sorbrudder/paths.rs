//! The files that a command is to go through.

use crate::args::Args;
use crate::escape;
use crate::failure::Failure;
use crate::glob::Globs;
use crate::output::tell;
use sorbrudder::archive::{ArchiveError, Damage, Lists};
use std::fs::File;
use std::path::{Path, PathBuf};

/// Standard input or output.
pub fn is_stream(path: &Path) -> bool {
    path.as_os_str() == "-"
}

/// Where a path leads, links followed; of what is not there yet, where it would come to be.
pub fn place_of(path: &Path) -> PathBuf {
    if let Ok(place) = path.canonicalize() {
        return place;
    }
    match (path.parent(), path.file_name()) {
        (Some(folder), Some(name)) if folder != Path::new("") => place_of(folder).join(name),
        (Some(_), Some(name)) => place_of(Path::new(".")).join(name),
        _ => path.to_path_buf(),
    }
}

/// What a command is to go through.
#[derive(Debug, Default)]
pub struct Found {
    /// The files in the order in which they are given, those of a folder by name.
    pub files: Vec<PathBuf>,
    /// How many files of folders are no archives.
    pub skipped: u64,
}

impl Found {
    /// Says how many files were no archives.
    pub fn tell(&self) {
        if self.skipped > 0 {
            let skipped = self.skipped;
            tell(&format!(
                "{skipped} files were skipped: they are no archives"
            ));
        }
    }
}

/// The files of the paths that are given. Of a folder's files those are passed over whose names begin with a dot or end in `.bak`, and
/// those that `--glob` leaves out; those that are no archives are counted. A folder with nothing to read is a wrong argument.
pub fn find(args: &Args) -> Result<Found, Failure> {
    let patterns = args.values("--glob");
    let globs = Globs::of(patterns.map(|pattern| pattern.as_encoded_bytes()));
    let mut found = Found::default();
    for path in args.rest.iter().map(PathBuf::from) {
        if is_stream(&path) || !path.is_dir() {
            found.files.push(path);
            continue;
        }
        let before = found.files.len();
        for file in files_of(&path)? {
            let below = file.strip_prefix(&path).unwrap_or(&file);
            if !globs.fit(below) {
                continue;
            }
            match is_other(&file) {
                true => found.skipped += 1,
                false => found.files.push(file),
            }
        }
        if found.files.len() == before {
            let path = escape::path(&path);
            return Err(args.wrong(&format!("there is no archive to read in {path}")));
        }
    }
    Ok(found)
}

/// Whether a file is no archive, and no damaged one either: it begins neither as a container nor with a version. One that cannot be opened
/// is told of when it is to be read.
fn is_other(file: &Path) -> bool {
    let lists = File::open(file).map(Lists::new);
    matches!(
        lists,
        Ok(Err(ArchiveError::Damaged {
            damage: Damage::NoArchive,
            byte: 0,
            ..
        }))
    )
}

/// The files of a folder and of the folders in it.
fn files_of(folder: &Path) -> Result<Vec<PathBuf>, Failure> {
    let failed = |why| Failure::io(folder, &why);
    let mut files = Vec::new();
    let entries = std::fs::read_dir(folder).map_err(failed)?;
    let mut paths = Vec::new();
    for entry in entries {
        paths.push(entry.map_err(failed)?.path());
    }
    paths.sort();
    for path in paths.into_iter().filter(|path| !is_passed_over(path)) {
        // A link to a folder is not followed, so that the walk ends.
        let kind = std::fs::symlink_metadata(&path).map_err(|why| Failure::io(&path, &why))?;
        if kind.is_dir() {
            files.extend(files_of(&path)?);
        } else if path.is_file() || is_dangling(&path) {
            files.push(path);
        }
    }
    Ok(files)
}

/// Whether a path is a link that leads nowhere.
pub fn is_dangling(path: &Path) -> bool {
    path.is_symlink() && path.metadata().is_err()
}

fn is_passed_over(path: &Path) -> bool {
    let name = path.file_name().unwrap_or_default().to_string_lossy();
    name.starts_with('.') || name.ends_with(".bak")
}

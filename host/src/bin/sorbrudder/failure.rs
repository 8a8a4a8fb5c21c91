//! How the command ends.

use crate::escape;
use sorbrudder::archive::ArchiveError;
use std::io;
use std::path::Path;

/// The exit status; the higher one counts where there are several.
#[derive(Copy, Clone, Debug, Default, PartialEq, Eq, PartialOrd, Ord)]
pub enum Status {
    #[default]
    Well = 0,
    /// Some lists differ, stayed behind or are no trees.
    Found = 1,
    Usage = 2,
    Io = 3,
    Damaged = 4,
}

/// Why a command ends before its end.
#[derive(Debug)]
pub enum Failure {
    /// The arguments are wrong.
    Usage(String),
    /// A list is not as the command needs it.
    Found(String),
    /// The system refuses a file.
    Io(String),
    /// An archive is damaged.
    Damaged(String),
    /// Nobody reads the output any more.
    Closed,
    /// Nobody reads the archive that is written any more: it is cut.
    Cut,
}

impl Failure {
    pub fn status(&self) -> Status {
        match self {
            Self::Usage(_) => Status::Usage,
            Self::Found(_) => Status::Found,
            Self::Io(_) | Self::Cut => Status::Io,
            Self::Damaged(_) => Status::Damaged,
            Self::Closed => Status::Well,
        }
    }

    /// What there is to say.
    pub fn text(&self) -> Option<&str> {
        match self {
            Self::Usage(why) | Self::Found(why) | Self::Io(why) | Self::Damaged(why) => Some(why),
            Self::Closed | Self::Cut => None,
        }
    }

    pub fn io(file: &Path, why: &io::Error) -> Self {
        Self::Io(format!("{}: {why}", escape::path(file)))
    }

    pub fn archive(file: &Path, why: &ArchiveError) -> Self {
        let text = format!("{}: {why}", escape::path(file));
        match why {
            ArchiveError::Damaged { .. } => Self::Damaged(text),
            _ => Self::Io(text),
        }
    }
}

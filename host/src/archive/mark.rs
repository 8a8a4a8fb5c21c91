//! Places between two lists of a container, so that several can read it at once.

use super::Totals;
use super::checksum::Checksum;

/// A place between two lists of a container, with all that a reader knows there: how many lists and words were before it, and the checksum
/// of their checksums. Equal marks are equal places after lists with equal checksums.
///
/// ```
/// use sorbrudder::archive::{Format, Lists, ListsWriter};
///
/// let mut writer = ListsWriter::new(Vec::new(), Format::Container)?;
/// writer.write(4, &[])?;
/// let mark = writer.mark().expect("a container");
/// writer.write(6, &[1 << 29])?;
/// let (bytes, _) = writer.finish()?;
///
/// // The first part is read up to the mark, the second from there on.
/// let mut first = Lists::new(&bytes[..])?;
/// first.next_list()?;
/// assert_eq!(first.mark(), Some(mark));
/// let mut second = Lists::from_mark(&bytes[mark.byte() as usize..], mark);
/// assert_eq!(second.next_list()?.map(|list| (list.number, list.version)), Some((1, 6)));
/// assert!(second.next_list()?.is_none());
/// # Ok::<(), sorbrudder::archive::ArchiveError>(())
/// ```
#[derive(Copy, Clone, Debug, PartialEq, Eq)]
pub struct Mark {
    totals: Totals,
    sums: u32,
}

impl Mark {
    pub(super) fn of(totals: Totals, sums: Checksum) -> Self {
        let sums = sums.value();
        Self { totals, sums }
    }

    pub(super) fn totals(self) -> Totals {
        self.totals
    }

    pub(super) fn sums(self) -> Checksum {
        Checksum::from_value(self.sums)
    }

    /// Its byte in the container.
    ///
    /// ```
    /// use sorbrudder::archive::{Format, ListsWriter};
    ///
    /// let mut writer = ListsWriter::new(Vec::new(), Format::Container).unwrap();
    /// writer.write(6, &[]).unwrap();
    /// assert_eq!(writer.mark().map(|mark| mark.byte()), Some(16 + 12));
    /// ```
    pub fn byte(self) -> u64 {
        // The head has four words, and each list three beside its own.
        16 + 4 * (3 * self.totals.lists + self.totals.words)
    }
}

use std::fmt;

use crate::layout::FILE_LIMIT;
use crate::numbers::FileId;

/// A set of files, shown as `{0, 1}`, and with `{:x}` as a deck has it.
///
/// An element with an empty set has none of its own: it is where its parent is.
#[derive(Clone, Copy, Default, PartialEq, Eq, Hash)]
pub struct FileSet {
    bits: u64,
}

impl FileSet {
    /// The set of no file.
    pub const EMPTY: FileSet = FileSet { bits: 0 };

    /// The set of a number that has bit f for file f.
    ///
    /// ```
    /// use zapelaritz::{FileId, FileSet};
    ///
    /// assert_eq!(FileSet::from_bits(0b101), FileSet::from_iter([FileId(0), FileId(2)]));
    /// ```
    pub const fn from_bits(bits: u64) -> FileSet {
        FileSet { bits }
    }

    /// The set as a number, with bit f for file f.
    ///
    /// ```
    /// use zapelaritz::{FileId, FileSet};
    ///
    /// assert_eq!(FileSet::from_iter([FileId(4)]).bits(), 0x10);
    /// ```
    pub const fn bits(self) -> u64 {
        self.bits
    }

    /// Whether the file is in the set.
    ///
    /// ```
    /// use zapelaritz::{FileId, FileSet};
    ///
    /// let set = FileSet::from_bits(1);
    /// assert!(set.contains(FileId(0)));
    /// assert!(!set.contains(FileId(64)));
    /// ```
    pub const fn contains(self, file: FileId) -> bool {
        file.0 < FILE_LIMIT as u64 && (self.bits >> file.0) & 1 == 1
    }

    /// The set with a file in it. A number over 63 is no file's, and is left out.
    ///
    /// ```
    /// use zapelaritz::{FileId, FileSet};
    ///
    /// let set = FileSet::EMPTY.with(FileId(1)).with(FileId(63));
    /// assert_eq!(set.to_string(), "{1, 63}");
    /// assert_eq!(set.with(FileId(64)), set);
    /// ```
    #[must_use]
    pub const fn with(self, file: FileId) -> FileSet {
        if file.0 < FILE_LIMIT as u64 {
            FileSet::from_bits(self.bits | 1 << file.0)
        } else {
            self
        }
    }

    /// Whether every file of this set is in the other.
    ///
    /// ```
    /// use zapelaritz::FileSet;
    ///
    /// assert!(FileSet::from_bits(2).is_subset(FileSet::from_bits(3)));
    /// assert!(!FileSet::from_bits(4).is_subset(FileSet::from_bits(3)));
    /// ```
    pub const fn is_subset(self, other: FileSet) -> bool {
        self.bits & other.bits == self.bits
    }

    /// How many files are in the set.
    ///
    /// ```
    /// assert_eq!(zapelaritz::FileSet::from_bits(0xf0).len(), 4);
    /// ```
    pub const fn len(self) -> usize {
        self.bits.count_ones() as usize
    }

    /// Whether no file is in the set.
    ///
    /// ```
    /// assert!(zapelaritz::FileSet::EMPTY.is_empty());
    /// ```
    pub const fn is_empty(self) -> bool {
        self.bits == 0
    }

    /// The files, in ascending order.
    ///
    /// ```
    /// use zapelaritz::{FileId, FileSet};
    ///
    /// assert!(FileSet::from_bits(0b1010).iter().eq([FileId(1), FileId(3)]));
    /// ```
    pub fn iter(self) -> impl DoubleEndedIterator<Item = FileId> + Clone {
        (0..FILE_LIMIT as u64)
            .map(FileId)
            .filter(move |file| self.contains(*file))
    }
}

/// As [`FileSet::with`], file by file.
impl FromIterator<FileId> for FileSet {
    fn from_iter<I: IntoIterator<Item = FileId>>(files: I) -> FileSet {
        files.into_iter().fold(FileSet::EMPTY, FileSet::with)
    }
}

impl fmt::Display for FileSet {
    fn fmt(&self, f: &mut fmt::Formatter<'_>) -> fmt::Result {
        f.debug_set().entries(self.iter().map(FileId::get)).finish()
    }
}

impl fmt::Debug for FileSet {
    fn fmt(&self, f: &mut fmt::Formatter<'_>) -> fmt::Result {
        fmt::Display::fmt(self, f)
    }
}

/// The set as a deck has it.
impl fmt::LowerHex for FileSet {
    fn fmt(&self, f: &mut fmt::Formatter<'_>) -> fmt::Result {
        fmt::LowerHex::fmt(&self.bits, f)
    }
}

#[cfg(test)]
mod tests {
    use super::*;

    fn numbers(files: impl Iterator<Item = FileId>) -> Vec<u64> {
        files.map(FileId::get).collect()
    }

    #[test]
    fn bits_are_files() {
        let set = FileSet::from_bits(1 << 63 | 0b1010);
        assert_eq!(numbers(set.iter()), [1, 3, 63]);
        assert_eq!(numbers(set.iter().rev()), [63, 3, 1]);
        assert_eq!(set.len(), 3);
        assert!(set.contains(FileId(63)));
        for other in [0, 64, 65, 127, u64::MAX] {
            assert!(!set.contains(FileId(other)));
        }
        assert!(!set.is_empty());
        assert_eq!(format!("{set:x}"), "800000000000000a");
        assert_eq!(format!("{set:?}"), "{1, 3, 63}");
        assert_eq!(set.to_string(), "{1, 3, 63}");
    }

    #[test]
    fn empty_set() {
        let set = FileSet::default();
        assert_eq!(set, FileSet::EMPTY);
        assert!(set.is_empty());
        assert_eq!(set.bits(), 0);
        assert_eq!(set.iter().next(), None);
        assert_eq!(format!("{set:x}"), "0");
        assert_eq!(set.to_string(), "{}");
    }

    #[test]
    fn sets_are_made_of_files() {
        let set: FileSet = [3, 0, 64, 3, u64::MAX, 63]
            .map(FileId)
            .into_iter()
            .collect();
        assert_eq!(numbers(set.iter()), [0, 3, 63]);
        assert!(FileSet::from_bits(9).is_subset(set));
        assert!(!set.is_subset(FileSet::from_bits(9)));
        assert!(FileSet::EMPTY.is_subset(FileSet::EMPTY));
    }
}

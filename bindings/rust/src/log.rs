use std::fmt;
use std::iter::FusedIterator;

use crate::file_set::FileSet;
use crate::layout::log::{
    ELEMENT, ENTRIES, IMPORT, KIND, OLD_PARENT, OLD_SET, PARENT_OR_FILE, RESTRICTION,
};
use crate::model::{Counts, Model};
use crate::numbers::{ElementId, FileId, Mark};

/// An entry of the log: one thing that a merge did, and is counted for. It is shown as its line in
/// [`log_lines`](Model::log_lines).
#[derive(Clone, Copy, Debug, PartialEq, Eq, Hash)]
pub enum Entry {
    /// An element was imported.
    Import {
        /// The element.
        element: ElementId,
        /// Its parent in the model.
        parent: ElementId,
        /// Its parent before.
        old_parent: Option<ElementId>,
        /// Its set before.
        old_files: FileSet,
    },
    /// An element was restricted to the older files.
    Restriction {
        /// The element.
        element: ElementId,
        /// Its set before.
        old_files: FileSet,
    },
    /// An element's set was extended by a file. The root's extension ends a merge.
    Extension {
        /// The element.
        element: ElementId,
        /// The file.
        file: FileId,
    },
}

impl Entry {
    pub(crate) fn read(log: &[u64], entry: usize) -> Entry {
        let cell = |field| ENTRIES.cell(log, entry, field);
        let element = ElementId(cell(ELEMENT));
        let old_files = FileSet::from_bits(cell(OLD_SET));
        match cell(KIND) {
            IMPORT => Entry::Import {
                element,
                parent: ElementId(cell(PARENT_OR_FILE)),
                old_parent: cell(OLD_PARENT).checked_sub(1).map(ElementId),
                old_files,
            },
            RESTRICTION => Entry::Restriction { element, old_files },
            _ => Entry::Extension {
                element,
                file: FileId(cell(PARENT_OR_FILE)),
            },
        }
    }

    /// The element that was imported, restricted or extended.
    ///
    /// ```
    /// use zapelaritz::{ElementId, Entry, FileId};
    ///
    /// let entry = Entry::Extension { element: ElementId(4), file: FileId(1) };
    /// assert_eq!(entry.element(), ElementId(4));
    /// ```
    pub const fn element(&self) -> ElementId {
        match *self {
            Entry::Import { element, .. }
            | Entry::Restriction { element, .. }
            | Entry::Extension { element, .. } => element,
        }
    }
}

impl fmt::Display for Entry {
    fn fmt(&self, f: &mut fmt::Formatter<'_>) -> fmt::Result {
        match *self {
            Entry::Import {
                element,
                parent,
                old_parent,
                old_files,
            } => {
                let old_parent = old_parent.map_or("-".to_string(), |parent| parent.to_string());
                write!(f, "import,{element},{parent},{old_parent},{old_files:x}")
            }
            Entry::Restriction { element, old_files } => {
                write!(f, "restriction,{element},{old_files:x}")
            }
            Entry::Extension { element, file } => write!(f, "extension,{element},{file}"),
        }
    }
}

/// An accepted merge that no rollback has taken back.
#[derive(Clone, Copy, Debug, PartialEq, Eq, Hash)]
#[non_exhaustive]
pub struct StandingMerge {
    /// The file that was merged.
    pub file: FileId,
    /// What the merge did, as it reported.
    pub counts: Counts,
    /// The mark before it: a rollback to it takes this merge and all behind it back.
    pub before: Mark,
    /// The mark behind it: a rollback to it lets this merge stand, and takes all behind it back.
    pub after: Mark,
}

impl fmt::Display for StandingMerge {
    fn fmt(&self, f: &mut fmt::Formatter<'_>) -> fmt::Result {
        let (before, after) = (self.before, self.after);
        write!(
            f,
            "file {}: {}, marks {before} to {after}",
            self.file, self.counts
        )
    }
}

/// The merges that stand, the oldest first; [`Model::standing_merges`] makes it.
#[derive(Clone, Debug)]
pub struct StandingMerges<'a> {
    model: &'a Model,
    /// The mark behind those that were given.
    mark: Mark,
}

impl<'a> StandingMerges<'a> {
    pub(crate) fn new(model: &'a Model) -> StandingMerges<'a> {
        let mark = Mark::START;
        StandingMerges { model, mark }
    }
}

impl Iterator for StandingMerges<'_> {
    type Item = StandingMerge;

    fn next(&mut self) -> Option<StandingMerge> {
        let before = self.mark;
        let mut counts = Counts::default();
        for entry in self.model.log_between(before, self.model.mark()) {
            match entry {
                Entry::Import { .. } => counts.imports += 1,
                Entry::Restriction { .. } => counts.restrictions += 1,
                Entry::Extension { .. } => counts.extensions += 1,
            }
            if let Entry::Extension {
                element: ElementId::ROOT,
                file,
            } = entry
            {
                let after = Mark(before.0.saturating_add(counts.total()));
                self.mark = after;
                return Some(StandingMerge {
                    file,
                    counts,
                    before,
                    after,
                });
            }
        }
        None
    }
}

impl FusedIterator for StandingMerges<'_> {}

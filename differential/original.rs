//! The original's functions, as `cut` wrote them, and what opens them to the rest of the run.

use std::any::Any;
use std::cell::RefCell;
use std::collections::{HashMap, HashSet};
use std::hash::Hash;
use std::ops::{Deref, DerefMut};
use std::sync::{Arc, Weak};
use std::time::Duration;
use std::vec::Vec as StdVec;

use crate::stand_ins::*;

include!(env!("ORIGINAL"));

/// Stands in for the original's `Vec`, and keeps the undo log, which the original drops at the end of a merge.
struct Vec<T: 'static>(StdVec<T>);

thread_local! {
    static LOG: RefCell<StdVec<MergeUndo>> = const { RefCell::new(StdVec::new()) };
}

impl<T> Drop for Vec<T> {
    fn drop(&mut self) {
        let list: &mut dyn Any = &mut self.0;
        if let Some(log) = list.downcast_mut::<StdVec<MergeUndo>>() {
            LOG.set(std::mem::take(log));
        }
    }
}

impl<T> Vec<T> {
    fn new() -> Vec<T> {
        Vec(StdVec::new())
    }
}

impl<T> Deref for Vec<T> {
    type Target = StdVec<T>;

    fn deref(&self) -> &StdVec<T> {
        &self.0
    }
}

impl<T> DerefMut for Vec<T> {
    fn deref_mut(&mut self) -> &mut StdVec<T> {
        &mut self.0
    }
}

impl<T> IntoIterator for Vec<T> {
    type Item = T;
    type IntoIter = std::vec::IntoIter<T>;

    fn into_iter(mut self) -> Self::IntoIter {
        std::mem::take(&mut self.0).into_iter()
    }
}

pub fn merge(
    model: &AutosarModel,
    new_root: &Element,
    new_file: &ArxmlFile,
    loaded: &[ArxmlFile],
) -> Result<(), AutosarDataError> {
    model.merge_file_data(new_root, new_file.downgrade(), loaded)
}

/// Undoes the latest merge.
pub fn roll_back() {
    AutosarModel::rollback_merge(&mut Vec(LOG.take()), 0);
}

/// The undo log of a merge: its entries as lines, the oldest first, and their counts.
#[derive(Default)]
pub struct Log {
    pub lines: String,
    pub imports: u64,
    pub restrictions: u64,
    pub extensions: u64,
}

/// What the latest merge left in its undo log.
pub fn log() -> Log {
    let mut log = Log::default();
    for action in LOG.take() {
        log.lines += &match action {
            MergeUndo::Imported { new_parent, element, old_parent, old_file_membership } => {
                log.imports += 1;
                let old_parent = parent_number(&old_parent).map_or("-".into(), |number| number.to_string());
                let old_set = set_number(&old_file_membership);
                format!("import,{},{},{old_parent},{old_set:x}\n", number(&element), number(&new_parent))
            }
            MergeUndo::FileMembership { element, old_file_membership } => {
                log.restrictions += 1;
                format!("restriction,{},{:x}\n", number(&element), set_number(&old_file_membership))
            }
            MergeUndo::FileMembershipExtended { element, file } => {
                log.extensions += 1;
                format!("extension,{},{}\n", number(&element), file_number(&file))
            }
        };
    }
    log
}

fn number(element: &Element) -> u64 {
    element.0.read().number
}

pub fn parent_number(parent: &ElementOrModel) -> Option<u64> {
    match parent {
        ElementOrModel::Element(parent, _) => parent.upgrade().map(|parent| number(&parent)),
        _ => None,
    }
}

/// The set of files as a number, with bit f for file f.
pub fn set_number(files: &HashSet<WeakArxmlFile>) -> u64 {
    files.iter().map(|file| 1 << file_number(file)).sum()
}

fn file_number(file: &WeakArxmlFile) -> u64 {
    file.upgrade().map_or(0, |file| file.0.read().number)
}

//! Faults on purpose in what stands in for the original's surroundings, one at a time: the run has to notice each.

use std::sync::atomic::{AtomicUsize, Ordering};

macro_rules! faults {
    ($($fault:ident: $words:literal,)*) => {
        #[derive(Clone, Copy)]
        pub enum Fault {
            $($fault,)*
        }

        /// What each one is.
        pub const FAULTS: &[&str] = &[$($words,)*];
    };
}

faults! {
    MaskIgnored: "find_sub_element: the mask is not asked",
    MaskOfNextVersion: "find_sub_element: the mask is asked for the next version",
    MaskContains: "find_sub_element: a row has to have every version that is asked",
    PathsReversed: "path order reversed",
    PathsAsText: "path order: parts ordered as text, 10 before 2",
    GroupTooLong: "find_common_group: last parts counted",
    GroupTooShort: "find_common_group: one part too short",
    GroupIsType: "find_common_group: the type itself",
    GroupOfFirstPath: "find_common_group: the innermost group of the new path",
    SplitOfNextVersion: "splittable_in: the bit of the next version",
    SplitInSome: "splittable_in: in some version",
    SplitOfChoice: "splittable_in: choices always are",
    NanUnequal: "text equality: NaN unequal to NaN",
    ZerosUnequal: "text equality: -0 unequal to 0",
    KindsEqual: "text equality: an enum number equals the whole number",
    StringsByLength: "text equality: strings of equal length are equal",
    DefinitionOfNumber: "string_value: a whole number has one too",
    MultOneIsAny: "multiplicity: one is any",
    MultOptionalIsAny: "multiplicity: at most one is any",
    MultOfFirstRow: "multiplicity: that of the type's first row",
    ModeOfFirstGroup: "content mode of a group: that of the type's first group",
    BagIsSequence: "content mode: a bag is a sequence",
    MixedIsBag: "content mode: mixed is a bag",
    ChoiceIsSequence: "content mode: a choice is a sequence",
    AllNamed: "is_named: every type",
    NoneNamed: "is_named: no type",
    ChildrenEndAtText: "sub_elements: a text ends them",
    GreatestVersion: "versions in reverse order",
    VersionOfFirstFile: "files: all of the first file's version",
    FilesOfAll: "files: all that are declared are loaded",
}

static FAULT: AtomicUsize = AtomicUsize::new(0);

/// Switches the n-th fault on, from 1, and every other off. 0 for none.
pub fn switch(number: usize) {
    FAULT.store(number, Ordering::Relaxed);
}

pub fn fault(fault: Fault) -> bool {
    FAULT.load(Ordering::Relaxed) == fault as usize + 1
}

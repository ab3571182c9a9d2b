//! Faults on purpose.

use std::sync::atomic::{AtomicU32, Ordering};

static FAULT: AtomicU32 = AtomicU32::new(0);

/// Puts the n-th of `FAULTS`, from 1, into the rules, and takes any other out. 0 for none.
pub fn set_fault(n: u32) {
    FAULT.store(n, Ordering::Relaxed);
}

pub(super) fn faulty(fault: Fault) -> bool {
    FAULT.load(Ordering::Relaxed) == fault as u32 + 1
}

macro_rules! faults {
    ($($fault:ident: $what:literal,)*) => {
        #[derive(Clone, Copy)]
        pub(super) enum Fault {
            $($fault,)*
        }

        /// Small wrong changes of the rules, each at one place.
        pub const FAULTS: &[&str] = &[$($what,)*];
    };
}

faults! {
    RowBeginsGroup: "load: an S path may equal or begin a G path",
    TreeTwice: "load: a file may have two trees",
    AnyChildSet: "load: a child's set may be any",
    InnerGroups: "range: the type's mode for its inner groups",
    MaskIgnored: "range: a name is known in every version",
    OldNotInVersion: "range: an element not in the version does not count",
    StopInnerOnly: "range: a stop in an inner group does not end the reading",
    MultOneAllowed: "range: an equal path of mult 1 is no conflict",
    GreaterMovesLast: "range: a greater path moves the last place alone",
    EqualMovesBoth: "range: an equal path moves both places",
    ChoiceEqual: "range: an equal path in a choice is always a conflict",
    ChoiceOther: "range: another path in a choice is no conflict",
    NanUnequal: "texts: a NaN equals nothing",
    FloatBits: "texts: floats are equal by their bits",
    MissingTextEqual: "texts: a missing text equals every text",
    TextsIgnored: "walk: texts are not compared",
    TextsAfterSearch: "walk: texts are compared after a search by definition",
    UnequalTexts: "walk: B-only where texts are unequal",
    FirstChild: "walk: identifiable by the first child, not the first content",
    UnnamedNotIdentifiable: "walk: not identifiable without an item name",
    NamedIgnored: "walk: identifiable though the type is not named",
    AnyDefinition: "walk: the first definition with a string, not the first child's",
    MissingNames: "walk: missing item names are unequal",
    MissingDefinitions: "walk: missing definitions are unequal",
    SearchFromCursor: "walk: a search begins at the cursor",
    SearchUnused: "walk: a search passes over paired siblings",
    NameOrder: "walk: names are ordered by number, not by path",
    NotFoundAlone: "walk: an item name not found is A-only in any parent",
    WalkConflict: "walk: its refusal 6 is a conflict",
    SplitInNewVersion: "walk, fallback: splittable is asked in the new file's version",
    ContentIndex: "walk: a B-only child's position is a content index",
    SkippedTakesIndex: "walk: a skipped child takes an index",
    LeftOverChildren: "walk: left-over B behind as many items as A has children",
    LeftOverPaired: "walk: a paired left-over B is imported",
    UsedTwice: "8 is not asked",
    LastUsedTwice: "8 names the last such child",
    ImportsInLevelVersion: "import: ranges in the level's version",
    IndexLeftOut: "import: the index in the B-only list is left out",
    NotClampedUp: "import: not moved up to the first place",
    NotClampedDown: "import: not moved down to the last place",
    ImportKeepsFiles: "import: the level's files are added to the set",
    SevenIsConflict: "import: 7 is a conflict",
    ItemsOneMore: "10 comes one item late",
    LogOneMore: "9 comes one entry late",
    NewVersionIgnored: "level: its version is the least of its files alone",
    RootFiles: "level: A-only elements get the root's files",
    SetsRestricted: "level: A-only elements with a set are restricted too",
    TextsKept: "level: a paired B's mixed texts are kept",
    LevelFiles: "pair: its files are always the level's",
    ExtendsAll: "pair: an A without a set is extended too",
    KeyAfterRollback: "key test: on the list without the level's imports",
    KeyDefinition: "key test: a DEFINITION-REF does not count",
    KeyNeedsString: "key test: a DEFINITION-REF without a string does not count",
    KeyElement: "key test: 6 names the pair's A",
    PassingElement: "a conflict passed up names the list that it reaches",
    FallbackKeepsChanges: "fallback: the pair's changes are not undone",
    FallbackLevelFiles: "fallback: A gets the level's files",
    FallbackEntry: "fallback: no restriction entry for an A with a set",
    FallbackBefore: "fallback: B is put before A",
    FallbackChildIndex: "fallback: A's index among the children, not in the content",
    FallbackInNewVersion: "fallback: range in the new file's version",
    SevenOfFallback: "fallback: its 7 goes up in place of the old conflict",
    FallbackExtends: "fallback: A's set is extended",
    RootUnlogged: "the root's extension is not logged",
    RefusedStays: "a refused merge leaves its changes",
    OldestFirst: "rollback: the oldest entry first",
    AnyMark: "rollback: any number within the log is a mark",
}

//! What a run met.

use std::cell::Cell;
use std::mem::discriminant;
use std::ops::AddAssign;

use super::{Conflict, DEPTH_LIMIT, Entry, Item, Key, Mode, NoPlace, Places, ROOT, Text};

macro_rules! cases {
    ($($case:ident: $words:literal,)*) => {
        #[derive(Clone, Copy)]
        pub(super) enum Case {
            $($case,)*
        }

        const CASES: &[&str] = &[$($words,)*];
    };
}

cases! {
    Refusal1: "refusal 1",
    Refusal2: "refusal 2",
    Refusal3: "refusal 3",
    Refusal4: "refusal 4",
    Refusal5: "refusal 5",
    Refusal6: "refusal 6",
    Refusal7: "refusal 7",
    Refusal8: "refusal 8",
    Refusal9: "refusal 9",
    Refusal10: "refusal 10",
    Refusal11: "refusal 11",
    Refusal12: "refusal 12",
    Refusal13: "refusal 13",
    Refusal14: "refusal 14",
    Merged: "merged",
    SecondMerged: "merged: a second tree",
    ThirdMerged: "merged: a third tree",
    MoreMerged: "merged: a fourth or later tree",
    MergedAfterRefusal: "merged: after a refused merge",
    MergedAgain: "merged: again after a rollback",
    PathSmaller: "walk: smaller A path, A-only",
    PathGreater: "walk: greater A path, B-only",
    NamesEqual: "walk: item names equal",
    NamesMissing: "walk: item names missing on both sides",
    NameFound: "walk: item name found among the siblings",
    MissingNameFound: "walk: missing item name found among the siblings",
    NameNotFound: "walk: item name not found, A-only",
    NameRefused: "walk: item name not found, refusal 6",
    DefinitionsEqual: "walk: definitions equal",
    DefinitionsMissing: "walk: definitions missing on both sides",
    DefinitionFound: "walk: definition found among the siblings",
    MissingDefinitionFound: "walk: missing definition found among the siblings",
    DefinitionNotFound: "walk: definition not found, A-only",
    TextsUnequal: "walk: texts unequal, A-only",
    TextsNan: "walk: NaN of other bits equal",
    TextsZero: "walk: zeros of different sign equal",
    TextsKind: "walk: texts of different kinds",
    TextMissing: "walk: a text on one side alone",
    Skipped: "walk: B-only skipped because paired",
    SkippedLeftOver: "walk: left-over B skipped because paired",
    LeftOverA: "walk: left-over A",
    LeftOverB: "walk: left-over B",
    PairedTwice: "used twice: two pairs",
    PairedAndImported: "used twice: paired and imported",
    VersionLowered: "level: version lowered by its files",
    SplitLowered: "level: splittable in the new version, not in the level's",
    Restricted: "level: A-only without a set restricted",
    AloneWithSet: "level: A-only with a set",
    Extended: "pair: set extended",
    NotExtended: "pair: no set, no extension",
    DeliveredPair: "pair: A from an earlier delivery",
    DeepestPair: "pair: at depth 31",
    ImportSequence: "import into a sequence",
    ImportChoice: "import into a choice",
    ImportBag: "import into a bag",
    ImportMixed: "import into mixed content",
    ImportBeforeText: "import before a text",
    ClampedUp: "import: clamped up",
    ClampedDown: "import: clamped down",
    ImportStop: "import: range stopped",
    ImportInnerStop: "import: range stopped in an inner group",
    ImportNotInVersion: "import: refusal 7",
    ImportChoiceOther: "import: conflict in a choice, another path",
    ImportChoiceMult: "import: conflict in a choice, by mult",
    ImportSequenceMult: "import: conflict in a sequence, by mult",
    ImportInnerConflict: "import: conflict in an inner group",
    KeyShortName: "key test: identifiable A",
    KeyDefinition: "key test: DEFINITION-REF",
    KeyShortNameImported: "key test: by a just imported SHORT-NAME",
    KeyDefinitionImported: "key test: by a just imported DEFINITION-REF",
    KeyHidden: "key test: SHORT-NAME no longer first",
    Fallback: "fallback taken",
    FallbackUndoes: "fallback that undoes entries",
    FallbackWithSet: "fallback of an A with a set",
    FallbackBarred: "fallback barred, parent not splittable",
    FallbackConflict: "fallback refused by a conflict",
    FallbackNotInVersion: "fallback refused by 7",
    PassedUp1: "conflict passed up through 1 pair",
    PassedUp2: "conflict passed up through 2 pairs",
    PassedUpMore: "conflict passed up through 3 or more pairs",
    ConflictAtRoot: "conflict at the root",
    LogFullRestriction: "refusal 9 at a restriction",
    LogFullImport: "refusal 9 at an import",
    LogFullExtension: "refusal 9 at an extension",
    LogFullRoot: "refusal 9 at the root's extension",
    RollbackNone: "rollback of no entry",
    RollbackEntries: "rollback of more than one entry",
    RollbackMerges: "rollback of more than one merge",
    RangeAnswered: "range: answered",
    RangeNotInVersion: "range: refusal 7",
    RangeStop: "range: stopped",
    RangeInnerStop: "range: stopped in an inner group",
    RangeChoiceOther: "range: conflict in a choice, another path",
    RangeChoiceMult: "range: conflict in a choice, by mult",
    RangeSequenceMult: "range: conflict in a sequence, by mult",
    RangeInnerConflict: "range: conflict in an inner group",
}

const REFUSALS: [Case; 14] = [
    Case::Refusal1,
    Case::Refusal2,
    Case::Refusal3,
    Case::Refusal4,
    Case::Refusal5,
    Case::Refusal6,
    Case::Refusal7,
    Case::Refusal8,
    Case::Refusal9,
    Case::Refusal10,
    Case::Refusal11,
    Case::Refusal12,
    Case::Refusal13,
    Case::Refusal14,
];

/// How often each case was met. A range counts too, and writes nothing else: hence the cells.
#[derive(Clone, Debug)]
pub struct Met {
    counts: [Cell<u64>; CASES.len()],
}

impl Default for Met {
    fn default() -> Met {
        Met { counts: [const { Cell::new(0) }; CASES.len()] }
    }
}

impl AddAssign<&Met> for Met {
    fn add_assign(&mut self, other: &Met) {
        for (sum, more) in self.counts.iter().zip(&other.counts) {
            sum.set(sum.get() + more.get());
        }
    }
}

impl Met {
    pub fn each(&self) -> Vec<(&'static str, u64)> {
        CASES.iter().copied().zip(self.counts.iter().map(Cell::get)).collect()
    }

    pub(super) fn count(&self, case: Case) {
        self.count_if(true, case);
    }

    pub(super) fn count_if(&self, met: bool, case: Case) {
        let count = &self.counts[case as usize];
        count.set(count.get() + u64::from(met));
    }

    /// Load's refusals are counted by its caller.
    pub fn refused(&self, number: u64) {
        self.count(REFUSALS[number as usize - 1]);
    }

    pub(super) fn merged(&self, standing: usize, after_refusal: bool, again: bool) {
        self.count(Case::Merged);
        self.count_if(standing == 2, Case::SecondMerged);
        self.count_if(standing == 3, Case::ThirdMerged);
        self.count_if(standing > 3, Case::MoreMerged);
        self.count_if(after_refusal, Case::MergedAfterRefusal);
        self.count_if(again, Case::MergedAgain);
    }

    pub(super) fn texts(&self, a: Option<&Text>, b: Option<&Text>) {
        match (a, b) {
            (Some(Text::Float(x)), Some(Text::Float(y))) => self.floats(f64::from_bits(*x), f64::from_bits(*y)),
            (Some(x), Some(y)) => self.count_if(discriminant(x) != discriminant(y), Case::TextsKind),
            (None, None) => {}
            _ => self.count(Case::TextMissing),
        }
    }

    fn floats(&self, x: f64, y: f64) {
        let same_bits = x.to_bits() == y.to_bits();
        self.count_if(x.is_nan() && y.is_nan() && !same_bits, Case::TextsNan);
        self.count_if(x == y && !same_bits, Case::TextsZero);
    }

    pub(super) fn pair(&self, depth: usize, delivered: bool) {
        self.count_if(depth == DEPTH_LIMIT, Case::DeepestPair);
        self.count_if(delivered, Case::DeliveredPair);
    }

    pub(super) fn import(&self, mode: Mode, behind: Option<&Item>) {
        self.count(match mode {
            Mode::Sequence => Case::ImportSequence,
            Mode::Choice => Case::ImportChoice,
            Mode::Bag => Case::ImportBag,
            Mode::Mixed | Mode::Characters => Case::ImportMixed,
        });
        self.count_if(matches!(behind, Some(Item::Text(_))), Case::ImportBeforeText);
    }

    pub(super) fn range(&self, range: &Result<Places, NoPlace>, for_import: bool) {
        let count_if = |met, of_import, of_call| self.count_if(met, if for_import { of_import } else { of_call });
        match range {
            Ok(Places { stopped, .. }) => {
                count_if(*stopped == Some(false), Case::ImportStop, Case::RangeStop);
                count_if(*stopped == Some(true), Case::ImportInnerStop, Case::RangeInnerStop);
            }
            Err(NoPlace::NotInVersion) => self.count_if(!for_import, Case::RangeNotInVersion),
            Err(NoPlace::Conflict { in_choice, equal, inner }) => {
                count_if(*in_choice && !equal, Case::ImportChoiceOther, Case::RangeChoiceOther);
                count_if(*in_choice && *equal, Case::ImportChoiceMult, Case::RangeChoiceMult);
                count_if(!in_choice, Case::ImportSequenceMult, Case::RangeSequenceMult);
                count_if(*inner, Case::ImportInnerConflict, Case::RangeInnerConflict);
            }
        }
    }

    pub(super) fn key_test(&self, before: Option<Key>, now: Option<Key>) {
        self.count_if(now == Some(Key::ShortName), Case::KeyShortName);
        self.count_if(now == Some(Key::Definition), Case::KeyDefinition);
        self.count_if(before.is_none() && now == Some(Key::ShortName), Case::KeyShortNameImported);
        self.count_if(before.is_none() && now == Some(Key::Definition), Case::KeyDefinitionImported);
        self.count_if(before.is_some() && now.is_none(), Case::KeyHidden);
    }

    pub(super) fn settled(&self, conflict: &Conflict) {
        self.count_if(conflict.passed == 1, Case::PassedUp1);
        self.count_if(conflict.passed == 2, Case::PassedUp2);
        self.count_if(conflict.passed > 2, Case::PassedUpMore);
    }

    pub(super) fn log_full(&self, entry: &Entry) {
        self.count(match entry {
            Entry::Import { .. } => Case::LogFullImport,
            Entry::Restriction { .. } => Case::LogFullRestriction,
            Entry::Extension { element: ROOT, .. } => Case::LogFullRoot,
            Entry::Extension { .. } => Case::LogFullExtension,
        });
    }

    pub(super) fn rolled_back(&self, entries: usize, merges: usize) {
        self.count_if(entries == 0, Case::RollbackNone);
        self.count_if(entries > 1, Case::RollbackEntries);
        self.count_if(merges > 1, Case::RollbackMerges);
    }
}

//! The rules of document 01 in plain Rust, in the paper's order. They were written from the paper and share nothing with
//! the engine or the original. `Met` counts what a run met; `set_fault` puts one small fault into the rules, so that a run
//! can show that it would notice.

mod faults;
mod load;
mod met;

use std::cmp::Ordering;

use faults::{Fault, faulty};
use met::Case;

pub use faults::{FAULTS, set_fault};
pub use load::load;
pub use met::Met;

// ---- Deck and schema

pub const SHORT_NAME: u64 = 1;
pub const DEFINITION_REF: u64 = 2;

const ALL_VERSIONS: u64 = u32::MAX as u64;

#[derive(Clone, Copy, Debug, PartialEq, Eq)]
pub enum Mode {
    Sequence,
    Choice,
    Bag,
    Mixed,
    Characters,
}

/// The parts; the empty path is the type itself.
pub type Path = Vec<u8>;

#[derive(Clone, Debug)]
pub struct Group {
    pub path: Path,
    pub mode: Mode,
}

#[derive(Clone, Debug)]
pub struct Row {
    pub path: Path,
    pub name: u64,
    pub child: usize,
    pub mult: u64,
    pub mask: u64,
}

/// The first group is the type itself.
#[derive(Clone, Debug)]
pub struct Type {
    pub named: bool,
    pub split: u64,
    pub groups: Vec<Group>,
    pub rows: Vec<Row>,
}

impl Type {
    pub fn mode(&self) -> Mode {
        self.groups[0].mode
    }

    fn row(&self, name: u64) -> Option<&Row> {
        self.find_sub_element(name, ALL_VERSIONS)
    }

    pub fn find_sub_element(&self, name: u64, mask: u64) -> Option<&Row> {
        self.rows.iter().find(|row| row.name == name && row.mask & mask != 0)
    }

    pub fn find_common_group(&self, a: &[u8], b: &[u8]) -> &Group {
        let (a, b) = (&a[..a.len() - 1], &b[..b.len() - 1]);
        let shared = a.iter().zip(b).take_while(|(x, y)| x == y).count();
        let path = if faulty(Fault::InnerGroups) { &[] } else { &a[..shared] };
        self.groups.iter().find(|group| group.path == path).expect("every beginning of a path has its group")
    }

    pub fn splittable_in(&self, version: u64) -> bool {
        self.split & bit(version) != 0
    }
}

#[derive(Clone, Debug, PartialEq, Eq)]
pub enum Text {
    Enum(u64),
    String(Vec<u8>),
    Whole(u64),
    Float(u64),
}

/// Equal kind and value; floats if both are NaN or they compare equal.
pub fn texts_equal(a: &Text, b: &Text) -> bool {
    match (a, b) {
        (Text::Float(x), Text::Float(y)) => floats_equal(f64::from_bits(*x), f64::from_bits(*y)),
        _ => a == b,
    }
}

fn floats_equal(x: f64, y: f64) -> bool {
    if faulty(Fault::NanUnequal) {
        return x == y;
    }
    if faulty(Fault::FloatBits) {
        return x.to_bits() == y.to_bits();
    }
    x == y || x.is_nan() && y.is_nan()
}

#[derive(Clone, Debug, PartialEq, Eq)]
pub enum Item {
    Element(usize),
    Text(Text),
}

impl Item {
    fn child(&self) -> Option<usize> {
        match self {
            Item::Element(child) => Some(*child),
            Item::Text(_) => None,
        }
    }
}

#[derive(Clone, Debug)]
pub struct Element {
    pub name: u64,
    pub element_type: usize,
    pub depth: usize,
    pub set: u64,
    pub parent: Option<usize>,
    pub content: Vec<Item>,
}

#[derive(Clone, Debug)]
pub struct Tree {
    pub file: u64,
    pub root: usize,
}

/// A loaded deck. Element 0 is the model's root.
#[derive(Clone, Debug, Default)]
pub struct World {
    pub types: Vec<Type>,
    /// File numbers and versions, ascending.
    pub files: Vec<(u64, u64)>,
    pub elements: Vec<Element>,
    pub trees: Vec<Tree>,
    pub log: Vec<Entry>,
    pub met: Met,
    /// For the counts alone: files whose merge was taken back, and whether a merge was refused.
    taken_back: u64,
    refused: bool,
}

const ROOT: usize = 0;

const DEPTH_LIMIT: usize = 31;
const ITEM_LIMIT: usize = 2_048;
const LOG_LIMIT: usize = 1_024;

fn bit(n: u64) -> u64 {
    1 << n
}

fn holds(set: u64, file: u64) -> bool {
    file < 64 && set & bit(file) != 0
}

// ---- What the rules ask of a world

impl World {
    fn type_of(&self, element: usize) -> &Type {
        &self.types[self.elements[element].element_type]
    }

    fn version(&self, file: u64) -> Option<u64> {
        self.files.iter().find(|(number, _)| *number == file).map(|(_, version)| *version)
    }

    /// The content items of all lists.
    fn items(&self) -> usize {
        self.elements.iter().map(|e| e.content.len()).sum()
    }

    fn children(&self, element: usize) -> Vec<usize> {
        self.elements[element].content.iter().filter_map(Item::child).collect()
    }

    fn path(&self, parent: usize, child: usize) -> &[u8] {
        &self.type_of(parent).row(self.elements[child].name).expect("a listed child has its row").path
    }

    /// The SHORT-NAME that makes an element of this content identifiable.
    fn short_name(&self, element: usize, content: &[Item]) -> Option<usize> {
        let first = if faulty(Fault::FirstChild) {
            content.iter().find_map(Item::child)
        } else {
            content.first().and_then(Item::child)
        };
        let first = first.filter(|child| self.elements[*child].name == SHORT_NAME)?;
        let counts = !faulty(Fault::UnnamedNotIdentifiable) || self.sole_string(first).is_some();
        (counts && (self.type_of(element).named || faulty(Fault::NamedIgnored))).then_some(first)
    }

    fn identifiable(&self, element: usize) -> bool {
        self.short_name(element, &self.elements[element].content).is_some()
    }

    fn item_name(&self, element: usize) -> Option<&[u8]> {
        self.short_name(element, &self.elements[element].content).and_then(|child| self.sole_string(child))
    }

    fn definition_ref(&self, content: &[Item]) -> Option<usize> {
        let mut children = content.iter().filter_map(Item::child);
        children.find(|child| self.elements[*child].name == DEFINITION_REF)
    }

    fn definition(&self, element: usize) -> Option<&[u8]> {
        if faulty(Fault::AnyDefinition) {
            let children = self.children(element).into_iter();
            let mut named = children.filter(|child| self.elements[*child].name == DEFINITION_REF);
            return named.find_map(|child| self.sole_string(child));
        }
        self.definition_ref(&self.elements[element].content).and_then(|child| self.sole_string(child))
    }

    fn sole_string(&self, element: usize) -> Option<&[u8]> {
        match self.text(element) {
            Some(Text::String(string)) => Some(string),
            _ => None,
        }
    }

    fn text(&self, element: usize) -> Option<&Text> {
        match &self.elements[element].content[..] {
            [Item::Text(text)] => Some(text),
            _ => None,
        }
    }
}

// ---- Insert range

struct Places {
    first: usize,
    last: usize,
    /// If the reading was stopped, whether in an inner group.
    stopped: Option<bool>,
}

enum NoPlace {
    NotInVersion,
    Conflict { in_choice: bool, equal: bool, inner: bool },
}

enum Move {
    Stop,
    Last,
    Both,
    Conflict,
}

impl World {
    fn insert_range(&self, parent: usize, name: u64, version: u64) -> Result<Places, NoPlace> {
        let owner = self.type_of(parent);
        let mask = if faulty(Fault::MaskIgnored) { ALL_VERSIONS } else { bit(version) };
        let new = owner.find_sub_element(name, mask).ok_or(NoPlace::NotInVersion)?;
        let content = &self.elements[parent].content;
        let mut places = Places { first: 0, last: 0, stopped: None };
        if matches!(owner.mode(), Mode::Bag | Mode::Mixed) {
            places.last = content.len();
            return Ok(places);
        }
        for (index, item) in content.iter().enumerate() {
            let Some(child) = item.child() else {
                // Not after a load: lists with texts are mixed or have no children.
                places.last = index + 1;
                continue;
            };
            let old = owner.row(self.elements[child].name).expect("a listed child has its row");
            if faulty(Fault::OldNotInVersion) && old.mask & bit(version) == 0 {
                continue;
            }
            let group = owner.find_common_group(&new.path, &old.path);
            let inner = !group.path.is_empty();
            match range_step(group.mode, new, &old.path) {
                Move::Stop if inner && faulty(Fault::StopInnerOnly) => {}
                Move::Stop => {
                    places.stopped = Some(inner);
                    break;
                }
                Move::Last => places.last = index + 1,
                Move::Both => (places.first, places.last) = (index + 1, index + 1),
                Move::Conflict => {
                    let (in_choice, equal) = (group.mode == Mode::Choice, new.path == old.path);
                    return Err(NoPlace::Conflict { in_choice, equal, inner });
                }
            }
        }
        Ok(places)
    }
}

fn range_step(mode: Mode, new: &Row, old: &[u8]) -> Move {
    let any = new.mult == 2 || new.mult == 1 && faulty(Fault::MultOneAllowed);
    match (mode, new.path[..].cmp(old)) {
        (Mode::Sequence, Ordering::Less) => Move::Stop,
        (Mode::Sequence, Ordering::Greater) if faulty(Fault::GreaterMovesLast) => Move::Last,
        (Mode::Sequence, Ordering::Greater) => Move::Both,
        (Mode::Sequence, Ordering::Equal) if any && faulty(Fault::EqualMovesBoth) => Move::Both,
        (Mode::Choice, Ordering::Equal) if faulty(Fault::ChoiceEqual) => Move::Conflict,
        (Mode::Sequence | Mode::Choice, Ordering::Equal) if any => Move::Last,
        (Mode::Sequence | Mode::Choice, Ordering::Equal) => Move::Conflict,
        (Mode::Choice, _) if faulty(Fault::ChoiceOther) => Move::Last,
        (Mode::Choice, _) => Move::Conflict,
        (Mode::Bag | Mode::Mixed | Mode::Characters, _) => Move::Last,
    }
}

// ---- Pairing

#[derive(Clone, Copy)]
struct NewFile {
    number: u64,
    version: u64,
}

/// One level of a merge: its two elements, its files and its version.
struct Level {
    a: usize,
    b: usize,
    files: u64,
    version: u64,
    new: NewFile,
}

#[derive(Default)]
struct Plan {
    a_only: Vec<usize>,
    /// Elements and positions.
    b_only: Vec<(usize, usize)>,
    pairs: Vec<(usize, usize)>,
}

impl Plan {
    fn has_paired(&self, b: usize) -> bool {
        self.pairs.iter().any(|(_, mate)| *mate == b)
    }

    fn uses(&self, b: usize) -> (usize, usize) {
        let pairs = self.pairs.iter().filter(|(_, mate)| *mate == b).count();
        let imports = self.b_only.iter().filter(|(alone, _)| *alone == b).count();
        (pairs, imports)
    }
}

enum Action {
    Pair,
    PairWith(usize),
    AOnly,
    BOnly,
}

impl World {
    fn walk(&self, level: &Level) -> Result<Plan, Stop> {
        let (ours, theirs) = (self.children(level.a), self.children(level.b));
        let mut plan = Plan::default();
        let mut skipped = 0;
        let (mut i, mut j) = (0, 0);
        while i < ours.len() && j < theirs.len() {
            let (a, b) = (ours[i], theirs[j]);
            let action = self.action(level, &plan, a, &theirs, j)?;
            match action {
                Action::Pair => plan.pairs.push((a, b)),
                Action::PairWith(sibling) => plan.pairs.push((a, sibling)),
                Action::AOnly => plan.a_only.push(a),
                Action::BOnly if plan.has_paired(b) => {
                    skipped += 1;
                    self.met.count(Case::Skipped);
                }
                Action::BOnly => plan.b_only.push((b, self.position(level.a, i, skipped))),
            }
            i += usize::from(!matches!(action, Action::BOnly));
            j += usize::from(matches!(action, Action::Pair | Action::BOnly));
        }
        self.left_over(level, &mut plan, &ours[i..], &theirs[j..]);
        Ok(plan)
    }

    /// The position of a B-only child before A's child of this index.
    fn position(&self, a: usize, index: usize, skipped: usize) -> usize {
        if faulty(Fault::ContentIndex) {
            let content = self.elements[a].content.iter().enumerate();
            return content.filter(|(_, item)| item.child().is_some()).nth(index).map_or(0, |(place, _)| place);
        }
        index + if faulty(Fault::SkippedTakesIndex) { skipped } else { 0 }
    }

    fn left_over(&self, level: &Level, plan: &mut Plan, ours: &[usize], theirs: &[usize]) {
        let content = &self.elements[level.a].content;
        let texts = content.iter().filter(|item| item.child().is_none()).count();
        let end = content.len() - if faulty(Fault::LeftOverChildren) { texts } else { 0 };
        for a in ours {
            self.met.count(Case::LeftOverA);
            plan.a_only.push(*a);
        }
        for b in theirs {
            if plan.has_paired(*b) && !faulty(Fault::LeftOverPaired) {
                self.met.count(Case::SkippedLeftOver);
            } else {
                self.met.count(Case::LeftOverB);
                plan.b_only.push((*b, end));
            }
        }
    }

    fn action(&self, level: &Level, plan: &Plan, a: usize, theirs: &[usize], j: usize) -> Result<Action, Stop> {
        let b = theirs[j];
        let siblings = if faulty(Fault::SearchFromCursor) { &theirs[j..] } else { theirs };
        if self.elements[a].name != self.elements[b].name {
            return Ok(self.by_path(level, a, b));
        }
        let free = |sibling: &&usize| !faulty(Fault::SearchUnused) || !plan.has_paired(**sibling);
        let same_name = |sibling: &&usize| self.elements[**sibling].name == self.elements[a].name && free(sibling);
        if self.identifiable(a) {
            let mut named = siblings.iter().filter(same_name);
            let found = named.find(|sibling| self.item_names_equal(a, **sibling));
            return self.by_item_name(level, a, b, found.copied());
        }
        let mut defined = siblings.iter().filter(same_name);
        let found = defined.find(|sibling| self.definitions_equal(a, **sibling));
        Ok(self.by_definition(a, b, found.copied()))
    }

    fn by_path(&self, level: &Level, a: usize, b: usize) -> Action {
        let smaller = if faulty(Fault::NameOrder) {
            self.elements[a].name < self.elements[b].name
        } else {
            self.path(level.a, a) < self.path(level.a, b)
        };
        if smaller {
            self.met.count(Case::PathSmaller);
            Action::AOnly
        } else {
            self.met.count(Case::PathGreater);
            Action::BOnly
        }
    }

    fn item_names_equal(&self, a: usize, b: usize) -> bool {
        let (a, b) = (self.item_name(a), self.item_name(b));
        a == b && (a.is_some() || !faulty(Fault::MissingNames))
    }

    fn by_item_name(&self, level: &Level, a: usize, b: usize, found: Option<usize>) -> Result<Action, Stop> {
        let missing = self.item_name(a).is_none();
        if self.item_names_equal(a, b) {
            self.met.count(if missing { Case::NamesMissing } else { Case::NamesEqual });
            return Ok(Action::Pair);
        }
        if let Some(sibling) = found {
            self.met.count(if missing { Case::MissingNameFound } else { Case::NameFound });
            return Ok(Action::PairWith(sibling));
        }
        if self.splittable(level) || faulty(Fault::NotFoundAlone) {
            self.met.count(Case::NameNotFound);
            return Ok(Action::AOnly);
        }
        self.met.count(Case::NameRefused);
        if faulty(Fault::WalkConflict) {
            return Err(Stop::conflict(level.a));
        }
        Err(Stop::refused(6, Some(level.a), None))
    }

    fn splittable(&self, level: &Level) -> bool {
        let owner = self.type_of(level.a);
        let lowered = owner.splittable_in(level.new.version) && !owner.splittable_in(level.version);
        self.met.count_if(lowered, Case::SplitLowered);
        owner.splittable_in(if faulty(Fault::SplitInNewVersion) { level.new.version } else { level.version })
    }

    fn definitions_equal(&self, a: usize, b: usize) -> bool {
        let (a, b) = (self.definition(a), self.definition(b));
        a == b && (a.is_some() || !faulty(Fault::MissingDefinitions))
    }

    fn by_definition(&self, a: usize, b: usize, found: Option<usize>) -> Action {
        let missing = self.definition(a).is_none();
        if self.definitions_equal(a, b) {
            return self.by_text(a, b, missing);
        }
        match found {
            Some(sibling) if faulty(Fault::TextsAfterSearch) && !self.element_texts_equal(a, sibling) => Action::AOnly,
            Some(sibling) => {
                self.met.count(if missing { Case::MissingDefinitionFound } else { Case::DefinitionFound });
                Action::PairWith(sibling)
            }
            None => {
                self.met.count(Case::DefinitionNotFound);
                Action::AOnly
            }
        }
    }

    fn by_text(&self, a: usize, b: usize, missing: bool) -> Action {
        if !self.element_texts_equal(a, b) {
            self.met.count(Case::TextsUnequal);
            return if faulty(Fault::UnequalTexts) { Action::BOnly } else { Action::AOnly };
        }
        self.met.count(if missing { Case::DefinitionsMissing } else { Case::DefinitionsEqual });
        Action::Pair
    }

    fn element_texts_equal(&self, a: usize, b: usize) -> bool {
        if faulty(Fault::TextsIgnored) {
            return true;
        }
        let (a, b) = (self.text(a), self.text(b));
        self.met.texts(a, b);
        match (a, b) {
            (Some(a), Some(b)) => texts_equal(a, b),
            (None, None) => true,
            _ => faulty(Fault::MissingTextEqual),
        }
    }

    fn refuse_used_twice(&self, level: &Level, plan: &Plan) -> Result<(), Stop> {
        if faulty(Fault::UsedTwice) {
            return Ok(());
        }
        let mut children = self.children(level.b);
        if faulty(Fault::LastUsedTwice) {
            children.reverse();
        }
        for b in children {
            let (pairs, imports) = plan.uses(b);
            if pairs + imports > 1 {
                self.met.count(if imports > 0 { Case::PairedAndImported } else { Case::PairedTwice });
                return Err(Stop::refused(8, Some(b), None));
            }
        }
        Ok(())
    }
}

// ---- Import

#[derive(Clone, Copy, Debug, PartialEq, Eq)]
pub struct Refusal {
    pub number: u64,
    pub element: Option<u64>,
    pub name: Option<u64>,
}

/// A conflict with the element in whose list it arose, and through how many pairs it was passed up.
struct Conflict {
    element: usize,
    passed: usize,
}

impl Conflict {
    fn up(self, level: &Level) -> Stop {
        let element = if faulty(Fault::PassingElement) { level.a } else { self.element };
        Stop::Conflict(Conflict { element, passed: self.passed + 1 })
    }
}

/// Why a step of a merge did not succeed.
enum Stop {
    Conflict(Conflict),
    Refused(Refusal),
}

impl Stop {
    fn conflict(element: usize) -> Stop {
        Stop::Conflict(Conflict { element, passed: 0 })
    }

    fn refused(number: u64, element: Option<usize>, name: Option<u64>) -> Stop {
        Stop::Refused(Refusal { number, element: element.map(|e| e as u64), name })
    }
}

impl World {
    fn import_all(&mut self, level: &Level, b_only: &[(usize, usize)]) -> Result<(), Stop> {
        let version = if faulty(Fault::ImportsInLevelVersion) { level.version } else { level.new.version };
        for (index, (element, position)) in b_only.iter().enumerate() {
            let wanted = position + if faulty(Fault::IndexLeftOut) { 0 } else { index };
            let done = self.import(level, *element, wanted, version);
            if matches!(done, Err(Stop::Refused(Refusal { number: 7, .. }))) {
                self.met.count(Case::ImportNotInVersion);
                if faulty(Fault::SevenIsConflict) {
                    return Err(Stop::conflict(level.a));
                }
            }
            done?;
        }
        Ok(())
    }

    fn import(&mut self, level: &Level, element: usize, wanted: usize, version: u64) -> Result<(), Stop> {
        let name = self.elements[element].name;
        let range = self.insert_range(level.a, name, version);
        self.met.range(&range, true);
        let places = match range {
            Ok(places) => places,
            Err(NoPlace::NotInVersion) => return Err(Stop::refused(7, Some(level.a), Some(name))),
            Err(NoPlace::Conflict { .. }) => return Err(Stop::conflict(level.a)),
        };
        let (old_parent, old_set) = (self.elements[element].parent, self.elements[element].set);
        self.append(Entry::Import { element, parent: level.a, old_parent, old_set })?;
        if self.items() >= ITEM_LIMIT + usize::from(faulty(Fault::ItemsOneMore)) {
            return Err(Stop::refused(10, None, None));
        }
        let place = self.clamp(wanted, &places, self.elements[level.a].content.len());
        self.met.import(self.type_of(level.a).mode(), self.elements[level.a].content.get(place));
        self.elements[element].parent = Some(level.a);
        let others = if faulty(Fault::ImportKeepsFiles) { level.files } else { old_set };
        self.elements[element].set = others | bit(level.new.number);
        self.elements[level.a].content.insert(place, Item::Element(element));
        Ok(())
    }

    fn clamp(&self, wanted: usize, places: &Places, length: usize) -> usize {
        self.met.count_if(wanted < places.first, Case::ClampedUp);
        self.met.count_if(wanted > places.last, Case::ClampedDown);
        let first = if faulty(Fault::NotClampedUp) { 0 } else { places.first };
        let last = if faulty(Fault::NotClampedDown) { length } else { places.last };
        wanted.max(first).min(last)
    }
}

// ---- Level and Pairs

/// A pair whose turn has come, its files, and the log's length then.
struct Pair {
    a: usize,
    b: usize,
    files: u64,
    mark: usize,
}

#[derive(Clone, Copy, PartialEq)]
enum Key {
    ShortName,
    Definition,
}

impl World {
    fn level_version(&self, files: u64, new: NewFile) -> u64 {
        let least = self.files.iter().filter(|(file, _)| holds(files, *file)).map(|(_, version)| *version).min();
        let least = least.unwrap_or(new.version);
        self.met.count_if(least < new.version, Case::VersionLowered);
        if faulty(Fault::NewVersionIgnored) { least } else { least.min(new.version) }
    }

    fn merge_level(&mut self, a: usize, b: usize, files: u64, new: NewFile) -> Result<(), Stop> {
        let level = Level { a, b, files, version: self.level_version(files, new), new };
        let plan = self.walk(&level)?;
        self.refuse_used_twice(&level, &plan)?;
        self.restrict_all(&level, &plan.a_only)?;
        self.import_all(&level, &plan.b_only)?;
        self.keep_texts(&level);
        for (a, b) in plan.pairs {
            self.merge_pair(&level, a, b)?;
        }
        Ok(())
    }

    /// Of a fault alone.
    fn keep_texts(&mut self, level: &Level) {
        if faulty(Fault::TextsKept) && self.type_of(level.a).mode() == Mode::Mixed {
            let content = self.elements[level.b].content.clone();
            let texts = content.into_iter().filter(|item| matches!(item, Item::Text(_)));
            self.elements[level.a].content.extend(texts);
        }
    }

    fn restrict_all(&mut self, level: &Level, a_only: &[usize]) -> Result<(), Stop> {
        let files = if faulty(Fault::RootFiles) { self.elements[ROOT].set } else { level.files };
        for a in a_only {
            if self.elements[*a].set == 0 || faulty(Fault::SetsRestricted) {
                self.met.count(Case::Restricted);
                self.restrict(*a, files)?;
            } else {
                self.met.count(Case::AloneWithSet);
            }
        }
        Ok(())
    }

    fn restrict(&mut self, element: usize, files: u64) -> Result<(), Stop> {
        let old_set = self.elements[element].set;
        self.append(Entry::Restriction { element, old_set })?;
        self.elements[element].set = files;
        Ok(())
    }

    fn extend(&mut self, element: usize, file: u64) -> Result<(), Stop> {
        if holds(self.elements[element].set, file) {
            return Ok(());
        }
        self.append(Entry::Extension { element, file })?;
        self.elements[element].set |= bit(file);
        Ok(())
    }

    fn merge_pair(&mut self, level: &Level, a: usize, b: usize) -> Result<(), Stop> {
        self.met.pair(self.elements[a].depth, self.log.iter().any(|entry| entry.imports(a)));
        let own = self.elements[a].set;
        let files = if own == 0 || faulty(Fault::LevelFiles) { level.files } else { own };
        let pair = Pair { a, b, files, mark: self.log.len() };
        match self.merge_level(a, b, files, level.new) {
            Ok(()) if own == 0 && !faulty(Fault::ExtendsAll) => {
                self.met.count(Case::NotExtended);
                Ok(())
            }
            Ok(()) => {
                self.met.count(Case::Extended);
                self.extend(a, level.new.number)
            }
            Err(Stop::Conflict(conflict)) => self.settle(level, &pair, conflict),
            refused => refused,
        }
    }

    /// What becomes of a conflict from below a pair.
    fn settle(&mut self, level: &Level, pair: &Pair, conflict: Conflict) -> Result<(), Stop> {
        if self.key_test(pair) {
            self.met.settled(&conflict);
            let element = if faulty(Fault::KeyElement) { pair.a } else { conflict.element };
            return Err(Stop::refused(6, Some(element), None));
        }
        if !self.splittable(level) {
            self.met.count(Case::FallbackBarred);
            return Err(conflict.up(level));
        }
        match self.fall_back(level, pair) {
            Err(Stop::Conflict(_)) => {
                self.met.count(Case::FallbackConflict);
                Err(conflict.up(level))
            }
            Err(Stop::Refused(Refusal { number: 7, .. })) if !faulty(Fault::SevenOfFallback) => {
                self.met.count(Case::FallbackNotInVersion);
                Err(conflict.up(level))
            }
            Ok(()) => {
                self.met.count(Case::Fallback);
                self.met.settled(&conflict);
                if faulty(Fault::FallbackExtends) { self.extend(pair.a, level.new.number) } else { Ok(()) }
            }
            refused => refused,
        }
    }

    /// Both are kept: A with the pair's files, B imported behind it.
    fn fall_back(&mut self, level: &Level, pair: &Pair) -> Result<(), Stop> {
        let Pair { a, b, files, mark } = *pair;
        self.met.count_if(self.log.len() > mark, Case::FallbackUndoes);
        self.met.count_if(self.elements[a].set != 0, Case::FallbackWithSet);
        if !faulty(Fault::FallbackKeepsChanges) {
            self.undo_to(mark);
        }
        if self.elements[a].set == 0 || !faulty(Fault::FallbackEntry) {
            self.restrict(a, if faulty(Fault::FallbackLevelFiles) { level.files } else { files })?;
        }
        let wanted = self.place(level.a, a) + usize::from(!faulty(Fault::FallbackBefore));
        let version = if faulty(Fault::FallbackInNewVersion) { level.new.version } else { level.version };
        self.import(level, b, wanted, version)
    }

    /// An element's first place in a list, 0 if it has none.
    fn place(&self, list: usize, element: usize) -> usize {
        if faulty(Fault::FallbackChildIndex) {
            return self.children(list).iter().position(|child| *child == element).unwrap_or(0);
        }
        self.elements[list].content.iter().position(|item| *item == Item::Element(element)).unwrap_or(0)
    }

    fn key(&self, element: usize, content: &[Item]) -> Option<Key> {
        if self.short_name(element, content).is_some() {
            return Some(Key::ShortName);
        }
        let definition = self.definition_ref(content).filter(|_| !faulty(Fault::KeyDefinition));
        let counts = |child: &usize| !faulty(Fault::KeyNeedsString) || self.sole_string(*child).is_some();
        definition.filter(counts).map(|_| Key::Definition)
    }

    /// Judged on the list as the failed level left it, before its changes are undone.
    fn key_test(&self, pair: &Pair) -> bool {
        let imported = |child| self.log[pair.mark..].iter().any(|entry| entry.imports(child));
        let content = &self.elements[pair.a].content;
        let old = content.iter().filter(|item| !item.child().is_some_and(imported));
        let before = self.key(pair.a, &old.cloned().collect::<Vec<_>>());
        let now = self.key(pair.a, content);
        self.met.key_test(before, now);
        if faulty(Fault::KeyAfterRollback) { before.is_some() } else { now.is_some() }
    }
}

// ---- Log, mark, rollback

#[derive(Clone, Debug, PartialEq, Eq)]
pub enum Entry {
    Import { element: usize, parent: usize, old_parent: Option<usize>, old_set: u64 },
    Restriction { element: usize, old_set: u64 },
    Extension { element: usize, file: u64 },
}

impl Entry {
    fn is_root_extension(&self) -> bool {
        matches!(self, Entry::Extension { element: ROOT, .. })
    }

    fn imports(&self, child: usize) -> bool {
        matches!(self, Entry::Import { element, .. } if *element == child)
    }
}

impl World {
    fn append(&mut self, entry: Entry) -> Result<(), Stop> {
        if self.log.len() >= LOG_LIMIT + usize::from(faulty(Fault::LogOneMore)) {
            self.met.log_full(&entry);
            return Err(Stop::refused(9, None, None));
        }
        if !(entry.is_root_extension() && faulty(Fault::RootUnlogged)) {
            self.log.push(entry);
        }
        Ok(())
    }

    fn undo(&mut self, entry: Entry) {
        match entry {
            Entry::Import { element, parent, old_parent, old_set } => {
                let content = &mut self.elements[parent].content;
                if let Some(place) = content.iter().position(|item| *item == Item::Element(element)) {
                    content.remove(place);
                }
                self.elements[element].parent = old_parent;
                self.elements[element].set = old_set;
            }
            Entry::Restriction { element, old_set } => self.elements[element].set = old_set,
            Entry::Extension { element, file } => self.elements[element].set &= !bit(file),
        }
    }

    fn undo_to(&mut self, mark: usize) {
        let mut entries = self.log.split_off(mark);
        if faulty(Fault::OldestFirst) {
            entries.reverse();
        }
        for entry in entries.into_iter().rev() {
            self.undo(entry);
        }
    }
}

// ---- The calls

#[derive(Clone, Copy, Debug, PartialEq, Eq)]
pub enum Answer {
    Merged { imports: u64, restrictions: u64, extensions: u64 },
    Refused { number: u64, element: Option<u64>, name: Option<u64> },
}

impl World {
    /// The files of the trees that wait, in deck order.
    pub fn waiting(&self) -> Vec<u64> {
        let loaded = self.elements[ROOT].set;
        self.trees.iter().map(|tree| tree.file).filter(|file| !holds(loaded, *file)).collect()
    }

    pub fn mark(&self) -> u64 {
        self.log.len() as u64
    }

    pub fn merge(&mut self, file: u64) -> Answer {
        let mark = self.log.len();
        let before = (self.elements.clone(), self.log.clone());
        let refusal = match self.merge_tree(file) {
            Ok(()) => return self.merged(file, mark),
            Err(Stop::Refused(refusal)) => refusal,
            Err(Stop::Conflict(conflict)) => {
                self.met.count(Case::ConflictAtRoot);
                self.met.settled(&conflict);
                Refusal { number: 6, element: Some(conflict.element as u64), name: None }
            }
        };
        if !faulty(Fault::RefusedStays) {
            (self.elements, self.log) = before;
        }
        self.refused = true;
        self.met.refused(refusal.number);
        let Refusal { number, element, name } = refusal;
        Answer::Refused { number, element, name }
    }

    fn merge_tree(&mut self, file: u64) -> Result<(), Stop> {
        let tree = self.trees.iter().find(|tree| tree.file == file);
        let waits = tree.filter(|_| !holds(self.elements[ROOT].set, file));
        let (Some(tree), Some(version)) = (waits, self.version(file)) else {
            return Err(Stop::refused(5, None, None));
        };
        let new = NewFile { number: file, version };
        self.merge_level(ROOT, tree.root, self.elements[ROOT].set, new)?;
        self.extend(ROOT, file)
    }

    fn merged(&mut self, file: u64, mark: usize) -> Answer {
        let (mut imports, mut restrictions, mut extensions) = (0, 0, 0);
        for entry in &self.log[mark..] {
            match entry {
                Entry::Import { .. } => imports += 1,
                Entry::Restriction { .. } => restrictions += 1,
                Entry::Extension { .. } => extensions += 1,
            }
        }
        let standing = self.log.iter().filter(|entry| entry.is_root_extension()).count();
        self.met.merged(standing, self.refused, holds(self.taken_back, file));
        Answer::Merged { imports, restrictions, extensions }
    }

    /// The first and the last place.
    pub fn range(&self, element: u64, name: u64, version: u64) -> Result<(u64, u64), Refusal> {
        let answer = self.answer_range(element, name, version);
        match answer {
            Ok(_) => self.met.count(Case::RangeAnswered),
            Err(refusal) => self.met.refused(refusal.number),
        }
        answer
    }

    fn answer_range(&self, element: u64, name: u64, version: u64) -> Result<(u64, u64), Refusal> {
        let refusal = |number, element, name| Refusal { number, element, name };
        if element >= self.elements.len() as u64 || version > 31 {
            return Err(refusal(11, None, None));
        }
        if self.type_of(element as usize).mode() == Mode::Characters {
            return Err(refusal(12, Some(element), None));
        }
        let range = self.insert_range(element as usize, name, version);
        self.met.range(&range, false);
        match range {
            Ok(places) => Ok((places.first as u64, places.last as u64)),
            Err(NoPlace::NotInVersion) => Err(refusal(7, Some(element), Some(name))),
            Err(NoPlace::Conflict { .. }) => Err(refusal(13, Some(element), None)),
        }
    }

    /// The number of entries taken off.
    pub fn rollback(&mut self, mark: u64) -> Result<u64, Refusal> {
        if !self.is_mark(mark) {
            self.met.refused(14);
            return Err(Refusal { number: 14, element: None, name: None });
        }
        let entries = &self.log[mark as usize..];
        let taken = entries.len();
        let mut merges = 0;
        for entry in entries {
            if let Entry::Extension { element: ROOT, file } = entry {
                self.taken_back |= bit(*file);
                merges += 1;
            }
        }
        self.met.rolled_back(taken, merges);
        self.undo_to(mark as usize);
        Ok(taken as u64)
    }

    fn is_mark(&self, mark: u64) -> bool {
        match mark.checked_sub(1) {
            None => true,
            Some(below) => {
                self.log.get(below as usize).is_some_and(|e| e.is_root_extension() || faulty(Fault::AnyMark))
            }
        }
    }
}

// ---- The model as lines

impl World {
    pub fn model_lines(&self) -> Vec<u8> {
        let mut lines = String::new();
        self.element_lines(ROOT, 0, &mut lines);
        lines.into_bytes()
    }

    fn element_lines(&self, element: usize, depth: usize, lines: &mut String) {
        let Element { name, set, content, .. } = &self.elements[element];
        *lines += &format!("E,{depth},{name},{set:x}\n");
        for item in content {
            match item {
                Item::Element(child) => self.element_lines(*child, depth + 1, lines),
                Item::Text(text) => *lines += &format!("C,{},{}\n", depth + 1, text_fields(text)),
            }
        }
    }
}

fn text_fields(text: &Text) -> String {
    match text {
        Text::Enum(n) => format!("e,{n}"),
        Text::String(bytes) => format!("s,{}", String::from_utf8_lossy(bytes)),
        Text::Whole(n) => format!("u,{n}"),
        Text::Float(bits) => format!("f,{bits:x}"),
    }
}

//! A statement to pay by: what each delivery is counted for, what was withdrawn and when, and the totals of what stands.
//! `docs/STATEMENT.md` says how to read it.

mod calls;
mod csv;
mod html;
mod table;

use std::error::Error;
use std::fmt;

use crate::file_set::FileSet;
use crate::log::Entry;
use crate::model::{Counts, Model};
use crate::numbers::{ElementId, FileId, Mark};
use crate::refusal::{LoadError, Refusal};
use crate::tree::Element;

use calls::Call;

/// What the merges of a deck are counted for, as a table (`Display`), as CSV and as a page.
///
/// ```
/// use zapelaritz::statement::{State, Statement};
/// use zapelaritz::Mark;
///
/// let deck = "T,0,0,0,0\nF,0,0\nF,1,0\nM\nE,0,0,1\nB,1\nE,0,0,0\n";
/// let statement = Statement::of(deck, None)?;
/// assert_eq!(statement.total().extensions, 1);
///
/// let withdrawn = Statement::of(deck, Some(b"merge,1\nrollback,0\n"))?;
/// assert_eq!(withdrawn.total().extensions, 0);
/// let state = State::Withdrawn { call: 2, mark: Mark(0) };
/// assert_eq!(withdrawn.deliveries()[0].state, state);
/// # Ok::<(), zapelaritz::statement::StatementError>(())
/// ```
#[derive(Clone, Debug)]
pub struct Statement {
    source: String,
    /// As it stands behind the last call.
    model: Model,
    /// The files of the deck's deliveries, in the order of the deck.
    delivered: Vec<FileId>,
    deliveries: Vec<Delivery>,
    /// The places among the deliveries of those that stand, the latest last: at most one for each file.
    standing: Vec<usize>,
    rollbacks: Vec<Rollback>,
}

/// A merge that was asked for.
#[derive(Clone, Debug, PartialEq, Eq)]
#[non_exhaustive]
pub struct Delivery {
    /// The line of the list of calls, counted from 1; without a list, the delivery's place in the order of the deck.
    pub call: u64,
    /// The delivery's file.
    pub file: FileId,
    /// What became of it.
    pub state: State,
    /// The counts that the merge reported; zero where it was refused.
    pub counts: Counts,
    /// What it is counted for, in the order of the log.
    pub entries: Vec<Counted>,
}

/// What became of a delivery.
#[derive(Clone, Debug, PartialEq, Eq)]
pub enum State {
    /// It stands, and is paid.
    Stands,
    /// A rollback took it back.
    Withdrawn {
        /// The rollback's line in the list of calls.
        call: u64,
        /// The mark that was rolled back to.
        mark: Mark,
    },
    /// It was refused, and nothing of it was merged.
    Refused {
        /// Why.
        refusal: Refusal,
        /// The path of the element that the refusal carries.
        path: Option<String>,
    },
}

/// One thing that a merge did, and is counted for.
#[derive(Clone, Debug, PartialEq, Eq)]
#[non_exhaustive]
pub struct Counted {
    /// What was done.
    pub kind: Kind,
    /// The element's number.
    pub element: ElementId,
    /// The element's path, as it stood behind the merge.
    pub path: String,
    /// The element's own set of files, as it stood behind the merge.
    pub files: FileSet,
}

/// What is counted.
#[derive(Clone, Copy, Debug, PartialEq, Eq)]
pub enum Kind {
    /// An element was imported, with all below it.
    Imported,
    /// An element was restricted to the older files.
    Restricted,
    /// A file set was extended by the delivery's file.
    Extended,
}

/// A rollback that was asked for.
#[derive(Clone, Debug, PartialEq, Eq)]
#[non_exhaustive]
pub struct Rollback {
    /// The line of the list of calls, counted from 1.
    pub call: u64,
    /// The mark that was rolled back to.
    pub mark: Mark,
    /// The number of entries taken off the log, or why it was refused.
    pub answer: Result<u64, Refusal>,
}

/// Why there is no statement.
#[derive(Clone, Debug, PartialEq, Eq)]
#[non_exhaustive]
pub enum StatementError {
    /// The deck is refused.
    Deck(LoadError),
    /// A line of the list of calls is no call.
    Call {
        /// The line, counted from 1.
        line: u64,
    },
    /// Behind a call the counts and the log differ. The engine is proved to keep them equal.
    Sums {
        /// The call.
        call: u64,
    },
}

impl fmt::Display for StatementError {
    fn fmt(&self, f: &mut fmt::Formatter<'_>) -> fmt::Result {
        match self {
            StatementError::Deck(error) => error.fmt(f),
            StatementError::Call { line } => write!(f, "line {line}: no call of this form"),
            StatementError::Sums { call } => {
                write!(f, "call {call}: the counts and the log differ")
            }
        }
    }
}

impl Error for StatementError {}

impl Statement {
    /// Makes the merges and rollbacks of a list of calls, and passes over its other calls; without a list it merges each
    /// delivery in the order of the deck.
    pub fn of(deck: impl AsRef<[u8]>, calls: Option<&[u8]>) -> Result<Statement, StatementError> {
        let model = Model::load(deck).map_err(StatementError::Deck)?;
        let delivered: Vec<FileId> = model.waiting().map(|tree| tree.file).collect();
        let calls = match calls {
            Some(list) => calls::read(list).map_err(|line| StatementError::Call { line })?,
            None => delivered.iter().copied().map(Call::Merge).collect(),
        };
        let mut statement = Statement {
            source: String::new(),
            model,
            delivered,
            deliveries: Vec::new(),
            standing: Vec::new(),
            rollbacks: Vec::new(),
        };
        for (number, call) in (1..).zip(calls) {
            let before = statement.total().total();
            match call {
                Call::Merge(file) => statement.merge(number, file),
                Call::Rollback(mark) => statement.roll_back(number, mark),
                Call::PassedOver => {}
            }
            if !statement.agrees_with_the_log() || !statement.took_off(number, before) {
                return Err(StatementError::Sums { call: number });
            }
        }
        Ok(statement)
    }

    /// The same statement with the names of its deck and list in its heading.
    pub fn with_source(mut self, source: &str) -> Statement {
        self.source = source.into();
        self
    }

    /// Every merge that was asked for, in the order of the calls.
    pub fn deliveries(&self) -> &[Delivery] {
        &self.deliveries
    }

    /// Every rollback that was asked for, in the order of the calls.
    pub fn rollbacks(&self) -> &[Rollback] {
        &self.rollbacks
    }

    /// The counts of what stands.
    pub fn total(&self) -> Counts {
        self.standing().map(|delivery| delivery.counts).sum()
    }

    /// The counts of what stands of a file.
    pub fn total_of(&self, file: FileId) -> Counts {
        let of_file = self.standing().filter(|delivery| delivery.file == file);
        of_file.map(|delivery| delivery.counts).sum()
    }

    /// Whether no merge and no rollback was refused.
    pub fn all_accepted(&self) -> bool {
        let merges = self.deliveries.iter().all(Delivery::is_accepted);
        merges && self.rollbacks.iter().all(|call| call.answer.is_ok())
    }

    /// What it is a statement of.
    fn heading(&self) -> String {
        match self.source.as_str() {
            "" => "Statement".into(),
            source => format!("Statement of {source}"),
        }
    }

    fn standing(&self) -> impl Iterator<Item = &Delivery> {
        let places = self.standing.iter();
        places.filter_map(|place| self.deliveries.get(*place))
    }

    /// The files whose deliveries wait behind the last call.
    fn waiting(&self) -> Vec<FileId> {
        self.model.waiting().map(|tree| tree.file).collect()
    }

    /// Paths are read at once: those of imported elements end with a rollback.
    fn merge(&mut self, call: u64, file: FileId) {
        let mark = self.model.mark();
        let (state, counts) = match self.model.merge(file) {
            Ok(counts) => {
                self.standing.push(self.deliveries.len());
                (State::Stands, counts)
            }
            Err(refusal) => {
                let element = refusal.element().and_then(|id| self.model.element(id));
                let path = element.map(Element::path);
                (State::Refused { refusal, path }, Counts::default())
            }
        };
        let entries = self.model.log_between(mark, self.model.mark());
        let entries = entries.map(|entry| Counted::read(&self.model, entry));
        let entries = entries.collect();
        self.deliveries.push(Delivery {
            call,
            file,
            state,
            counts,
            entries,
        });
    }

    /// The latest of the standing merges are withdrawn as long as the counts together exceed the mark.
    fn roll_back(&mut self, call: u64, mark: Mark) {
        let answer = self.model.rollback(mark);
        while answer.is_ok() && self.total().total() > mark.get() {
            let latest = self.standing.pop();
            match latest.and_then(|place| self.deliveries.get_mut(place)) {
                Some(delivery) => delivery.state = State::Withdrawn { call, mark },
                None => break,
            }
        }
        self.rollbacks.push(Rollback { call, mark, answer });
    }

    /// A call that was an accepted rollback reports what the deliveries that it withdrew were counted for.
    fn took_off(&self, call: u64, before: u64) -> bool {
        let rollback = self.rollbacks.last().filter(|it| it.call == call);
        let entries = rollback.and_then(|it| it.answer.ok());
        entries.is_none_or(|entries| self.total().total().saturating_add(entries) == before)
    }

    /// The standing deliveries are the merges that the log has, with the same counts, and their sum is the log's length.
    fn agrees_with_the_log(&self) -> bool {
        let stated = self.standing().map(|it| (it.file, it.counts));
        let logged = self.model.standing_merges().map(|it| (it.file, it.counts));
        stated.eq(logged) && self.total().total() == self.model.mark().get()
    }
}

impl Delivery {
    fn is_accepted(&self) -> bool {
        !matches!(self.state, State::Refused { .. })
    }
}

impl Counted {
    fn read(model: &Model, entry: Entry) -> Counted {
        let kind = match entry {
            Entry::Import { .. } => Kind::Imported,
            Entry::Restriction { .. } => Kind::Restricted,
            Entry::Extension { .. } => Kind::Extended,
        };
        let element = model.element(entry.element());
        Counted {
            kind,
            element: entry.element(),
            path: element.map(Element::path).unwrap_or_default(),
            files: element.map(Element::own_files).unwrap_or_default(),
        }
    }
}

impl fmt::Display for Kind {
    fn fmt(&self, f: &mut fmt::Formatter<'_>) -> fmt::Result {
        f.pad(match self {
            Kind::Imported => "imported",
            Kind::Restricted => "restricted",
            Kind::Extended => "extended",
        })
    }
}

/// What became of it, in words.
impl fmt::Display for State {
    fn fmt(&self, f: &mut fmt::Formatter<'_>) -> fmt::Result {
        write!(f, "{}", self.word())?;
        match self {
            State::Stands => Ok(()),
            State::Withdrawn { call, mark } => write!(f, " by call {call}: rollback to {mark}"),
            State::Refused { .. } => write!(f, ": {}", self.reason()),
        }
    }
}

impl State {
    /// What became of it, in a word.
    fn word(&self) -> &'static str {
        match self {
            State::Stands => "stands",
            State::Withdrawn { .. } => "withdrawn",
            State::Refused { .. } => "refused",
        }
    }

    /// Why it was refused, in words, with the path of the element; nothing where it was not.
    fn reason(&self) -> String {
        match self {
            State::Refused {
                refusal,
                path: Some(path),
            } => format!("{refusal} ({path})"),
            State::Refused { refusal, .. } => refusal.to_string(),
            _ => String::new(),
        }
    }
}

/// The names of a delivery's counts, and the counts in the same order.
const COUNT_NAMES: [&str; 4] = ["imported", "restricted", "extended", "sum"];

fn count_values(counts: Counts) -> [u64; 4] {
    let (imports, restrictions) = (counts.imports, counts.restrictions);
    [imports, restrictions, counts.extensions, counts.total()]
}

/// The numbers of the files, parted by spaces.
fn file_list(files: impl IntoIterator<Item = FileId>) -> String {
    let numbers: Vec<String> = files.into_iter().map(|file| file.to_string()).collect();
    numbers.join(" ")
}

#[cfg(test)]
mod tests {
    use super::*;

    /// The engine keeps counts and log equal, so a statement is changed by hand.
    #[test]
    fn sums_that_differ_are_seen() {
        let deck = b"T,0,0,0,0\nF,0,0\nF,1,0\nF,2,0\nM\nE,0,0,1\nB,1\nE,0,0,0\nB,2\nE,0,0,0\n";
        let statement = Statement::of(deck, None).unwrap();
        assert!(statement.agrees_with_the_log());
        let changes: [fn(&mut Statement); 4] = [
            |it| it.deliveries[1].counts.imports += 1,
            |it| it.deliveries[1].file = FileId(1),
            |it| it.standing = vec![1],
            |it| it.model = Model::load(it.model.deck()).unwrap(),
        ];
        assert!(statement.took_off(2, 2));
        let rolled_back = Statement::of(deck, Some(b"merge,1\nmerge,2\nrollback,1\n")).unwrap();
        assert!(rolled_back.took_off(3, 2));
        assert!(!rolled_back.took_off(3, 3));
        for change in changes {
            let mut changed = statement.clone();
            change(&mut changed);
            assert!(!changed.agrees_with_the_log());
        }
    }
}

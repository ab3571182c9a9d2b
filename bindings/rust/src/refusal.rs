use std::error::Error;
use std::fmt;

use crate::ffi::ANSWER_SIZE;
use crate::numbers::{ElementId, Name};

/// Why a deck was not loaded.
///
/// A line is counted from 1; line 0 is the deck as a whole.
#[derive(Clone, Copy, Debug, PartialEq, Eq, Hash)]
#[non_exhaustive]
pub enum LoadError {
    /// 0: the tables have not the sizes that the linked library asks for.
    BadTables,
    /// 1: the form of a line.
    Form {
        /// The first bad line.
        line: u64,
    },
    /// 2: a rule of the schema.
    SchemaRule {
        /// The first bad line.
        line: u64,
    },
    /// 3: a rule of the trees. Where the model or the last root is missing, the line is the deck's last.
    TreeRule {
        /// The first bad line.
        line: u64,
    },
    /// 4: a limit. A deck that is too long has line 0.
    Limit {
        /// The first bad line.
        line: u64,
    },
    /// A number that this package does not know.
    Unknown {
        /// The refusal's number.
        number: u64,
        /// The first bad line.
        line: u64,
    },
}

impl LoadError {
    /// The code is the refusal's number; the answer has it first, and then what it carries.
    pub(crate) fn from_answer(number: u64, [_, line, ..]: [u64; ANSWER_SIZE]) -> LoadError {
        match number {
            0 => LoadError::BadTables,
            1 => LoadError::Form { line },
            2 => LoadError::SchemaRule { line },
            3 => LoadError::TreeRule { line },
            4 => LoadError::Limit { line },
            _ => LoadError::Unknown { number, line },
        }
    }

    /// The refusal's number.
    ///
    /// ```
    /// assert_eq!(zapelaritz::LoadError::TreeRule { line: 3 }.number(), 3);
    /// ```
    pub fn number(&self) -> u64 {
        match *self {
            LoadError::BadTables => 0,
            LoadError::Form { .. } => 1,
            LoadError::SchemaRule { .. } => 2,
            LoadError::TreeRule { .. } => 3,
            LoadError::Limit { .. } => 4,
            LoadError::Unknown { number, .. } => number,
        }
    }

    /// The first bad line, counted from 1; 0 for the deck as a whole.
    ///
    /// ```
    /// assert_eq!(zapelaritz::Model::load("T,0,0,0,0\nX\n").unwrap_err().line(), 2);
    /// ```
    pub fn line(&self) -> u64 {
        match *self {
            LoadError::BadTables => 0,
            LoadError::Form { line }
            | LoadError::SchemaRule { line }
            | LoadError::TreeRule { line }
            | LoadError::Limit { line }
            | LoadError::Unknown { line, .. } => line,
        }
    }
}

impl fmt::Display for LoadError {
    fn fmt(&self, f: &mut fmt::Formatter<'_>) -> fmt::Result {
        match self.line() {
            0 => write!(f, "the deck: ")?,
            line => write!(f, "line {line}: ")?,
        }
        match *self {
            LoadError::BadTables => write!(f, "the tables are of a wrong size"),
            LoadError::Form { .. } => write!(f, "the form of a line is wrong"),
            LoadError::SchemaRule { .. } => write!(f, "a rule of the schema is broken"),
            LoadError::TreeRule { .. } => write!(f, "a rule of the trees is broken"),
            LoadError::Limit { .. } => write!(f, "a limit is exceeded"),
            LoadError::Unknown { number, .. } => write!(f, "refusal {number}"),
        }
    }
}

impl Error for LoadError {}

/// Why a merge, a rollback or a range was refused. A refused call changes nothing.
#[derive(Clone, Copy, Debug, PartialEq, Eq, Hash)]
#[non_exhaustive]
pub enum Refusal {
    /// 0: the tables are of a wrong size or do not pass the test. Those of a [`Model`](crate::Model) always pass.
    BadTables,
    /// 5, merge: no tree of that file waits.
    NotWaiting,
    /// 6, merge: the delivery cannot be merged.
    Unmergeable {
        /// The element in whose content it failed.
        element: ElementId,
    },
    /// 7, merge and range: the name is not known in the version.
    NotInVersion {
        /// The parent.
        element: ElementId,
        /// The name.
        name: Name,
    },
    /// 8, merge: a delivered element would be used twice.
    UsedTwice {
        /// The first such element.
        element: ElementId,
    },
    /// 9, merge: the log is full; a 1,025th entry is due.
    LogFull,
    /// 10, merge: the content lists are full; an import would make a 2,049th item.
    ContentFull,
    /// 11, range: no such element, or a version over 31.
    NoSuchElement,
    /// 12, range: the element is of mode 4 (characters) and has no children.
    CharactersParent {
        /// The element.
        element: ElementId,
    },
    /// 13, range: there is no place for the name.
    NoPlace {
        /// The element.
        element: ElementId,
    },
    /// 14, rollback: no mark; the number is above the log's length, or it is not 0 and no merge ended there.
    NoMark,
    /// A number that this package does not know.
    Unknown {
        /// The refusal's number.
        number: u64,
    },
}

impl Refusal {
    /// As [`LoadError::from_answer`].
    pub(crate) fn from_answer(number: u64, [_, element, name, _]: [u64; ANSWER_SIZE]) -> Refusal {
        let (element, name) = (ElementId(element), Name(name));
        match number {
            0 => Refusal::BadTables,
            5 => Refusal::NotWaiting,
            6 => Refusal::Unmergeable { element },
            7 => Refusal::NotInVersion { element, name },
            8 => Refusal::UsedTwice { element },
            9 => Refusal::LogFull,
            10 => Refusal::ContentFull,
            11 => Refusal::NoSuchElement,
            12 => Refusal::CharactersParent { element },
            13 => Refusal::NoPlace { element },
            14 => Refusal::NoMark,
            _ => Refusal::Unknown { number },
        }
    }

    /// The refusal's number.
    ///
    /// ```
    /// assert_eq!(zapelaritz::Refusal::NotWaiting.number(), 5);
    /// ```
    pub fn number(&self) -> u64 {
        match *self {
            Refusal::BadTables => 0,
            Refusal::NotWaiting => 5,
            Refusal::Unmergeable { .. } => 6,
            Refusal::NotInVersion { .. } => 7,
            Refusal::UsedTwice { .. } => 8,
            Refusal::LogFull => 9,
            Refusal::ContentFull => 10,
            Refusal::NoSuchElement => 11,
            Refusal::CharactersParent { .. } => 12,
            Refusal::NoPlace { .. } => 13,
            Refusal::NoMark => 14,
            Refusal::Unknown { number } => number,
        }
    }

    /// The element that the refusal carries.
    ///
    /// ```
    /// use zapelaritz::{ElementId, Refusal};
    ///
    /// let refusal = Refusal::Unmergeable { element: ElementId(4) };
    /// assert_eq!(refusal.element(), Some(ElementId(4)));
    /// assert_eq!(Refusal::LogFull.element(), None);
    /// ```
    pub fn element(&self) -> Option<ElementId> {
        match *self {
            Refusal::Unmergeable { element }
            | Refusal::NotInVersion { element, .. }
            | Refusal::UsedTwice { element }
            | Refusal::CharactersParent { element }
            | Refusal::NoPlace { element } => Some(element),
            _ => None,
        }
    }

    /// The name that the refusal carries.
    ///
    /// ```
    /// use zapelaritz::{ElementId, Name, Refusal};
    ///
    /// let refusal = Refusal::NotInVersion { element: ElementId(4), name: Name(3) };
    /// assert_eq!(refusal.name(), Some(Name(3)));
    /// assert_eq!(refusal.to_string(), "name 3 is not known in the version, in element 4");
    /// ```
    pub fn name(&self) -> Option<Name> {
        match *self {
            Refusal::NotInVersion { name, .. } => Some(name),
            _ => None,
        }
    }
}

impl fmt::Display for Refusal {
    fn fmt(&self, f: &mut fmt::Formatter<'_>) -> fmt::Result {
        match *self {
            Refusal::BadTables => {
                write!(f, "the tables are of a wrong size or do not pass the test")
            }
            Refusal::NotWaiting => write!(f, "no tree of that file waits"),
            Refusal::Unmergeable { element } => write!(
                f,
                "the delivery cannot be merged: it failed in the content of element {element}"
            ),
            Refusal::NotInVersion { element, name } => write!(
                f,
                "name {name} is not known in the version, in element {element}"
            ),
            Refusal::UsedTwice { element } => {
                write!(f, "delivered element {element} would be used twice")
            }
            Refusal::LogFull => write!(f, "the log is full"),
            Refusal::ContentFull => write!(f, "the content lists are full"),
            Refusal::NoSuchElement => write!(f, "no such element, or a version over 31"),
            Refusal::CharactersParent { element } => write!(
                f,
                "element {element} is of mode 4 (characters) and has no children"
            ),
            Refusal::NoPlace { element } => {
                write!(f, "there is no place for the name in element {element}")
            }
            Refusal::NoMark => write!(f, "no mark: no merge ended there"),
            Refusal::Unknown { number } => write!(f, "refusal {number}"),
        }
    }
}

impl Error for Refusal {}

#[cfg(test)]
mod tests {
    use super::*;

    /// Number, and whether it carries an element and a name: document 01, "What each operation refuses".
    const REFUSALS: [(u64, bool, bool); 11] = [
        (0, false, false),
        (5, false, false),
        (6, true, false),
        (7, true, true),
        (8, true, false),
        (9, false, false),
        (10, false, false),
        (11, false, false),
        (12, true, false),
        (13, true, false),
        (14, false, false),
    ];

    #[test]
    fn refusals_keep_their_numbers() {
        for (number, element, name) in REFUSALS {
            let refusal = Refusal::from_answer(number, [number, 17, 4095, 0]);
            assert_eq!(refusal.number(), number);
            assert_eq!(refusal.element(), element.then_some(ElementId(17)));
            assert_eq!(refusal.name(), name.then_some(Name(4095)));
            assert_ne!(refusal, Refusal::Unknown { number });
            assert_eq!(refusal.to_string().contains("17"), element);
            assert_eq!(refusal.to_string().contains("4095"), name);
        }
    }

    #[test]
    fn load_errors_keep_their_numbers() {
        for number in 0..=4 {
            let error = LoadError::from_answer(number, [number, 23, 0, 0]);
            assert_eq!(error.number(), number);
            assert_eq!(error.line(), if number == 0 { 0 } else { 23 });
            assert_ne!(error, LoadError::Unknown { number, line: 23 });
        }
        let long = LoadError::from_answer(4, [4, 0, 0, 0]);
        assert_eq!(long.to_string(), "the deck: a limit is exceeded");
        let form = LoadError::from_answer(1, [1, 23, 0, 0]);
        assert_eq!(form.to_string(), "line 23: the form of a line is wrong");
    }

    #[test]
    fn other_numbers_stay_themselves() {
        for number in [1, 2, 3, 4, 15, u64::MAX] {
            let refusal = Refusal::from_answer(number, [number, 1, 2, 0]);
            assert_eq!(refusal.number(), number);
        }
        let error = LoadError::from_answer(5, [5, 6, 0, 0]);
        assert_eq!((error.number(), error.line()), (5, 6));
    }
}

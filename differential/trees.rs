//! The model and the waiting trees of a deck as the original has them, merged by the original.

use std::fmt::Write;
use std::rc::Rc;

use crate::deck::{Deck, Item, Type};
use crate::faults::{Fault, fault};
use crate::original::{self, set_number};
use crate::stand_ins::*;

pub struct Trees {
    schema: Rc<[Type]>,
    model: AutosarModel,
    files: Vec<ArxmlFile>,
    /// Every element of the deck, by its number.
    elements: Vec<Element>,
    waiting: Vec<Waiting>,
}

struct Waiting {
    file: u64,
    root: Element,
}

/// Why the original refused a merge, as far as it tells.
pub enum Refusal {
    Unmergeable { element: u64 },
    NotInVersion { parent_name: u64, name: u64 },
    Other,
}

/// Why the original refused a range, as far as it tells.
pub enum RangeRefusal {
    NotInVersion { parent_name: u64, name: u64 },
    CharactersParent { parent_name: u64 },
    NoPlace { parent_name: u64 },
    Other,
}

impl Trees {
    pub fn load(deck: Deck) -> Trees {
        let first_version = deck.files.first().map_or(0, |file| file.version);
        let file = |file: &crate::deck::File| {
            let version = match fault(Fault::VersionOfFirstFile) {
                true => first_version,
                false => file.version,
            };
            ArxmlFileRaw { number: file.number, version: AutosarVersion::ALL[version] }.wrap()
        };
        let files: Vec<ArxmlFile> = deck.files.iter().map(file).collect();
        let element = |(number, element): (u64, &crate::deck::Element)| {
            ElementRaw {
                number,
                parent: ElementOrModel::None,
                elemname: ElementName(element.name),
                elemtype: ElementType(element.of_type),
                content: Vec::new(),
                file_membership: None,
            }
            .wrap()
        };
        let elements: Vec<Element> = (0..).zip(&deck.elements).map(element).collect();
        let model = AutosarModelRaw { root_element: elements[0].clone() }.wrap();
        for (from, element) in deck.elements.into_iter().zip(&elements) {
            let mut element = element.0.write();
            if let Some(parent) = from.parent {
                element.set_parent(ElementOrModel::Element(elements[parent].downgrade(), model.downgrade()));
            }
            element.set_file_membership(files_of(&files, from.set).map(ArxmlFile::downgrade).collect());
            element.content = from
                .content
                .into_iter()
                .map(|item| match item {
                    Item::Element(child) => ElementContent::Element(elements[child].clone()),
                    Item::Text(text) => ElementContent::CharacterData(text),
                })
                .collect();
        }
        elements[0].0.write().set_parent(ElementOrModel::Model(model.downgrade()));
        let waiting = deck.trees.iter().map(|tree| Waiting { file: tree.file, root: elements[tree.root].clone() });
        Trees { schema: schema_of(deck.types), waiting: waiting.collect(), model, files, elements }
    }

    /// Merges the tree of a file that waits. `original::log` has the undo log then.
    pub fn merge(&self, file: u64) -> Result<(), Refusal> {
        set_schema(&self.schema);
        let mut loaded = set_number(&self.model.root_element().file_membership_local());
        if fault(Fault::FilesOfAll) {
            loaded = u64::MAX;
        }
        let loaded: Vec<ArxmlFile> = files_of(&self.files, loaded).cloned().collect();
        let tree = self.waiting.iter().find(|tree| tree.file == file).ok_or(Refusal::Other)?;
        let new_file = files_of(&self.files, 1 << file).next().ok_or(Refusal::Other)?;
        original::merge(&self.model, &tree.root, new_file, &loaded).map_err(|error| match error {
            AutosarDataError::InvalidFileMerge { path } => Refusal::Unmergeable { element: element_of(&path) },
            AutosarDataError::InvalidSubElement { parent, element } => {
                Refusal::NotInVersion { parent_name: parent.0.into(), name: element.0.into() }
            }
            _ => Refusal::Other,
        })
    }

    /// The first and the last place.
    pub fn range(&self, element: usize, name: u16, version: usize) -> Result<(usize, usize), RangeRefusal> {
        set_schema(&self.schema);
        let element = self.elements.get(element).ok_or(RangeRefusal::Other)?;
        element.calc_element_insert_range(ElementName(name), AutosarVersion::ALL[version]).map_err(
            |error| match error {
                AutosarDataError::InvalidSubElement { parent, element } => {
                    RangeRefusal::NotInVersion { parent_name: parent.0.into(), name: element.0.into() }
                }
                AutosarDataError::IncorrectContentType { element } => {
                    RangeRefusal::CharactersParent { parent_name: element.0.into() }
                }
                AutosarDataError::ElementInsertionConflict { parent, .. } => {
                    RangeRefusal::NoPlace { parent_name: parent.0.into() }
                }
                _ => RangeRefusal::Other,
            },
        )
    }

    /// The model as the E and C lines of a deck.
    pub fn model_lines(&self) -> String {
        let mut lines = String::new();
        write_lines(&self.model.root_element(), 0, &mut lines);
        lines
    }

    /// A line for every element of the deck, in the model or in a delivered tree: its parent, its set and its content.
    pub fn state(&self) -> String {
        let mut lines = String::new();
        for element in &self.elements {
            let element = element.0.read();
            let parent = original::parent_number(&element.parent).map_or("-".into(), |parent| parent.to_string());
            let _ = write!(lines, "{}: {parent}, {:x}:", element.number, set_number(&element.file_membership_cloned()));
            for item in &element.content {
                let _ = match item {
                    ElementContent::Element(child) => write!(lines, " {}", child.0.read().number),
                    ElementContent::CharacterData(text) => write!(lines, " [{}]", text.fields()),
                };
            }
            lines.push('\n');
        }
        lines
    }
}

fn files_of(files: &[ArxmlFile], set: u64) -> impl Iterator<Item = &ArxmlFile> {
    files.iter().filter(move |file| set >> file.0.read().number & 1 == 1)
}

/// `ElementRaw::xml_path` is the element's number.
fn element_of(path: &str) -> u64 {
    path.parse().unwrap_or(u64::MAX)
}

fn write_lines(element: &Element, depth: usize, lines: &mut String) {
    let element = element.0.read();
    let set = set_number(&element.file_membership_cloned());
    let _ = writeln!(lines, "E,{depth},{},{set:x}", element.elemname.0);
    for item in &element.content {
        match item {
            ElementContent::Element(child) => write_lines(child, depth + 1, lines),
            ElementContent::CharacterData(text) => {
                let _ = writeln!(lines, "C,{},{}", depth + 1, text.fields());
            }
        }
    }
}

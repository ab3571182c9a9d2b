//! The engine: a loaded deck and its answers, as lines that the other sides' can be held against.

use std::fmt::Write;

use crate::random::Random;
use zapelaritz::{Counts, ElementId, FileId, Item, Mark, Model, Name, Places, Refusal, Version};

/// The refusals of a merge that are set aside: the original has no such.
pub const SET_ASIDE: [u64; 4] = [5, 8, 9, 10];

pub struct Engine {
    pub model: Model,
}

impl Engine {
    /// Or the refusal's number and line.
    pub fn load(deck: &[u8]) -> Result<Engine, (u64, u64)> {
        match Model::load(deck) {
            Ok(model) => Ok(Engine { model }),
            Err(error) => Err((error.number(), error.line())),
        }
    }

    pub fn merge(&mut self, file: u64) -> Result<Counts, Refusal> {
        self.model.merge(FileId(file))
    }

    pub fn rollback(&mut self, mark: u64) -> Result<u64, Refusal> {
        self.model.rollback(Mark(mark))
    }

    pub fn range(&self, element: u64, name: u64, version: u64) -> Result<Places, Refusal> {
        self.model.range(ElementId(element), Name(name), Version(version))
    }

    pub fn mark(&self) -> u64 {
        self.model.mark().get()
    }

    pub fn waiting(&self) -> Vec<u64> {
        self.model.waiting().map(|tree| tree.file.get()).collect()
    }

    pub fn element_count(&self) -> u64 {
        (0..).take_while(|number| self.model.element(ElementId(*number)).is_some()).count() as u64
    }

    /// The name of an element.
    pub fn name(&self, element: ElementId) -> u64 {
        self.model.element(element).map_or(u64::MAX, |element| element.name().get())
    }

    pub fn type_number(&self, element: u64) -> u64 {
        self.model.element(ElementId(element)).map_or(0, |element| element.type_id().get())
    }

    /// A version for a range: mostly that of a file.
    pub fn some_version(&self, random: &mut Random) -> u64 {
        let versions: Vec<u64> = self.model.files().map(|file| file.version.get()).collect();
        match random.below(4) {
            0 => random.below(32),
            _ => *random.choose(&versions),
        }
    }

    pub fn model_lines(&self) -> String {
        self.model.model_lines()
    }

    /// The entries of the log from a mark on.
    pub fn log(&self, mark: u64) -> String {
        let mut lines = String::new();
        for entry in self.model.log_between(Mark(mark), self.model.mark()) {
            let _ = writeln!(lines, "{entry}");
        }
        lines
    }

    /// A line for every element of the deck, in the model or in a delivered tree: its parent, its set and its content.
    pub fn state(&self) -> String {
        let mut lines = String::new();
        for element in (0..).map_while(|number| self.model.element(ElementId(number))) {
            let parent = or_dash(element.parent().map(|parent| parent.id()));
            let _ = write!(lines, "{}: {parent}, {:x}:", element.id(), element.own_files());
            for item in element.items() {
                let _ = match item {
                    Item::Element(child) => write!(lines, " {}", child.id()),
                    Item::Text(text) => write!(lines, " [{}]", text.in_deck()),
                };
            }
            lines.push('\n');
        }
        lines
    }
}

/// The answer to a merge as the program prints it.
pub fn answer(file: u64, answer: &Result<Counts, Refusal>) -> String {
    match answer {
        Ok(counts) => format!("merged,{file},{},{},{}", counts.imports, counts.restrictions, counts.extensions),
        Err(refusal) => {
            format!("refused,{file},{},{},{}", refusal.number(), or_dash(refusal.element()), or_dash(refusal.name()))
        }
    }
}

pub fn or_dash(number: Option<impl ToString>) -> String {
    number.map_or("-".into(), |number| number.to_string())
}

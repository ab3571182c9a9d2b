//! Decks that load, read for the original's side.

use crate::stand_ins::CharacterData;

pub enum Item {
    Element(usize),
    Text(CharacterData),
}

pub struct Row {
    pub path: Vec<usize>,
    pub name: u16,
    pub child: usize,
    pub mult: u8,
    pub mask: u32,
}

pub struct Group {
    pub path: Vec<usize>,
    pub mode: u8,
}

pub struct Type {
    pub mode: u8,
    pub named: bool,
    pub split: u32,
    pub groups: Vec<Group>,
    pub rows: Vec<Row>,
}

pub struct Element {
    pub name: u16,
    pub of_type: usize,
    pub set: u64,
    pub parent: Option<usize>,
    pub content: Vec<Item>,
}

pub struct File {
    pub number: u64,
    pub version: usize,
}

/// A waiting tree.
pub struct Tree {
    pub file: u64,
    pub root: usize,
}

#[derive(Default)]
pub struct Deck {
    pub types: Vec<Type>,
    pub files: Vec<File>,
    pub elements: Vec<Element>,
    pub trees: Vec<Tree>,
}

impl Deck {
    /// None for some decks that do not load.
    pub fn read(bytes: &[u8]) -> Option<Deck> {
        let mut deck = Deck::default();
        // The elements of the latest tree that lines may belong to, one for each depth.
        let mut open: Vec<usize> = Vec::new();
        for line in std::str::from_utf8(bytes).ok()?.lines() {
            let fields: Vec<&str> = line.split(',').collect();
            match *fields.as_slice() {
                ["T", _, mode, named, split] => deck.types.push(Type {
                    mode: mode.parse().ok()?,
                    named: named == "1",
                    split: u32::from_str_radix(split, 16).ok()?,
                    groups: Vec::new(),
                    rows: Vec::new(),
                }),
                ["G", of_type, path, mode] => {
                    deck.type_mut(of_type)?.groups.push(Group { path: read_path(path)?, mode: mode.parse().ok()? })
                }
                ["S", of_type, path, name, child, mult, mask] => deck.type_mut(of_type)?.rows.push(Row {
                    path: read_path(path)?,
                    name: name.parse().ok()?,
                    child: child.parse().ok()?,
                    mult: mult.parse().ok()?,
                    mask: u32::from_str_radix(mask, 16).ok()?,
                }),
                ["F", number, version] => {
                    deck.files.push(File { number: number.parse().ok()?, version: version.parse().ok()? })
                }
                ["M"] => open.clear(),
                ["B", file] => {
                    open.clear();
                    deck.trees.push(Tree { file: file.parse().ok()?, root: deck.elements.len() });
                }
                ["E", depth, name, set] => {
                    let depth: usize = depth.parse().ok()?;
                    let name = name.parse().ok()?;
                    let parent = match depth {
                        0 => None,
                        _ => Some(*open.get(depth - 1)?),
                    };
                    let of_type = match parent {
                        None => 0,
                        Some(parent) => deck.child_type(parent, name)?,
                    };
                    let number = deck.elements.len();
                    if let Some(parent) = parent {
                        deck.elements[parent].content.push(Item::Element(number));
                    }
                    deck.elements.push(Element {
                        name,
                        of_type,
                        set: u64::from_str_radix(set, 16).ok()?,
                        parent,
                        content: Vec::new(),
                    });
                    open.truncate(depth);
                    open.push(number);
                }
                ["C", depth, kind, value] => {
                    let depth: usize = depth.parse().ok()?;
                    let parent = *open.get(depth.checked_sub(1)?)?;
                    let text = match kind {
                        "e" => CharacterData::Enum(value.parse().ok()?),
                        "s" => CharacterData::String(value.to_owned()),
                        "u" => CharacterData::UnsignedInteger(value.parse().ok()?),
                        _ => CharacterData::Float(f64::from_bits(u64::from_str_radix(value, 16).ok()?)),
                    };
                    deck.elements[parent].content.push(Item::Text(text));
                }
                _ => return None,
            }
        }
        Some(deck)
    }

    fn type_mut(&mut self, number: &str) -> Option<&mut Type> {
        self.types.get_mut(number.parse::<usize>().ok()?)
    }

    fn child_type(&self, parent: usize, name: u16) -> Option<usize> {
        let rows = &self.types.get(self.elements[parent].of_type)?.rows;
        rows.iter().find(|row| row.name == name).map(|row| row.child)
    }
}

fn read_path(path: &str) -> Option<Vec<usize>> {
    path.split('.').map(|part| part.parse().ok()).collect()
}

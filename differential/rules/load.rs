//! Load: the form of a line, the limits, the rules of schema and trees.

use super::faults::{Fault, faulty};
use super::{
    ALL_VERSIONS, DEPTH_LIMIT, Element, Group, ITEM_LIMIT, Item, Mode, Path, ROOT, Row, Text, Tree, Type, World, holds,
};

// ---- A line's form

enum Line {
    Type { number: u64, new: Type },
    Group { owner: usize, new: Group },
    Sub { owner: usize, new: Row },
    File { number: u64, version: u64 },
    Model,
    Tree { file: u64 },
    Element { depth: usize, name: u64, set: u64 },
    Text { depth: usize, text: Text },
}

const TYPE_FIELD: u64 = 65_535;
const DEPTH_FIELD: u64 = 65_535;
const NAME_FIELD: u64 = 4_095;
const FILE_FIELD: u64 = 63;

fn number(field: &[u8], radix: u32, most: u64) -> Option<u64> {
    let digits = std::str::from_utf8(field).ok()?;
    let plain = digits.bytes().all(|b| matches!(b, b'0'..=b'9' | b'a'..=b'f'));
    let leading_zero = digits.len() > 1 && digits.starts_with('0');
    let value = u64::from_str_radix(digits, radix).ok()?;
    (plain && !leading_zero && value <= most).then_some(value)
}

fn decimal(field: &[u8], most: u64) -> Option<u64> {
    number(field, 10, most)
}

fn hexadecimal(field: &[u8], most: u64) -> Option<u64> {
    number(field, 16, most)
}

fn read_path(field: &[u8], most: usize) -> Option<Path> {
    let parts = field.split(|b| *b == b'.').map(|part| decimal(part, 255).map(|n| n as u8));
    let path: Path = parts.collect::<Option<_>>()?;
    (path.len() <= most).then_some(path)
}

fn read_mode(field: &[u8], most: u64) -> Option<Mode> {
    let modes = [Mode::Sequence, Mode::Choice, Mode::Bag, Mode::Mixed, Mode::Characters];
    decimal(field, most).map(|n| modes[n as usize])
}

fn read_mask(field: &[u8]) -> Option<u64> {
    hexadecimal(field, ALL_VERSIONS).filter(|mask| *mask != 0)
}

fn read_text(kind: &[u8], value: &[u8]) -> Option<Text> {
    match kind {
        b"e" => decimal(value, 65_535).map(Text::Enum),
        b"s" => value.iter().all(|b| (0x20..=0x7e).contains(b)).then(|| Text::String(value.to_vec())),
        b"u" => decimal(value, u64::MAX).map(Text::Whole),
        b"f" => hexadecimal(value, u64::MAX).map(Text::Float),
        _ => None,
    }
}

fn read_type(mode: &[u8], named: &[u8], split: &[u8]) -> Option<Type> {
    Some(Type {
        named: decimal(named, 1)? == 1,
        split: hexadecimal(split, ALL_VERSIONS)?,
        groups: vec![Group { path: vec![], mode: read_mode(mode, 4)? }],
        rows: vec![],
    })
}

fn read_row(path: &[u8], name: &[u8], child: &[u8], mult: &[u8], mask: &[u8]) -> Option<Row> {
    Some(Row {
        path: read_path(path, 4)?,
        name: decimal(name, NAME_FIELD)?,
        child: decimal(child, TYPE_FIELD)? as usize,
        mult: decimal(mult, 2)?,
        mask: read_mask(mask)?,
    })
}

fn read_line(line: &[u8]) -> Option<Line> {
    let fields: Vec<&[u8]> = line.split(|b| *b == b',').collect();
    Some(match fields[..] {
        [b"T", number, mode, named, split] => {
            Line::Type { number: decimal(number, TYPE_FIELD)?, new: read_type(mode, named, split)? }
        }
        [b"G", owner, path, mode] => Line::Group {
            owner: decimal(owner, TYPE_FIELD)? as usize,
            new: Group { path: read_path(path, 3)?, mode: read_mode(mode, 3)? },
        },
        [b"S", owner, path, name, child, mult, mask] => {
            Line::Sub { owner: decimal(owner, TYPE_FIELD)? as usize, new: read_row(path, name, child, mult, mask)? }
        }
        [b"F", file, version] => Line::File { number: decimal(file, FILE_FIELD)?, version: decimal(version, 31)? },
        [b"M"] => Line::Model,
        [b"B", file] => Line::Tree { file: decimal(file, FILE_FIELD)? },
        [b"E", depth, name, set] => Line::Element {
            depth: decimal(depth, DEPTH_FIELD)? as usize,
            name: decimal(name, NAME_FIELD)?,
            set: hexadecimal(set, u64::MAX)?,
        },
        [b"C", depth, kind, value] => {
            Line::Text { depth: decimal(depth, DEPTH_FIELD)? as usize, text: read_text(kind, value)? }
        }
        _ => return None,
    })
}

/// The place of a line's kind in the order of kinds. E and C have none.
fn kind(line: &Line) -> Option<u64> {
    match line {
        Line::Type { .. } => Some(0),
        Line::Group { .. } => Some(1),
        Line::Sub { .. } => Some(2),
        Line::File { .. } => Some(3),
        Line::Model => Some(4),
        Line::Tree { .. } => Some(5),
        Line::Element { .. } | Line::Text { .. } => None,
    }
}

// ---- Load

const FORM: u64 = 1;
const SCHEMA_RULE: u64 = 2;
const TREE_RULE: u64 = 3;
const LIMIT: u64 = 4;

const DECK_LIMIT: usize = 32_768;
const TYPE_LIMIT: usize = 128;
const ROW_LIMIT: usize = 512;
const GROUP_LIMIT: usize = 128;
const ELEMENT_LIMIT: usize = 1_024;

/// The refusal's number and the line.
pub fn load(deck: &[u8]) -> Result<World, (u64, u64)> {
    if deck.len() > DECK_LIMIT {
        return Err((LIMIT, 0));
    }
    let mut load = Load::default();
    let mut number = 0;
    for line in deck.split_inclusive(|b| *b == b'\n') {
        number += 1;
        load.line(line).map_err(|refusal| (refusal, number))?;
    }
    if !load.model || load.root_due {
        return Err((TREE_RULE, number));
    }
    Ok(load.world)
}

fn ensure(kept: bool, refusal: u64) -> Result<(), u64> {
    if kept { Ok(()) } else { Err(refusal) }
}

#[derive(Default)]
struct Load {
    world: World,
    latest_kind: u64,
    /// An M stands.
    model: bool,
    /// The file of the waiting tree that is being read.
    waiting: Option<u64>,
    root_due: bool,
    /// The open element of each depth.
    open: Vec<usize>,
}

impl Load {
    fn line(&mut self, line: &[u8]) -> Result<(), u64> {
        let line = line.strip_suffix(b"\n").and_then(read_line).ok_or(FORM)?;
        self.order(&line)?;
        self.limits(&line)?;
        match line {
            Line::Type { new, .. } => self.world.types.push(new),
            Line::Group { owner, new } => self.group(owner, new)?,
            Line::Sub { owner, new } => self.row(owner, new)?,
            Line::File { number, version } => self.world.files.push((number, version)),
            Line::Model => self.model_line()?,
            Line::Tree { file } => self.tree_line(file)?,
            Line::Element { depth, name, set } if self.root_due => self.root(depth, name, set)?,
            Line::Element { depth, name, set } => self.child(depth, name, set)?,
            Line::Text { depth, text } => self.text(depth, text)?,
        }
        Ok(())
    }

    fn order(&mut self, line: &Line) -> Result<(), u64> {
        if let Some(kind) = kind(line) {
            ensure(kind >= self.latest_kind, FORM)?;
            self.latest_kind = kind;
        }
        match line {
            Line::Type { number, .. } => ensure(*number == self.world.types.len() as u64, FORM),
            Line::File { number, .. } => ensure(self.world.files.last().is_none_or(|(last, _)| last < number), FORM),
            _ => Ok(()),
        }
    }

    fn limits(&self, line: &Line) -> Result<(), u64> {
        let types = &self.world.types;
        let fits = match line {
            Line::Type { .. } => types.len() < TYPE_LIMIT,
            Line::Group { .. } => types.iter().map(|t| t.groups.len() - 1).sum::<usize>() < GROUP_LIMIT,
            Line::Sub { .. } => types.iter().map(|t| t.rows.len()).sum::<usize>() < ROW_LIMIT,
            Line::Element { depth: 0, .. } => self.world.elements.len() < ELEMENT_LIMIT,
            Line::Element { depth, .. } => {
                *depth <= DEPTH_LIMIT && self.world.elements.len() < ELEMENT_LIMIT && self.world.items() < ITEM_LIMIT
            }
            Line::Text { depth, .. } => *depth <= DEPTH_LIMIT && self.world.items() < ITEM_LIMIT,
            Line::File { .. } | Line::Model | Line::Tree { .. } => true,
        };
        ensure(fits, LIMIT)
    }

    /// The type that a row is of.
    fn owner(&mut self, owner: usize) -> Result<&mut Type, u64> {
        self.world.types.get_mut(owner).filter(|t| t.mode() != Mode::Characters).ok_or(SCHEMA_RULE)
    }

    fn group(&mut self, owner: usize, new: Group) -> Result<(), u64> {
        let owner = self.owner(owner)?;
        ensure(begun(owner, &new.path), SCHEMA_RULE)?;
        ensure(owner.groups.iter().all(|group| group.path != new.path), SCHEMA_RULE)?;
        owner.groups.push(new);
        Ok(())
    }

    fn row(&mut self, owner: usize, new: Row) -> Result<(), u64> {
        ensure(new.child < self.world.types.len(), SCHEMA_RULE)?;
        let owner = self.owner(owner)?;
        let begins_none = owner.groups.iter().all(|group| !group.path.starts_with(&new.path));
        ensure(begun(owner, &new.path), SCHEMA_RULE)?;
        ensure(begins_none || faulty(Fault::RowBeginsGroup), SCHEMA_RULE)?;
        ensure(owner.rows.iter().all(|row| row.name != new.name && apart(&row.path, &new.path)), SCHEMA_RULE)?;
        owner.rows.push(new);
        Ok(())
    }

    fn model_line(&mut self) -> Result<(), u64> {
        ensure(!self.model && !self.root_due, TREE_RULE)?;
        self.model = true;
        self.root_due = true;
        Ok(())
    }

    fn tree_line(&mut self, file: u64) -> Result<(), u64> {
        let loaded = self.model && holds(self.world.elements.first().map_or(0, |root| root.set), file);
        let again = self.world.trees.iter().any(|tree| tree.file == file) && !faulty(Fault::TreeTwice);
        ensure(!self.root_due && self.world.version(file).is_some() && !loaded && !again, TREE_RULE)?;
        self.waiting = Some(file);
        self.root_due = true;
        Ok(())
    }

    fn root(&mut self, depth: usize, name: u64, set: u64) -> Result<(), u64> {
        ensure(depth == 0 && name == 0, TREE_RULE)?;
        ensure(!self.world.types.is_empty(), SCHEMA_RULE)?;
        let declared = (0..64).filter(|file| holds(set, *file)).all(|file| self.world.version(file).is_some());
        ensure(if self.waiting.is_some() { set == 0 } else { set != 0 && declared }, TREE_RULE)?;
        let root = self.world.elements.len();
        self.world.elements.push(Element { name, element_type: 0, depth, set, parent: None, content: vec![] });
        self.world.trees.extend(self.waiting.map(|file| Tree { file, root }));
        self.open = vec![root];
        self.root_due = false;
        Ok(())
    }

    /// The element that a line of this depth belongs to.
    fn belongs_to(&self, depth: usize) -> Result<usize, u64> {
        let parent = depth.checked_sub(1).and_then(|above| self.open.get(above));
        parent.filter(|_| !self.root_due).copied().ok_or(TREE_RULE)
    }

    fn child(&mut self, depth: usize, name: u64, set: u64) -> Result<(), u64> {
        let parent = self.belongs_to(depth)?;
        let row = self.world.type_of(parent).row(name).ok_or(TREE_RULE)?;
        let most = if self.waiting.is_some() { 0 } else { self.world.elements[ROOT].set };
        ensure(set & !most == 0 || faulty(Fault::AnyChildSet), TREE_RULE)?;
        let element = Element { name, element_type: row.child, depth, set, parent: Some(parent), content: vec![] };
        let number = self.world.elements.len();
        self.world.elements.push(element);
        self.world.elements[parent].content.push(Item::Element(number));
        self.open.truncate(depth);
        self.open.push(number);
        Ok(())
    }

    fn text(&mut self, depth: usize, text: Text) -> Result<(), u64> {
        let parent = self.belongs_to(depth)?;
        ensure(matches!(self.world.type_of(parent).mode(), Mode::Mixed | Mode::Characters), TREE_RULE)?;
        self.world.elements[parent].content.push(Item::Text(text));
        Ok(())
    }
}

/// Every proper beginning of the path has its group; the empty one is the type.
fn begun(owner: &Type, path: &[u8]) -> bool {
    (0..path.len()).all(|n| owner.groups.iter().any(|group| group.path == path[..n]))
}

fn apart(a: &[u8], b: &[u8]) -> bool {
    !a.starts_with(b) && !b.starts_with(a)
}

//! What the original's functions use and is not at hand: the schema types of autosar-data-specification, the types that the
//! crate's lib.rs declares, an iterator, and locks. Names and signatures are the original's, so that its text compiles as it
//! is. The schema answers from the rows of a deck.

use std::cell::{Ref, RefCell, RefMut};
use std::cmp::Ordering;
use std::collections::HashSet;
use std::rc::Rc;
use std::sync::{Arc, Weak};
use std::time::Duration;

use crate::deck::Type;
use crate::faults::{Fault, fault};

// ---- schema

thread_local! {
    static SCHEMA: RefCell<Rc<[Type]>> = RefCell::new(Rc::new([]));
}

/// The schema that element types answer from, from now on.
pub fn set_schema(schema: &Rc<[Type]>) {
    SCHEMA.set(Rc::clone(schema));
}

/// The types of a deck as they are asked.
pub fn schema_of(mut types: Vec<Type>) -> Rc<[Type]> {
    let paths = types.iter_mut().flat_map(|of_type| {
        let groups = of_type.groups.iter_mut().map(|group| &mut group.path);
        groups.chain(of_type.rows.iter_mut().map(|row| &mut row.path))
    });
    for path in paths {
        for part in path {
            if fault(Fault::PathsReversed) {
                *part = 255 - *part;
            } else if fault(Fault::PathsAsText) {
                let text = part.to_string();
                *part = (0..256).filter(|other: &usize| other.to_string() < text).count();
            }
        }
    }
    types.into()
}

#[derive(Clone, Copy, PartialEq, Eq, Hash)]
pub struct ElementName(pub u16);

#[allow(non_upper_case_globals)]
impl ElementName {
    pub const ShortName: ElementName = ElementName(1);
    pub const DefinitionRef: ElementName = ElementName(2);
}

#[derive(Clone, Copy, Debug, PartialEq, Eq)]
pub enum ContentMode {
    Sequence,
    Choice,
    Bag,
    Mixed,
    Characters,
}

impl ContentMode {
    fn of(mode: u8) -> ContentMode {
        match mode {
            0 => ContentMode::Sequence,
            1 if fault(Fault::ChoiceIsSequence) => ContentMode::Sequence,
            1 => ContentMode::Choice,
            2 if fault(Fault::BagIsSequence) => ContentMode::Sequence,
            2 => ContentMode::Bag,
            3 if fault(Fault::MixedIsBag) => ContentMode::Bag,
            3 => ContentMode::Mixed,
            _ => ContentMode::Characters,
        }
    }
}

#[derive(Clone, Copy, PartialEq, Eq)]
pub enum ElementMultiplicity {
    ZeroOrOne,
    One,
    Any,
}

/// A group, known by its mode alone.
pub struct GroupType(u8);

impl GroupType {
    pub fn content_mode(&self) -> ContentMode {
        ContentMode::of(self.0)
    }
}

#[derive(Clone, Copy)]
pub struct ElementType(pub usize);

impl ElementType {
    fn ask<R>(self, question: impl FnOnce(&Type) -> R) -> R {
        SCHEMA.with_borrow(|schema| question(&schema[self.0]))
    }

    pub fn find_sub_element(&self, target_name: ElementName, version: u32) -> Option<(ElementType, Vec<usize>)> {
        self.ask(|of_type| {
            let row = of_type.rows.iter().find(|row| row.name == target_name.0)?;
            let known = if fault(Fault::MaskIgnored) {
                true
            } else if fault(Fault::MaskOfNextVersion) {
                row.mask & version.rotate_left(1) != 0
            } else if fault(Fault::MaskContains) {
                row.mask & version == version
            } else {
                row.mask & version != 0
            };
            known.then(|| (ElementType(row.child), row.path.clone()))
        })
    }

    pub fn find_common_group(&self, element_indices: &[usize], element_indices2: &[usize]) -> Option<GroupType> {
        let last_parts = usize::from(!fault(Fault::GroupTooLong));
        let mut length = element_indices
            .iter()
            .zip(element_indices2)
            .take_while(|(part, part2)| part == part2)
            .count()
            .min(element_indices.len() - last_parts)
            .min(element_indices2.len() - last_parts);
        if fault(Fault::GroupTooShort) {
            length = length.saturating_sub(1);
        } else if fault(Fault::GroupOfFirstPath) {
            length = element_indices.len() - 1;
        }
        self.ask(|of_type| {
            if length == 0 || fault(Fault::GroupIsType) {
                return Some(GroupType(of_type.mode));
            }
            let path = &element_indices[..length];
            let group = match fault(Fault::ModeOfFirstGroup) {
                true => of_type.groups.first()?,
                false => of_type.groups.iter().find(|group| group.path == path)?,
            };
            Some(GroupType(group.mode))
        })
    }

    pub fn get_sub_element_multiplicity(&self, element_indices: &[usize]) -> Option<ElementMultiplicity> {
        self.ask(|of_type| {
            let row = match fault(Fault::MultOfFirstRow) {
                true => of_type.rows.first()?,
                false => of_type.rows.iter().find(|row| row.path == element_indices)?,
            };
            Some(match row.mult {
                0 if !fault(Fault::MultOptionalIsAny) => ElementMultiplicity::ZeroOrOne,
                1 if !fault(Fault::MultOneIsAny) => ElementMultiplicity::One,
                _ => ElementMultiplicity::Any,
            })
        })
    }

    pub fn splittable(&self) -> u32 {
        self.ask(|of_type| of_type.split)
    }

    pub fn splittable_in(&self, version: AutosarVersion) -> bool {
        let bit = version as u32;
        if fault(Fault::SplitOfNextVersion) {
            self.splittable() & bit.rotate_left(1) != 0
        } else if fault(Fault::SplitInSome) {
            self.splittable() != 0
        } else if fault(Fault::SplitOfChoice) && self.content_mode() == ContentMode::Choice {
            true
        } else {
            self.splittable() & bit != 0
        }
    }

    pub fn is_named(&self) -> bool {
        if fault(Fault::AllNamed) || fault(Fault::NoneNamed) {
            return fault(Fault::AllNamed);
        }
        self.ask(|of_type| of_type.named)
    }

    pub fn content_mode(&self) -> ContentMode {
        ContentMode::of(self.ask(|of_type| of_type.mode))
    }
}

macro_rules! versions {
    ($($version:ident: $number:literal)*) => {
        /// A version as a number is its bit.
        #[derive(Clone, Copy, PartialEq, Eq)]
        #[repr(u32)]
        pub enum AutosarVersion {
            $($version = 1 << $number,)*
        }

        impl AutosarVersion {
            pub const ALL: [AutosarVersion; 32] = [$(AutosarVersion::$version,)*];
            pub const LATEST: AutosarVersion = AutosarVersion::V31;
        }
    };
}

versions! {
    V0: 0 V1: 1 V2: 2 V3: 3 V4: 4 V5: 5 V6: 6 V7: 7 V8: 8 V9: 9 V10: 10 V11: 11 V12: 12 V13: 13 V14: 14 V15: 15
    V16: 16 V17: 17 V18: 18 V19: 19 V20: 20 V21: 21 V22: 22 V23: 23 V24: 24 V25: 25 V26: 26 V27: 27 V28: 28 V29: 29 V30: 30 V31: 31
}

impl Ord for AutosarVersion {
    fn cmp(&self, other: &AutosarVersion) -> Ordering {
        let order = (*self as u32).cmp(&(*other as u32));
        match fault(Fault::GreatestVersion) {
            true => order.reverse(),
            false => order,
        }
    }
}

impl PartialOrd for AutosarVersion {
    fn partial_cmp(&self, other: &AutosarVersion) -> Option<Ordering> {
        Some(self.cmp(other))
    }
}

// ---- texts

#[derive(Clone)]
pub enum CharacterData {
    Enum(u16),
    String(String),
    UnsignedInteger(u64),
    Float(f64),
}

impl PartialEq for CharacterData {
    fn eq(&self, other: &CharacterData) -> bool {
        use CharacterData::{Enum, Float, String, UnsignedInteger};
        match (self, other) {
            (Enum(a), Enum(b)) => a == b,
            (String(a), String(b)) if fault(Fault::StringsByLength) => a.len() == b.len(),
            (String(a), String(b)) => a == b,
            (UnsignedInteger(a), UnsignedInteger(b)) => a == b,
            (Float(a), Float(b)) if fault(Fault::NanUnequal) => a == b,
            (Float(a), Float(b)) if fault(Fault::ZerosUnequal) => {
                a.to_bits() == b.to_bits() || a.is_nan() && b.is_nan()
            }
            (Float(a), Float(b)) => a == b || a.is_nan() && b.is_nan(),
            (Enum(a), UnsignedInteger(b)) | (UnsignedInteger(b), Enum(a)) if fault(Fault::KindsEqual) => {
                u64::from(*a) == *b
            }
            _ => false,
        }
    }
}

impl CharacterData {
    pub fn string_value(&self) -> Option<String> {
        match self {
            CharacterData::String(string) => Some(string.clone()),
            CharacterData::UnsignedInteger(number) if fault(Fault::DefinitionOfNumber) => Some(number.to_string()),
            _ => None,
        }
    }

    /// The kind and the value, as a C line has them.
    pub fn fields(&self) -> String {
        match self {
            CharacterData::Enum(number) => format!("e,{number}"),
            CharacterData::String(string) => format!("s,{string}"),
            CharacterData::UnsignedInteger(number) => format!("u,{number}"),
            CharacterData::Float(float) => format!("f,{:x}", float.to_bits()),
        }
    }
}

// ---- elements, files, the model

#[derive(Clone)]
pub struct Element(pub Arc<RwLock<ElementRaw>>);

#[derive(Clone)]
pub struct WeakElement(pub Weak<RwLock<ElementRaw>>);

pub struct ElementRaw {
    /// The element's number in the deck.
    pub number: u64,
    pub parent: ElementOrModel,
    pub elemname: ElementName,
    pub elemtype: ElementType,
    pub content: Vec<ElementContent>,
    pub file_membership: Option<Box<HashSet<WeakArxmlFile>>>,
}

impl ElementRaw {
    /// The original gives a path of item names, which two elements can share; here it is the element's number.
    pub fn xml_path(&self) -> String {
        self.number.to_string()
    }
}

pub enum ElementContent {
    Element(Element),
    CharacterData(CharacterData),
}

pub enum ElementOrModel {
    Element(WeakElement, WeakAutosarModel),
    Model(WeakAutosarModel),
    None,
}

impl ElementOrModel {
    pub fn weak_model(&self) -> WeakAutosarModel {
        match self {
            ElementOrModel::Element(_, model) | ElementOrModel::Model(model) => model.clone(),
            ElementOrModel::None => WeakAutosarModel(Weak::new()),
        }
    }
}

pub struct ElementsIterator {
    element: Element,
    index: usize,
}

impl ElementsIterator {
    pub fn new(element: Element) -> ElementsIterator {
        ElementsIterator { element, index: 0 }
    }
}

impl Iterator for ElementsIterator {
    type Item = Element;

    fn next(&mut self) -> Option<Element> {
        let element = self.element.0.read();
        loop {
            let item = element.content.get(self.index)?;
            self.index += 1;
            match item {
                ElementContent::Element(sub_element) => return Some(sub_element.clone()),
                ElementContent::CharacterData(_) if fault(Fault::ChildrenEndAtText) => self.index = usize::MAX,
                ElementContent::CharacterData(_) => {}
            }
        }
    }
}

#[derive(Clone)]
pub struct ArxmlFile(pub Arc<RwLock<ArxmlFileRaw>>);

#[derive(Clone)]
pub struct WeakArxmlFile(pub Weak<RwLock<ArxmlFileRaw>>);

pub struct ArxmlFileRaw {
    /// The file's number in the deck.
    pub number: u64,
    pub version: AutosarVersion,
}

pub struct AutosarModel(pub Arc<RwLock<AutosarModelRaw>>);

#[derive(Clone)]
#[allow(dead_code)]
pub struct WeakAutosarModel(pub Weak<RwLock<AutosarModelRaw>>);

pub struct AutosarModelRaw {
    pub root_element: Element,
}

// The original's functions write fields that the run does not read.
#[allow(dead_code)]
pub enum AutosarDataError {
    ItemDeleted,
    IncorrectContentType { element: ElementName },
    InvalidSubElement { parent: ElementName, element: ElementName },
    ElementInsertionConflict { parent: ElementName, element: ElementName, parent_path: String },
    InvalidFileMerge { path: String },
}

// ---- locks

/// Asked twice by one thread where the original would wait for ever, it panics.
pub struct RwLock<T>(RefCell<T>);

impl<T> RwLock<T> {
    pub fn new(value: T) -> RwLock<T> {
        RwLock(RefCell::new(value))
    }

    pub fn read(&self) -> Ref<'_, T> {
        self.0.borrow()
    }

    pub fn write(&self) -> RefMut<'_, T> {
        self.0.borrow_mut()
    }

    pub fn try_read_for(&self, _: Duration) -> Option<Ref<'_, T>> {
        self.0.try_borrow().ok()
    }
}

use std::fmt;
use std::iter::{successors, FusedIterator};
use std::ops::Range;

use crate::file_set::FileSet;
use crate::layout::elements::{
    DEPTH, ELEMENTS, ENUM, KIND, NAME, STRING, TEXTS, TYPE, UNSIGNED, VALUE,
};
use crate::layout::model::{ITEMS, PARENTS, SETS, STARTS};
use crate::layout::{index, ELEMENT_LIMIT, ITEM_LIMIT, STRING_LIMIT};
use crate::model::{Model, Places};
use crate::numbers::{ElementId, FileId, Name, TypeId, Version};
use crate::refusal::Refusal;
use crate::schema::{Row, Type};

/// An element of a [`Model`], in the merged model or in a delivered tree. It is shown as its [path](Element::path).
///
/// The examples of its methods read this deck: a root with an `engine`, which has a value and a child without an item name.
///
/// ```
/// use zapelaritz::Model;
///
/// let deck = "\
/// T,0,0,0,0
/// T,1,0,1,0
/// T,2,4,0,0
/// S,0,0,3,1,2,1
/// S,1,0,1,2,1,1
/// S,1,1,4,2,0,1
/// S,1,2,5,1,2,3
/// F,0,0
/// F,1,0
/// M
/// E,0,0,3
/// E,1,3,1
/// E,2,1,0
/// C,3,s,engine
/// E,2,4,0
/// C,3,u,7
/// E,2,5,0
/// ";
/// let model = Model::load(deck)?;
/// let paths: Vec<String> = model.elements().map(|element| element.path()).collect();
/// assert_eq!(paths, ["/", "/engine", "/engine/<1>", "/engine/<4>", "/engine/<5>"]);
/// # Ok::<(), zapelaritz::LoadError>(())
/// ```
#[derive(Clone, Copy)]
pub struct Element<'a> {
    model: &'a Model,
    number: usize,
}

impl<'a> Element<'a> {
    pub(crate) fn new(model: &'a Model, number: usize) -> Element<'a> {
        Element { model, number }
    }

    fn cell(self, field: usize) -> u64 {
        ELEMENTS.cell(&self.model.elements, self.number, field)
    }

    /// Its number: elements are numbered from 0 in the order of the deck, over all trees.
    ///
    /// ```
    /// # use zapelaritz::{ElementId, Model};
    /// # let model = Model::load(include_str!(concat!(env!("CARGO_MANIFEST_DIR"), "/tests/decks/engine.deck")))?;
    /// let value = model.element_at("/engine/<4>").unwrap();
    /// assert_eq!(value.id(), ElementId(3));
    /// # Ok::<(), zapelaritz::LoadError>(())
    /// ```
    pub fn id(self) -> ElementId {
        ElementId(self.number as u64)
    }

    /// The number of its name.
    ///
    /// ```
    /// # use zapelaritz::{Model, Name};
    /// # let model = Model::load(include_str!(concat!(env!("CARGO_MANIFEST_DIR"), "/tests/decks/engine.deck")))?;
    /// assert_eq!(model.root().name(), Name::ROOT);
    /// assert_eq!(model.element_at("/engine").unwrap().name(), Name(3));
    /// # Ok::<(), zapelaritz::LoadError>(())
    /// ```
    pub fn name(self) -> Name {
        Name(self.cell(NAME))
    }

    /// Its depth: 0 for a root, and one more than its parent's for any other.
    ///
    /// ```
    /// # use zapelaritz::Model;
    /// # let model = Model::load(include_str!(concat!(env!("CARGO_MANIFEST_DIR"), "/tests/decks/engine.deck")))?;
    /// assert_eq!(model.root().depth(), 0);
    /// assert_eq!(model.element_at("/engine/<4>").unwrap().depth(), 2);
    /// # Ok::<(), zapelaritz::LoadError>(())
    /// ```
    pub fn depth(self) -> usize {
        index(self.cell(DEPTH))
    }

    /// The number of its type in the schema.
    ///
    /// ```
    /// # use zapelaritz::{Model, TypeId};
    /// # let model = Model::load(include_str!(concat!(env!("CARGO_MANIFEST_DIR"), "/tests/decks/engine.deck")))?;
    /// assert_eq!(model.root().type_id(), TypeId::ROOT);
    /// assert_eq!(model.element_at("/engine/<4>").unwrap().type_id(), TypeId(2));
    /// # Ok::<(), zapelaritz::LoadError>(())
    /// ```
    pub fn type_id(self) -> TypeId {
        TypeId(self.cell(TYPE))
    }

    /// Its type in the schema.
    ///
    /// ```
    /// # use zapelaritz::{Mode, Model};
    /// # let model = Model::load(include_str!(concat!(env!("CARGO_MANIFEST_DIR"), "/tests/decks/engine.deck")))?;
    /// let of_engine = model.element_at("/engine").unwrap().element_type();
    /// assert!(of_engine.is_named());
    /// assert_eq!(of_engine.mode(), Mode::Sequence);
    /// # Ok::<(), zapelaritz::LoadError>(())
    /// ```
    pub fn element_type(self) -> Type<'a> {
        Type::new(self.model, index(self.cell(TYPE)))
    }

    /// The set of files that it has of its own. Where that is empty, the element is where its parent is.
    ///
    /// ```
    /// # use zapelaritz::Model;
    /// # let model = Model::load(include_str!(concat!(env!("CARGO_MANIFEST_DIR"), "/tests/decks/engine.deck")))?;
    /// let engine = model.element_at("/engine").unwrap();
    /// assert_eq!(engine.own_files().to_string(), "{0}");
    /// assert!(model.element_at("/engine/<4>").unwrap().own_files().is_empty());
    /// # Ok::<(), zapelaritz::LoadError>(())
    /// ```
    pub fn own_files(self) -> FileSet {
        FileSet::from_bits(SETS.cell(&self.model.model, self.number, 0))
    }

    /// The set of files that it is in: its own, or else that of the nearest element above it that has one. The sets of a
    /// waiting tree are all empty.
    ///
    /// ```
    /// # use zapelaritz::Model;
    /// # let model = Model::load(include_str!(concat!(env!("CARGO_MANIFEST_DIR"), "/tests/decks/engine.deck")))?;
    /// let value = model.element_at("/engine/<4>").unwrap();
    /// assert_eq!(value.effective_files().to_string(), "{0}");
    /// assert_eq!(model.root().effective_files().to_string(), "{0, 1}");
    /// # Ok::<(), zapelaritz::LoadError>(())
    /// ```
    pub fn effective_files(self) -> FileSet {
        let mut sets = self.and_ancestors().map(Element::own_files);
        sets.find(|set| !set.is_empty()).unwrap_or_default()
    }

    /// The least version among the [files that it is in](Element::effective_files).
    ///
    /// ```
    /// use zapelaritz::{Model, Version};
    ///
    /// let model = Model::load("T,0,0,0,0\nF,0,5\nF,1,3\nM\nE,0,0,3\n")?;
    /// assert_eq!(model.root().min_version(), Some(Version(3)));
    /// # Ok::<(), zapelaritz::LoadError>(())
    /// ```
    pub fn min_version(self) -> Option<Version> {
        let files = self.effective_files();
        let versions = files.iter().filter_map(|file| self.model.version_of(file));
        versions.min()
    }

    /// The element that it belongs to; none for a root. An imported element belongs to its parent in the model.
    ///
    /// ```
    /// # use zapelaritz::Model;
    /// # let model = Model::load(include_str!(concat!(env!("CARGO_MANIFEST_DIR"), "/tests/decks/engine.deck")))?;
    /// assert_eq!(model.element_at("/engine").unwrap().parent(), Some(model.root()));
    /// assert_eq!(model.root().parent(), None);
    /// # Ok::<(), zapelaritz::LoadError>(())
    /// ```
    pub fn parent(self) -> Option<Element<'a>> {
        let cell = PARENTS.cell(&self.model.model, self.number, 0);
        self.model.element(ElementId(cell.checked_sub(1)?))
    }

    /// The elements above it: its parent first, the root last.
    ///
    /// ```
    /// # use zapelaritz::Model;
    /// # let model = Model::load(include_str!(concat!(env!("CARGO_MANIFEST_DIR"), "/tests/decks/engine.deck")))?;
    /// let value = model.element_at("/engine/<4>").unwrap();
    /// let engine = model.element_at("/engine").unwrap();
    /// assert!(value.ancestors().eq([engine, model.root()]));
    /// # Ok::<(), zapelaritz::LoadError>(())
    /// ```
    pub fn ancestors(self) -> impl FusedIterator<Item = Element<'a>> + Clone {
        self.and_ancestors().skip(1)
    }

    /// It ends: a parent is one less deep.
    fn and_ancestors(self) -> impl FusedIterator<Item = Element<'a>> + Clone {
        let above = |element: &Element<'a>| {
            let depth = element.depth();
            element.parent().filter(|parent| parent.depth() < depth)
        };
        successors(Some(self), above)
    }

    /// Its place in its parent's content; none for a root.
    ///
    /// ```
    /// # use zapelaritz::{Item, Model};
    /// # let model = Model::load(include_str!(concat!(env!("CARGO_MANIFEST_DIR"), "/tests/decks/engine.deck")))?;
    /// let value = model.element_at("/engine/<4>").unwrap();
    /// assert_eq!(value.position(), Some(1));
    /// assert_eq!(value.parent().unwrap().item_at(1), Some(Item::Element(value)));
    /// # Ok::<(), zapelaritz::LoadError>(())
    /// ```
    pub fn position(self) -> Option<usize> {
        let mut items = self.parent()?.items();
        items.position(|item| item.element() == Some(self))
    }

    /// Its content: sub-elements and texts, in order.
    ///
    /// ```
    /// # use zapelaritz::{Item, Model, Text};
    /// # let model = Model::load(include_str!(concat!(env!("CARGO_MANIFEST_DIR"), "/tests/decks/engine.deck")))?;
    /// let value = model.element_at("/engine/<4>").unwrap();
    /// assert!(value.items().eq([Item::Text(Text::Unsigned(7))]));
    /// assert_eq!(value.parent().unwrap().items().len(), 3);
    /// # Ok::<(), zapelaritz::LoadError>(())
    /// ```
    pub fn items(
        self,
    ) -> impl DoubleEndedIterator<Item = Item<'a>> + ExactSizeIterator + FusedIterator + Clone {
        self.places()
            .map(move |place| Item::read(self.model, place))
    }

    /// The item at a place of its content, from 0.
    ///
    /// ```
    /// # use zapelaritz::{Item, Model};
    /// # let model = Model::load(include_str!(concat!(env!("CARGO_MANIFEST_DIR"), "/tests/decks/engine.deck")))?;
    /// let engine = model.element_at("/engine").unwrap();
    /// assert_eq!(model.root().item_at(0), Some(Item::Element(engine)));
    /// assert_eq!(model.root().item_at(1), None);
    /// # Ok::<(), zapelaritz::LoadError>(())
    /// ```
    pub fn item_at(self, place: usize) -> Option<Item<'a>> {
        let place = self.places().nth(place)?;
        Some(Item::read(self.model, place))
    }

    /// The elements of its content, in order.
    ///
    /// ```
    /// # use zapelaritz::{Model, Name};
    /// # let model = Model::load(include_str!(concat!(env!("CARGO_MANIFEST_DIR"), "/tests/decks/engine.deck")))?;
    /// let engine = model.element_at("/engine").unwrap();
    /// let names = engine.sub_elements().map(|element| element.name());
    /// assert!(names.eq([Name::SHORT_NAME, Name(4), Name(5)]));
    /// # Ok::<(), zapelaritz::LoadError>(())
    /// ```
    pub fn sub_elements(
        self,
    ) -> impl DoubleEndedIterator<Item = Element<'a>> + FusedIterator + Clone {
        self.items().filter_map(Item::element)
    }

    /// The first sub-element of a name.
    ///
    /// ```
    /// # use zapelaritz::{Model, Name};
    /// # let model = Model::load(include_str!(concat!(env!("CARGO_MANIFEST_DIR"), "/tests/decks/engine.deck")))?;
    /// let engine = model.root().sub_element(Name(3)).unwrap();
    /// assert_eq!(engine.item_name(), Some("engine"));
    /// assert_eq!(model.root().sub_element(Name(4)), None);
    /// # Ok::<(), zapelaritz::LoadError>(())
    /// ```
    pub fn sub_element(self, name: Name) -> Option<Element<'a>> {
        self.sub_elements().find(|element| element.name() == name)
    }

    /// The first sub-element of an [item name](Element::item_name).
    ///
    /// ```
    /// # use zapelaritz::{Model, Name};
    /// # let model = Model::load(include_str!(concat!(env!("CARGO_MANIFEST_DIR"), "/tests/decks/engine.deck")))?;
    /// assert_eq!(model.root().named_sub_element("engine").unwrap().name(), Name(3));
    /// assert_eq!(model.root().named_sub_element("brakes"), None);
    /// # Ok::<(), zapelaritz::LoadError>(())
    /// ```
    pub fn named_sub_element(self, item_name: &str) -> Option<Element<'a>> {
        let mut elements = self.sub_elements();
        elements.find(|element| element.item_name() == Some(item_name))
    }

    /// The texts of its content, in order.
    ///
    /// ```
    /// # use zapelaritz::{Model, Text};
    /// # let model = Model::load(include_str!(concat!(env!("CARGO_MANIFEST_DIR"), "/tests/decks/engine.deck")))?;
    /// let value = model.element_at("/engine/<4>").unwrap();
    /// assert!(value.texts().eq([Text::Unsigned(7)]));
    /// # Ok::<(), zapelaritz::LoadError>(())
    /// ```
    pub fn texts(self) -> impl DoubleEndedIterator<Item = Text<'a>> + FusedIterator + Clone {
        self.items().filter_map(Item::text)
    }

    /// Its text: its only content item, if that is a text.
    ///
    /// ```
    /// # use zapelaritz::{Model, Text};
    /// # let model = Model::load(include_str!(concat!(env!("CARGO_MANIFEST_DIR"), "/tests/decks/engine.deck")))?;
    /// assert_eq!(model.element_at("/engine/<1>").unwrap().text(), Some(Text::String("engine")));
    /// assert_eq!(model.element_at("/engine").unwrap().text(), None);
    /// # Ok::<(), zapelaritz::LoadError>(())
    /// ```
    pub fn text(self) -> Option<Text<'a>> {
        let mut items = self.items();
        match (items.next(), items.next()) {
            (Some(Item::Text(text)), None) => Some(text),
            _ => None,
        }
    }

    /// The string that is its text.
    fn sole_string(self) -> Option<&'a str> {
        match self.text()? {
            Text::String(string) => Some(string),
            _ => None,
        }
    }

    /// The SHORT-NAME that is its first content, if its type is named.
    fn identifier(self) -> Option<Element<'a>> {
        if !self.element_type().is_named() {
            return None;
        }
        let first = self.items().next()?.element()?;
        (first.name() == Name::SHORT_NAME).then_some(first)
    }

    /// Whether it is identifiable: its type is named and its first content is a SHORT-NAME.
    ///
    /// ```
    /// # use zapelaritz::Model;
    /// # let model = Model::load(include_str!(concat!(env!("CARGO_MANIFEST_DIR"), "/tests/decks/engine.deck")))?;
    /// assert!(model.element_at("/engine").unwrap().is_identifiable());
    /// assert!(!model.root().is_identifiable());
    /// # Ok::<(), zapelaritz::LoadError>(())
    /// ```
    pub fn is_identifiable(self) -> bool {
        self.identifier().is_some()
    }

    /// Its item name: if it is identifiable, the string that is its SHORT-NAME's only content.
    ///
    /// ```
    /// # use zapelaritz::{Model, Name};
    /// # let model = Model::load(include_str!(concat!(env!("CARGO_MANIFEST_DIR"), "/tests/decks/engine.deck")))?;
    /// let engine = model.root().sub_element(Name(3)).unwrap();
    /// assert_eq!(engine.item_name(), Some("engine"));
    /// assert_eq!(engine.sub_element(Name(5)).unwrap().item_name(), None);
    /// # Ok::<(), zapelaritz::LoadError>(())
    /// ```
    pub fn item_name(self) -> Option<&'a str> {
        self.identifier()?.sole_string()
    }

    /// Its definition: the string that is the only content of its first DEFINITION-REF.
    ///
    /// ```
    /// use zapelaritz::{Model, Name};
    ///
    /// let deck = "T,0,0,0,0\nT,1,0,0,0\nT,2,4,0,0\nS,0,0,5,1,2,1\nS,1,0,2,2,1,1\nF,0,0\n\
    ///     M\nE,0,0,1\nE,1,5,0\nE,2,2,0\nC,3,s,baud\n";
    /// let model = Model::load(deck)?;
    /// let parameter = model.root().sub_element(Name(5)).unwrap();
    /// assert_eq!(parameter.definition(), Some("baud"));
    /// assert_eq!(model.root().definition(), None);
    /// # Ok::<(), zapelaritz::LoadError>(())
    /// ```
    pub fn definition(self) -> Option<&'a str> {
        self.sub_element(Name::DEFINITION_REF)?.sole_string()
    }

    /// Its path from the root of its tree, which itself is `/`: for each element below the root a `/`, and the item name or,
    /// where there is none, the name's number in angle brackets. Siblings without an item name may have the same path.
    ///
    /// ```
    /// # use zapelaritz::{Model, Name};
    /// # let model = Model::load(include_str!(concat!(env!("CARGO_MANIFEST_DIR"), "/tests/decks/engine.deck")))?;
    /// let engine = model.root().sub_element(Name(3)).unwrap();
    /// assert_eq!(engine.path(), "/engine");
    /// assert_eq!(engine.sub_element(Name(4)).unwrap().path(), "/engine/<4>");
    /// assert_eq!(model.root().path(), "/");
    /// # Ok::<(), zapelaritz::LoadError>(())
    /// ```
    pub fn path(self) -> String {
        let mut parts: Vec<String> = self
            .and_ancestors()
            .filter(|element| element.depth() > 0)
            .map(|element| match element.item_name() {
                Some(item_name) => format!("/{item_name}"),
                None => format!("/<{}>", element.name()),
            })
            .collect();
        if parts.is_empty() {
            return "/".into();
        }
        parts.reverse();
        parts.concat()
    }

    /// The element and all below it, depth first in the order of their contents.
    ///
    /// ```
    /// # use zapelaritz::Model;
    /// # let model = Model::load(include_str!(concat!(env!("CARGO_MANIFEST_DIR"), "/tests/decks/engine.deck")))?;
    /// let engine = model.element_at("/engine").unwrap();
    /// assert_eq!(engine.subtree().count(), 4);
    /// assert_eq!(engine.subtree().next(), Some(engine));
    /// # Ok::<(), zapelaritz::LoadError>(())
    /// ```
    pub fn subtree(self) -> Subtree<'a> {
        Subtree { left: vec![self] }
    }

    /// The places in its content where a child of a name may be put, in a version: [`Model::range`] of this element.
    ///
    /// ```
    /// # use zapelaritz::{Model, Name, Refusal, Version};
    /// # let model = Model::load(include_str!(concat!(env!("CARGO_MANIFEST_DIR"), "/tests/decks/engine.deck")))?;
    /// let engine = model.element_at("/engine").unwrap();
    /// assert_eq!(engine.range(Name(5), Version(0)).unwrap().to_string(), "places 2 to 3");
    /// let element = engine.id();
    /// assert_eq!(engine.range(Name(4), Version(0)), Err(Refusal::NoPlace { element }));
    /// # Ok::<(), zapelaritz::LoadError>(())
    /// ```
    pub fn range(self, name: Name, version: Version) -> Result<Places, Refusal> {
        self.model.range(self.id(), name, version)
    }

    /// The names that a child may have in a version, in the order of the schema's rows, whether there is a place for another
    /// one or not.
    ///
    /// ```
    /// # use zapelaritz::{Model, Name, Version};
    /// # let model = Model::load(include_str!(concat!(env!("CARGO_MANIFEST_DIR"), "/tests/decks/engine.deck")))?;
    /// let engine = model.element_at("/engine").unwrap();
    /// assert!(engine.allowed_names(Version(0)).eq([Name::SHORT_NAME, Name(4), Name(5)]));
    /// assert!(engine.allowed_names(Version(1)).eq([Name(5)]));
    /// # Ok::<(), zapelaritz::LoadError>(())
    /// ```
    pub fn allowed_names(
        self,
        version: Version,
    ) -> impl DoubleEndedIterator<Item = Name> + Clone + 'a {
        self.element_type()
            .rows()
            .filter(move |row| row.versions.contains(version))
            .map(|row| row.name)
    }

    /// Every row of its type, with the places where such a child may be put in a version, or why it may not.
    ///
    /// ```
    /// # use zapelaritz::{Model, Name, Version};
    /// # let model = Model::load(include_str!(concat!(env!("CARGO_MANIFEST_DIR"), "/tests/decks/engine.deck")))?;
    /// let engine = model.element_at("/engine").unwrap();
    /// let free = engine.palette(Version(0)).filter(|(_, places)| places.is_ok());
    /// assert!(free.map(|(row, _)| row.name).eq([Name(5)]));
    /// # Ok::<(), zapelaritz::LoadError>(())
    /// ```
    pub fn palette(
        self,
        version: Version,
    ) -> impl DoubleEndedIterator<Item = (Row, Result<Places, Refusal>)> + Clone + 'a {
        let rows = self.element_type().rows();
        rows.map(move |row| (row, self.range(row.name, version)))
    }

    /// Where its content stands among the items.
    fn places(self) -> Range<usize> {
        let start = |row| index(STARTS.cell(&self.model.model, row, 0)).min(ITEM_LIMIT);
        start(self.number)..start(self.number.saturating_add(1))
    }
}

/// The same element of the same model, which is one by its place in memory.
impl PartialEq for Element<'_> {
    fn eq(&self, other: &Self) -> bool {
        std::ptr::eq(self.model, other.model) && self.number == other.number
    }
}

impl Eq for Element<'_> {}

impl fmt::Display for Element<'_> {
    fn fmt(&self, f: &mut fmt::Formatter<'_>) -> fmt::Result {
        f.pad(&self.path())
    }
}

impl fmt::Debug for Element<'_> {
    fn fmt(&self, f: &mut fmt::Formatter<'_>) -> fmt::Result {
        f.debug_struct("Element")
            .field("id", &self.number)
            .field("name", &self.name().get())
            .field("depth", &self.depth())
            .field("own_files", &self.own_files())
            .finish_non_exhaustive()
    }
}

/// An item of an element's content.
#[derive(Clone, Copy, Debug, PartialEq, Eq)]
pub enum Item<'a> {
    /// A sub-element.
    Element(Element<'a>),
    /// A text.
    Text(Text<'a>),
}

impl<'a> Item<'a> {
    fn read(model: &'a Model, place: usize) -> Item<'a> {
        let cell = index(ITEMS.cell(&model.model, place, 0));
        match cell.checked_sub(ELEMENT_LIMIT) {
            None => Item::Element(Element::new(model, cell)),
            Some(text) => Item::Text(Text::read(model, text)),
        }
    }

    /// The element, if it is one.
    ///
    /// ```
    /// use zapelaritz::{Item, Text};
    ///
    /// assert_eq!(Item::Text(Text::Unsigned(7)).element(), None);
    /// ```
    pub fn element(self) -> Option<Element<'a>> {
        match self {
            Item::Element(element) => Some(element),
            Item::Text(_) => None,
        }
    }

    /// The text, if it is one.
    ///
    /// ```
    /// use zapelaritz::{Item, Text};
    ///
    /// assert_eq!(Item::Text(Text::Unsigned(7)).text(), Some(Text::Unsigned(7)));
    /// ```
    pub fn text(self) -> Option<Text<'a>> {
        match self {
            Item::Element(_) => None,
            Item::Text(text) => Some(text),
        }
    }
}

/// A text. It is shown as its value.
///
/// Two are equal with equal kind and value. Floats are equal as numbers, and every NaN equals every other:
///
/// ```
/// use zapelaritz::Text;
///
/// assert_eq!(Text::Float(f64::NAN), Text::Float(-f64::NAN));
/// assert_eq!(Text::Float(0.0), Text::Float(-0.0));
/// assert_ne!(Text::Unsigned(1), Text::Enum(1));
/// assert_eq!(Text::from("red").to_string(), "red");
/// ```
#[derive(Clone, Copy, Debug)]
pub enum Text<'a> {
    /// An enum number.
    Enum(u16),
    /// A string: the characters from space to `~` but no comma.
    String(&'a str),
    /// A whole number.
    Unsigned(u64),
    /// A float, with the bits of the deck.
    Float(f64),
}

impl<'a> Text<'a> {
    fn read(model: &'a Model, text: usize) -> Text<'a> {
        let cell = |field| TEXTS.cell(&model.elements, text, field);
        let value = cell(VALUE);
        match cell(KIND) {
            ENUM => Text::Enum(u16::try_from(value).unwrap_or(u16::MAX)),
            STRING => {
                let start = index(value / STRING_LIMIT);
                let end = start.saturating_add(index(value % STRING_LIMIT));
                Text::String(model.deck.get(start..end).unwrap_or_default())
            }
            UNSIGNED => Text::Unsigned(value),
            _ => Text::Float(f64::from_bits(value)),
        }
    }

    /// Its kind and value as a C line of a deck has them.
    ///
    /// ```
    /// use zapelaritz::Text;
    ///
    /// assert_eq!(Text::String("red").in_deck().to_string(), "s,red");
    /// assert_eq!(Text::Float(1.0).in_deck().to_string(), "f,3ff0000000000000");
    /// ```
    pub fn in_deck(self) -> impl fmt::Display + 'a {
        InDeck(self)
    }
}

struct InDeck<'a>(Text<'a>);

impl fmt::Display for InDeck<'_> {
    fn fmt(&self, f: &mut fmt::Formatter<'_>) -> fmt::Result {
        match self.0 {
            Text::Enum(number) => write!(f, "e,{number}"),
            Text::String(string) => write!(f, "s,{string}"),
            Text::Unsigned(number) => write!(f, "u,{number}"),
            Text::Float(float) => write!(f, "f,{:x}", float.to_bits()),
        }
    }
}

impl PartialEq for Text<'_> {
    fn eq(&self, other: &Self) -> bool {
        match (*self, *other) {
            (Text::Enum(a), Text::Enum(b)) => a == b,
            (Text::String(a), Text::String(b)) => a == b,
            (Text::Unsigned(a), Text::Unsigned(b)) => a == b,
            (Text::Float(a), Text::Float(b)) => a == b || a.is_nan() && b.is_nan(),
            _ => false,
        }
    }
}

impl Eq for Text<'_> {}

impl<'a> From<&'a str> for Text<'a> {
    fn from(string: &'a str) -> Text<'a> {
        Text::String(string)
    }
}

impl From<u64> for Text<'_> {
    fn from(number: u64) -> Self {
        Text::Unsigned(number)
    }
}

impl From<f64> for Text<'_> {
    fn from(float: f64) -> Self {
        Text::Float(float)
    }
}

impl fmt::Display for Text<'_> {
    fn fmt(&self, f: &mut fmt::Formatter<'_>) -> fmt::Result {
        match self {
            Text::Enum(number) => fmt::Display::fmt(number, f),
            Text::String(string) => fmt::Display::fmt(string, f),
            Text::Unsigned(number) => fmt::Display::fmt(number, f),
            Text::Float(float) => fmt::Display::fmt(float, f),
        }
    }
}

/// A delivered tree that waits to be merged.
#[derive(Clone, Copy, Debug, PartialEq, Eq)]
pub struct Tree<'a> {
    /// Its file.
    pub file: FileId,
    /// Its root.
    pub root: Element<'a>,
}

/// An element and all below it, depth first. It ends: a listed element is one deeper than its list's owner.
#[derive(Clone, Debug)]
pub struct Subtree<'a> {
    /// Those to come whose turn is known, the next one last.
    left: Vec<Element<'a>>,
}

impl<'a> Iterator for Subtree<'a> {
    type Item = Element<'a>;

    fn next(&mut self) -> Option<Element<'a>> {
        let element = self.left.pop()?;
        self.left.extend(element.sub_elements().rev());
        Some(element)
    }
}

impl FusedIterator for Subtree<'_> {}

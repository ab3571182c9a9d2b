//! Decks, written.

use std::error::Error;
use std::fmt::{self, Write};

use crate::file_set::FileSet;
use crate::model::{File, Model};
use crate::numbers::{FileId, Name, TypeId};
use crate::schema::{Group, Mode, Row, VersionMask};
use crate::tree::{Element, Item, Text};

/// Writes a deck: types, groups, rows and files in the order in which they are added, then the model and the deliveries.
///
/// It takes what it is given: that a deck keeps the rules is for [`Model::load`] to say. Strings alone are tested, for a
/// comma or a line's end in one would write another deck.
///
/// ```
/// use zapelaritz::{
///     DeckBuilder, File, FileId, FileSet, Mode, Model, Mult, Name, Node, Row, Version, VersionMask,
/// };
///
/// let mut deck = DeckBuilder::new();
/// let root = deck.add_type(Mode::Sequence, false, VersionMask::ALL);
/// let colour = deck.add_type(Mode::Characters, false, VersionMask::NONE);
/// deck.add_row(Row {
///     type_id: root,
///     path: [0].into(),
///     name: Name(3),
///     child: colour,
///     mult: Mult::Any,
///     versions: VersionMask::from_bits(1),
/// });
/// let [old, new] = [FileId(0), FileId(1)];
/// for id in [old, new] {
///     deck.add_file(File { id, version: Version(0) });
/// }
/// let tree = |colour| Node::root().child(Node::new(Name(3)).text(colour));
/// deck.model(tree("red").files(FileSet::EMPTY.with(old)));
/// deck.delivery(new, tree("blue"));
///
/// let mut model = Model::load(deck.build()?)?;
/// assert_eq!(model.merge(new)?.to_string(), "1 import, 1 restriction, 1 extension");
/// # Ok::<(), Box<dyn std::error::Error>>(())
/// ```
#[derive(Clone, Debug, Default)]
pub struct DeckBuilder {
    types: Vec<(Mode, bool, VersionMask)>,
    groups: Vec<Group>,
    rows: Vec<Row>,
    files: Vec<File>,
    model: Option<Node>,
    deliveries: Vec<(FileId, Node)>,
}

impl DeckBuilder {
    /// A deck with nothing in it.
    ///
    /// ```
    /// assert_eq!(zapelaritz::DeckBuilder::new().build()?, "");
    /// # Ok::<(), zapelaritz::BuildError>(())
    /// ```
    pub fn new() -> DeckBuilder {
        DeckBuilder::default()
    }

    /// Adds a type: the order of its elements' content, whether they may have an item name, and the versions in which it is
    /// splittable. Gives its number. The first type is that of every root.
    ///
    /// ```
    /// use zapelaritz::{DeckBuilder, Mode, TypeId, VersionMask};
    ///
    /// let mut deck = DeckBuilder::new();
    /// let root = deck.add_type(Mode::Sequence, false, VersionMask::from_bits(0xf));
    /// assert_eq!(root, TypeId::ROOT);
    /// assert_eq!(deck.build()?, "T,0,0,0,f\n");
    /// # Ok::<(), zapelaritz::BuildError>(())
    /// ```
    pub fn add_type(&mut self, mode: Mode, named: bool, split: VersionMask) -> TypeId {
        let id = TypeId(self.types.len() as u64);
        self.types.push((mode, named, split));
        id
    }

    /// Adds a group.
    ///
    /// ```
    /// use zapelaritz::{DeckBuilder, Group, Mode, TypeId};
    ///
    /// let mut deck = DeckBuilder::new();
    /// deck.add_group(Group { type_id: TypeId::ROOT, path: [1].into(), mode: Mode::Choice });
    /// assert_eq!(deck.build()?, "G,0,1,1\n");
    /// # Ok::<(), zapelaritz::BuildError>(())
    /// ```
    pub fn add_group(&mut self, group: Group) -> &mut DeckBuilder {
        self.groups.push(group);
        self
    }

    /// Adds a row.
    ///
    /// ```
    /// use zapelaritz::{DeckBuilder, Mult, Name, Row, TypeId, VersionMask};
    ///
    /// let mut deck = DeckBuilder::new();
    /// deck.add_row(Row {
    ///     type_id: TypeId::ROOT,
    ///     path: [1, 0].into(),
    ///     name: Name(3),
    ///     child: TypeId(1),
    ///     mult: Mult::Any,
    ///     versions: VersionMask::from_bits(0xf),
    /// });
    /// assert_eq!(deck.build()?, "S,0,1.0,3,1,2,f\n");
    /// # Ok::<(), zapelaritz::BuildError>(())
    /// ```
    pub fn add_row(&mut self, row: Row) -> &mut DeckBuilder {
        self.rows.push(row);
        self
    }

    /// Adds a file. A deck has them in ascending order.
    ///
    /// ```
    /// use zapelaritz::{DeckBuilder, File, FileId, Version};
    ///
    /// let mut deck = DeckBuilder::new();
    /// deck.add_file(File { id: FileId(0), version: Version(2) });
    /// assert_eq!(deck.build()?, "F,0,2\n");
    /// # Ok::<(), zapelaritz::BuildError>(())
    /// ```
    pub fn add_file(&mut self, file: File) -> &mut DeckBuilder {
        self.files.push(file);
        self
    }

    /// Sets the model's tree. Its root's set has the files that are loaded.
    ///
    /// ```
    /// use zapelaritz::{DeckBuilder, FileSet, Node};
    ///
    /// let mut deck = DeckBuilder::new();
    /// deck.model(Node::root().files(FileSet::from_bits(1)));
    /// assert_eq!(deck.build()?, "M\nE,0,0,1\n");
    /// # Ok::<(), zapelaritz::BuildError>(())
    /// ```
    pub fn model(&mut self, root: Node) -> &mut DeckBuilder {
        self.model = Some(root);
        self
    }

    /// Adds the tree that a file delivers.
    ///
    /// ```
    /// use zapelaritz::{DeckBuilder, FileId, Node};
    ///
    /// let mut deck = DeckBuilder::new();
    /// deck.delivery(FileId(1), Node::root());
    /// assert_eq!(deck.build()?, "B,1\nE,0,0,0\n");
    /// # Ok::<(), zapelaritz::BuildError>(())
    /// ```
    pub fn delivery(&mut self, file: FileId, root: Node) -> &mut DeckBuilder {
        self.deliveries.push((file, root));
        self
    }

    /// The deck's text, or the first string that no deck can hold.
    ///
    /// ```
    /// use zapelaritz::{DeckBuilder, Node};
    ///
    /// let mut deck = DeckBuilder::new();
    /// deck.model(Node::root().text("red, blue"));
    /// let error = deck.build().unwrap_err();
    /// assert_eq!(error.to_string(), "the string \"red, blue\": a deck's string has no ','");
    /// ```
    pub fn build(&self) -> Result<String, BuildError> {
        let mut lines = Lines::default();
        for (number, (mode, named, split)) in self.types.iter().enumerate() {
            let (mode, named) = (mode.number(), u64::from(*named));
            lines.add(format_args!("T,{number},{mode},{named},{split:x}"));
        }
        for group in &self.groups {
            lines.add(format_args!("{group}"));
        }
        for row in &self.rows {
            lines.add(format_args!("{row}"));
        }
        for file in &self.files {
            lines.add(format_args!("{file}"));
        }
        if let Some(root) = &self.model {
            lines.add(format_args!("M"));
            lines.add_node(0, root)?;
        }
        for (file, root) in &self.deliveries {
            lines.add(format_args!("B,{file}"));
            lines.add_node(0, root)?;
        }
        Ok(lines.text)
    }
}

/// The deck of a model as it stands: its merged model, and the deliveries that still wait. Merges that stand become part of
/// the model for good; elements are numbered anew.
///
/// ```
/// use zapelaritz::{DeckBuilder, FileId, Model};
///
/// let deck = "T,0,0,0,0\nF,0,0\nF,1,0\nM\nE,0,0,1\nB,1\nE,0,0,0\n";
/// let mut model = Model::load(deck)?;
/// assert_eq!(DeckBuilder::from(&model).build()?, deck);
/// model.merge(FileId(1))?;
/// assert_eq!(DeckBuilder::from(&model).build()?, "T,0,0,0,0\nF,0,0\nF,1,0\nM\nE,0,0,3\n");
/// # Ok::<(), Box<dyn std::error::Error>>(())
/// ```
impl From<&Model> for DeckBuilder {
    fn from(model: &Model) -> DeckBuilder {
        let schema = model.schema();
        DeckBuilder {
            types: schema
                .types()
                .map(|of_type| (of_type.mode(), of_type.is_named(), of_type.split()))
                .collect(),
            groups: schema.groups().collect(),
            rows: schema.rows().collect(),
            files: model.files().collect(),
            model: Some(model.root().into()),
            deliveries: model
                .waiting()
                .map(|tree| (tree.file, tree.root.into()))
                .collect(),
        }
    }
}

/// An element to be written, with its content.
#[derive(Clone, Debug)]
pub struct Node {
    name: Name,
    files: FileSet,
    content: Vec<Content>,
}

#[derive(Clone, Debug)]
enum Content {
    Node(Node),
    String(String),
    /// The kind and value of an enum number, a whole number or a float.
    Number(String),
}

impl Node {
    /// An element of a name, with no set of its own and no content.
    ///
    /// ```
    /// use zapelaritz::{DeckBuilder, Name, Node};
    ///
    /// let mut deck = DeckBuilder::new();
    /// deck.model(Node::root().child(Node::new(Name(3))));
    /// assert_eq!(deck.build()?, "M\nE,0,0,0\nE,1,3,0\n");
    /// # Ok::<(), zapelaritz::BuildError>(())
    /// ```
    pub fn new(name: Name) -> Node {
        Node {
            name,
            files: FileSet::EMPTY,
            content: Vec::new(),
        }
    }

    /// A root.
    ///
    /// ```
    /// use zapelaritz::{DeckBuilder, Node};
    ///
    /// let mut deck = DeckBuilder::new();
    /// deck.model(Node::root());
    /// assert_eq!(deck.build()?, "M\nE,0,0,0\n");
    /// # Ok::<(), zapelaritz::BuildError>(())
    /// ```
    pub fn root() -> Node {
        Node::new(Name::ROOT)
    }

    /// An element with an item name: its first child is a SHORT-NAME that holds it.
    ///
    /// ```
    /// use zapelaritz::{DeckBuilder, Name, Node};
    ///
    /// let mut deck = DeckBuilder::new();
    /// deck.model(Node::root().child(Node::named(Name(3), "engine")));
    /// assert_eq!(deck.build()?, "M\nE,0,0,0\nE,1,3,0\nE,2,1,0\nC,3,s,engine\n");
    /// # Ok::<(), zapelaritz::BuildError>(())
    /// ```
    pub fn named(name: Name, item_name: &str) -> Node {
        Node::new(name).child(Node::new(Name::SHORT_NAME).text(item_name))
    }

    /// An element with a definition: its first child is a DEFINITION-REF that holds it.
    ///
    /// ```
    /// use zapelaritz::{DeckBuilder, Name, Node};
    ///
    /// let mut deck = DeckBuilder::new();
    /// deck.model(Node::root().child(Node::defined(Name(5), "baud")));
    /// assert_eq!(deck.build()?, "M\nE,0,0,0\nE,1,5,0\nE,2,2,0\nC,3,s,baud\n");
    /// # Ok::<(), zapelaritz::BuildError>(())
    /// ```
    pub fn defined(name: Name, definition: &str) -> Node {
        Node::new(name).child(Node::new(Name::DEFINITION_REF).text(definition))
    }

    /// The element with a set of its own.
    ///
    /// ```
    /// use zapelaritz::{DeckBuilder, FileSet, Node};
    ///
    /// let mut deck = DeckBuilder::new();
    /// deck.model(Node::root().files(FileSet::from_bits(0x10)));
    /// assert_eq!(deck.build()?, "M\nE,0,0,10\n");
    /// # Ok::<(), zapelaritz::BuildError>(())
    /// ```
    #[must_use]
    pub fn files(mut self, files: FileSet) -> Node {
        self.files = files;
        self
    }

    /// The element with another element behind its content.
    ///
    /// ```
    /// use zapelaritz::{DeckBuilder, Name, Node};
    ///
    /// let mut deck = DeckBuilder::new();
    /// deck.model(Node::root().child(Node::new(Name(3)).child(Node::new(Name(4)))));
    /// assert_eq!(deck.build()?, "M\nE,0,0,0\nE,1,3,0\nE,2,4,0\n");
    /// # Ok::<(), zapelaritz::BuildError>(())
    /// ```
    #[must_use]
    pub fn child(mut self, child: Node) -> Node {
        self.content.push(Content::Node(child));
        self
    }

    /// The element with a text behind its content.
    ///
    /// ```
    /// use zapelaritz::{DeckBuilder, Node, Text};
    ///
    /// let mut deck = DeckBuilder::new();
    /// deck.model(Node::root().text("red").text(7_u64).text(1.0).text(Text::Enum(2)));
    /// let lines = "M\nE,0,0,0\nC,1,s,red\nC,1,u,7\nC,1,f,3ff0000000000000\nC,1,e,2\n";
    /// assert_eq!(deck.build()?, lines);
    /// # Ok::<(), zapelaritz::BuildError>(())
    /// ```
    #[must_use]
    pub fn text<'a>(mut self, text: impl Into<Text<'a>>) -> Node {
        self.content.push(match text.into() {
            Text::String(string) => Content::String(string.into()),
            number => Content::Number(number.in_deck().to_string()),
        });
        self
    }
}

/// The element as it stands, with its own set and all below it.
impl From<Element<'_>> for Node {
    fn from(element: Element<'_>) -> Node {
        let node = Node::new(element.name()).files(element.own_files());
        element.items().fold(node, |node, item| match item {
            Item::Element(child) => node.child(child.into()),
            Item::Text(text) => node.text(text),
        })
    }
}

/// A string that no deck can hold: a deck's strings have the characters from space to `~` but no comma.
#[derive(Clone, Debug, PartialEq, Eq, Hash)]
#[non_exhaustive]
pub struct BuildError {
    /// The string.
    pub string: String,
    /// Its first character that a deck's string cannot have.
    pub character: char,
}

impl fmt::Display for BuildError {
    fn fmt(&self, f: &mut fmt::Formatter<'_>) -> fmt::Result {
        let BuildError { string, character } = self;
        write!(
            f,
            "the string {string:?}: a deck's string has no {character:?}"
        )
    }
}

impl Error for BuildError {}

#[derive(Default)]
struct Lines {
    text: String,
}

impl Lines {
    fn add(&mut self, line: fmt::Arguments<'_>) {
        // Writing to a string does not fail.
        let _ = writeln!(self.text, "{line}");
    }

    fn add_node(&mut self, depth: usize, node: &Node) -> Result<(), BuildError> {
        self.add(format_args!("E,{depth},{},{:x}", node.name, node.files));
        let below = depth.saturating_add(1);
        for item in &node.content {
            match item {
                Content::Node(child) => self.add_node(below, child)?,
                Content::String(string) => {
                    check_string(string)?;
                    self.add(format_args!("C,{below},{}", Text::String(string).in_deck()));
                }
                Content::Number(text) => self.add(format_args!("C,{below},{text}")),
            }
        }
        Ok(())
    }
}

fn check_string(string: &str) -> Result<(), BuildError> {
    let fits = |character: char| matches!(character, ' '..='~') && character != ',';
    match string.chars().find(|character| !fits(*character)) {
        None => Ok(()),
        Some(character) => Err(BuildError {
            string: string.into(),
            character,
        }),
    }
}

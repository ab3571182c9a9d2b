//! The schema of a deck: its types, groups and rows.

use std::cmp::Ordering;
use std::fmt;

use crate::layout::schema::{
    GROUPS, GROUP_COUNT, GROUP_MODE, GROUP_PATH, GROUP_TYPE, MODE, NAMED, ROWS, ROW_CHILD,
    ROW_COUNT, ROW_MASK, ROW_MULT, ROW_NAME, ROW_PATH, ROW_TYPE, SPLIT, TYPES, TYPE_COUNT,
};
use crate::layout::{count, index, Area, GROUP_LIMIT, ROW_LIMIT, TYPE_LIMIT};
use crate::model::Model;
use crate::numbers::{Name, TypeId, Version};

/// How the content of an element or of a group is ordered.
#[derive(Clone, Copy, Debug, PartialEq, Eq, Hash)]
pub enum Mode {
    /// 0: elements in the order of their paths.
    Sequence,
    /// 1: elements of one path alone.
    Choice,
    /// 2: elements in any order.
    Bag,
    /// 3: elements and texts in any order.
    Mixed,
    /// 4: texts alone. No group is of this mode.
    Characters,
}

impl Mode {
    fn from_cell(cell: u64) -> Mode {
        match cell {
            0 => Mode::Sequence,
            1 => Mode::Choice,
            2 => Mode::Bag,
            3 => Mode::Mixed,
            _ => Mode::Characters,
        }
    }

    /// The mode's number in a deck.
    ///
    /// ```
    /// assert_eq!(zapelaritz::Mode::Bag.number(), 2);
    /// ```
    pub const fn number(self) -> u64 {
        match self {
            Mode::Sequence => 0,
            Mode::Choice => 1,
            Mode::Bag => 2,
            Mode::Mixed => 3,
            Mode::Characters => 4,
        }
    }
}

impl fmt::Display for Mode {
    fn fmt(&self, f: &mut fmt::Formatter<'_>) -> fmt::Result {
        f.pad(match self {
            Mode::Sequence => "sequence",
            Mode::Choice => "choice",
            Mode::Bag => "bag",
            Mode::Mixed => "mixed",
            Mode::Characters => "characters",
        })
    }
}

/// How many elements of a name may stand in a sequence or a choice. A merge treats the first two alike.
#[derive(Clone, Copy, Debug, PartialEq, Eq, Hash)]
pub enum Mult {
    /// 0: at most one.
    AtMostOne,
    /// 1: one.
    One,
    /// 2: any number.
    Any,
}

impl Mult {
    fn from_cell(cell: u64) -> Mult {
        match cell {
            0 => Mult::AtMostOne,
            1 => Mult::One,
            _ => Mult::Any,
        }
    }

    /// The mult's number in a deck.
    ///
    /// ```
    /// assert_eq!(zapelaritz::Mult::Any.number(), 2);
    /// ```
    pub const fn number(self) -> u64 {
        match self {
            Mult::AtMostOne => 0,
            Mult::One => 1,
            Mult::Any => 2,
        }
    }
}

impl fmt::Display for Mult {
    fn fmt(&self, f: &mut fmt::Formatter<'_>) -> fmt::Result {
        f.pad(match self {
            Mult::AtMostOne => "at most one",
            Mult::One => "one",
            Mult::Any => "any number",
        })
    }
}

/// A set of versions, shown as `{0, 1}`, and with `{:x}` as a deck has it.
#[derive(Clone, Copy, Default, PartialEq, Eq, Hash)]
pub struct VersionMask {
    bits: u32,
}

impl VersionMask {
    /// No version.
    pub const NONE: VersionMask = VersionMask { bits: 0 };

    /// Every version, 0 to 31.
    pub const ALL: VersionMask = VersionMask { bits: u32::MAX };

    /// The versions of a number that has bit v for version v.
    ///
    /// ```
    /// use zapelaritz::{Version, VersionMask};
    ///
    /// assert!(VersionMask::from_bits(4).contains(Version(2)));
    /// ```
    pub const fn from_bits(bits: u32) -> VersionMask {
        VersionMask { bits }
    }

    /// The versions as a number, with bit v for version v.
    ///
    /// ```
    /// assert_eq!(zapelaritz::VersionMask::ALL.bits(), 0xffff_ffff);
    /// ```
    pub const fn bits(self) -> u32 {
        self.bits
    }

    /// Whether the version is among them.
    ///
    /// ```
    /// use zapelaritz::{Version, VersionMask};
    ///
    /// assert!(VersionMask::from_bits(0xf).contains(Version(3)));
    /// assert!(!VersionMask::ALL.contains(Version(32)));
    /// ```
    pub const fn contains(self, version: Version) -> bool {
        version.0 < u32::BITS as u64 && (self.bits >> version.0) & 1 == 1
    }

    /// The versions, in ascending order.
    ///
    /// ```
    /// use zapelaritz::{Version, VersionMask};
    ///
    /// assert!(VersionMask::from_bits(0b110).iter().eq([Version(1), Version(2)]));
    /// ```
    pub fn iter(self) -> impl DoubleEndedIterator<Item = Version> + Clone {
        (0..u64::from(u32::BITS))
            .map(Version)
            .filter(move |version| self.contains(*version))
    }
}

impl fmt::Display for VersionMask {
    fn fmt(&self, f: &mut fmt::Formatter<'_>) -> fmt::Result {
        f.debug_set()
            .entries(self.iter().map(Version::get))
            .finish()
    }
}

impl fmt::Debug for VersionMask {
    fn fmt(&self, f: &mut fmt::Formatter<'_>) -> fmt::Result {
        fmt::Display::fmt(self, f)
    }
}

/// The versions as a deck has them.
impl fmt::LowerHex for VersionMask {
    fn fmt(&self, f: &mut fmt::Formatter<'_>) -> fmt::Result {
        fmt::LowerHex::fmt(&self.bits, f)
    }
}

/// Where a row or a group stands in its type: one to four parts, shown with dots, `1.0`. Paths are ordered part by part, and
/// a beginning of a path comes before it.
#[derive(Clone, Copy, PartialEq, Eq, Hash)]
pub struct SchemaPath {
    /// Zeros behind the path's parts.
    parts: [u8; 4],
    length: usize,
}

impl SchemaPath {
    /// From a table: each cell is a part + 1, and 0 ends the path.
    fn from_cells(cells: [u64; 4]) -> SchemaPath {
        let mut path = SchemaPath {
            parts: [0; 4],
            length: 0,
        };
        for (part, cell) in path.parts.iter_mut().zip(cells) {
            let Some(number) = cell.checked_sub(1) else {
                break;
            };
            *part = u8::try_from(number).unwrap_or(u8::MAX);
            path.length += 1;
        }
        path
    }

    /// The parts.
    ///
    /// ```
    /// use zapelaritz::SchemaPath;
    ///
    /// assert_eq!(SchemaPath::from([1, 0]).parts(), [1, 0]);
    /// ```
    pub fn parts(&self) -> &[u8] {
        self.parts.get(..self.length).unwrap_or_default()
    }
}

macro_rules! path_of_parts {
    ($($length:literal)*) => {$(
        impl From<[u8; $length]> for SchemaPath {
            fn from(given: [u8; $length]) -> SchemaPath {
                let mut parts = [0; 4];
                for (part, number) in parts.iter_mut().zip(given) {
                    *part = number;
                }
                SchemaPath { parts, length: $length }
            }
        }
    )*};
}

path_of_parts!(1 2 3 4);

impl PartialOrd for SchemaPath {
    fn partial_cmp(&self, other: &SchemaPath) -> Option<Ordering> {
        Some(self.cmp(other))
    }
}

impl Ord for SchemaPath {
    fn cmp(&self, other: &SchemaPath) -> Ordering {
        self.parts().cmp(other.parts())
    }
}

impl fmt::Display for SchemaPath {
    fn fmt(&self, f: &mut fmt::Formatter<'_>) -> fmt::Result {
        let parts: Vec<String> = self.parts().iter().map(u8::to_string).collect();
        f.pad(&parts.join("."))
    }
}

impl fmt::Debug for SchemaPath {
    fn fmt(&self, f: &mut fmt::Formatter<'_>) -> fmt::Result {
        fmt::Display::fmt(self, f)
    }
}

/// A group within a type: the order of what stands at the longer paths. It is shown as its line in a deck.
#[derive(Clone, Copy, Debug, PartialEq, Eq, Hash)]
pub struct Group {
    /// The type that it is in.
    pub type_id: TypeId,
    /// Where it stands; a deck has up to three parts.
    pub path: SchemaPath,
    /// The order of its members.
    pub mode: Mode,
}

impl fmt::Display for Group {
    fn fmt(&self, f: &mut fmt::Formatter<'_>) -> fmt::Result {
        write!(f, "G,{},{},{}", self.type_id, self.path, self.mode.number())
    }
}

/// A sub-element that a type may have. It is shown as its line in a deck.
#[derive(Clone, Copy, Debug, PartialEq, Eq, Hash)]
pub struct Row {
    /// The type that may have it.
    pub type_id: TypeId,
    /// Where it stands among its siblings.
    pub path: SchemaPath,
    /// Its name.
    pub name: Name,
    /// Its type.
    pub child: TypeId,
    /// How many of them there may be.
    pub mult: Mult,
    /// The versions in which the name is known.
    pub versions: VersionMask,
}

impl fmt::Display for Row {
    fn fmt(&self, f: &mut fmt::Formatter<'_>) -> fmt::Result {
        let Row {
            type_id,
            path,
            name,
            child,
            mult,
            versions,
        } = self;
        let mult = mult.number();
        write!(f, "S,{type_id},{path},{name},{child},{mult},{versions:x}")
    }
}

/// The schema of a loaded deck.
#[derive(Clone, Copy)]
pub struct Schema<'a> {
    model: &'a Model,
}

impl<'a> Schema<'a> {
    pub(crate) fn new(model: &'a Model) -> Schema<'a> {
        Schema { model }
    }

    /// The types, in the order of their numbers.
    ///
    /// ```
    /// use zapelaritz::{Mode, Model};
    ///
    /// let model = Model::load("T,0,1,0,0\nT,1,4,0,0\nS,0,0,3,1,2,1\nF,0,0\nM\nE,0,0,1\n")?;
    /// let modes = model.schema().types().map(|of_type| of_type.mode());
    /// assert!(modes.eq([Mode::Choice, Mode::Characters]));
    /// # Ok::<(), zapelaritz::LoadError>(())
    /// ```
    pub fn types(self) -> impl DoubleEndedIterator<Item = Type<'a>> + ExactSizeIterator + Clone {
        (0..count(&self.model.schema, TYPE_COUNT, TYPE_LIMIT))
            .map(move |number| Type::new(self.model, number))
    }

    /// The type of a number.
    ///
    /// ```
    /// use zapelaritz::{Model, TypeId};
    ///
    /// let model = Model::load("T,0,0,0,0\nF,0,0\nM\nE,0,0,1\n")?;
    /// assert_eq!(model.schema().get(TypeId::ROOT), Some(model.root().element_type()));
    /// assert_eq!(model.schema().get(TypeId(1)), None);
    /// # Ok::<(), zapelaritz::LoadError>(())
    /// ```
    pub fn get(self, id: TypeId) -> Option<Type<'a>> {
        let number = index(id.0);
        let types = count(&self.model.schema, TYPE_COUNT, TYPE_LIMIT);
        (number < types).then(|| Type::new(self.model, number))
    }

    /// The groups of all types, in the order of the deck.
    ///
    /// ```
    /// use zapelaritz::{Mode, Model};
    ///
    /// let model = Model::load("T,0,0,0,0\nG,0,1,2\nF,0,0\nM\nE,0,0,1\n")?;
    /// let group = model.schema().groups().next().unwrap();
    /// assert_eq!((group.path, group.mode), ([1].into(), Mode::Bag));
    /// # Ok::<(), zapelaritz::LoadError>(())
    /// ```
    pub fn groups(self) -> impl DoubleEndedIterator<Item = Group> + ExactSizeIterator + Clone + 'a {
        let table = &self.model.schema;
        (0..count(table, GROUP_COUNT, GROUP_LIMIT)).map(move |row| Group {
            type_id: TypeId(GROUPS.cell(table, row, GROUP_TYPE)),
            path: path_at(&GROUPS, table, row, GROUP_PATH),
            mode: Mode::from_cell(GROUPS.cell(table, row, GROUP_MODE)),
        })
    }

    /// The rows of all types, in the order of the deck.
    ///
    /// ```
    /// use zapelaritz::Model;
    ///
    /// let model = Model::load("T,0,0,0,0\nS,0,0,3,0,2,f\nF,0,0\nM\nE,0,0,1\n")?;
    /// let row = model.schema().rows().next().unwrap();
    /// assert_eq!(row.to_string(), "S,0,0,3,0,2,f");
    /// # Ok::<(), zapelaritz::LoadError>(())
    /// ```
    pub fn rows(self) -> impl DoubleEndedIterator<Item = Row> + ExactSizeIterator + Clone + 'a {
        let table = &self.model.schema;
        (0..count(table, ROW_COUNT, ROW_LIMIT)).map(move |row| {
            let cell = |field| ROWS.cell(table, row, field);
            Row {
                type_id: TypeId(cell(ROW_TYPE)),
                path: path_at(&ROWS, table, row, ROW_PATH),
                name: Name(cell(ROW_NAME)),
                child: TypeId(cell(ROW_CHILD)),
                mult: Mult::from_cell(cell(ROW_MULT)),
                versions: mask(cell(ROW_MASK)),
            }
        })
    }
}

impl fmt::Debug for Schema<'_> {
    fn fmt(&self, f: &mut fmt::Formatter<'_>) -> fmt::Result {
        f.debug_struct("Schema")
            .field("types", &self.types().len())
            .field("groups", &self.groups().len())
            .field("rows", &self.rows().len())
            .finish()
    }
}

/// The path whose four cells begin at a field.
fn path_at(area: &Area, table: &[u64], row: usize, field: usize) -> SchemaPath {
    SchemaPath::from_cells([0, 1, 2, 3].map(|part| area.cell(table, row, field + part)))
}

/// A mask has 32 bits.
fn mask(cell: u64) -> VersionMask {
    VersionMask::from_bits(u32::try_from(cell).unwrap_or(u32::MAX))
}

/// A type of the schema. It is shown as its line in a deck.
#[derive(Clone, Copy)]
pub struct Type<'a> {
    model: &'a Model,
    number: usize,
}

impl<'a> Type<'a> {
    pub(crate) fn new(model: &'a Model, number: usize) -> Type<'a> {
        Type { model, number }
    }

    fn cell(self, field: usize) -> u64 {
        TYPES.cell(&self.model.schema, self.number, field)
    }

    /// Its number.
    ///
    /// ```
    /// use zapelaritz::{Model, TypeId};
    ///
    /// let model = Model::load("T,0,0,0,0\nF,0,0\nM\nE,0,0,1\n")?;
    /// assert_eq!(model.root().element_type().id(), TypeId::ROOT);
    /// # Ok::<(), zapelaritz::LoadError>(())
    /// ```
    pub fn id(self) -> TypeId {
        TypeId(self.number as u64)
    }

    /// The order of its elements' content.
    ///
    /// ```
    /// use zapelaritz::{Mode, Model};
    ///
    /// let model = Model::load("T,0,3,0,0\nF,0,0\nM\nE,0,0,1\nC,1,s,red\n")?;
    /// assert_eq!(model.root().element_type().mode(), Mode::Mixed);
    /// # Ok::<(), zapelaritz::LoadError>(())
    /// ```
    pub fn mode(self) -> Mode {
        Mode::from_cell(self.cell(MODE))
    }

    /// Whether its elements may have an item name.
    ///
    /// ```
    /// use zapelaritz::Model;
    ///
    /// let model = Model::load("T,0,0,1,0\nF,0,0\nM\nE,0,0,1\n")?;
    /// assert!(model.root().element_type().is_named());
    /// # Ok::<(), zapelaritz::LoadError>(())
    /// ```
    pub fn is_named(self) -> bool {
        self.cell(NAMED) != 0
    }

    /// The versions in which it is splittable: where a merge may keep both an element of the model and a delivered one.
    ///
    /// ```
    /// use zapelaritz::{Model, Version};
    ///
    /// let model = Model::load("T,0,0,0,4\nF,0,0\nM\nE,0,0,1\n")?;
    /// let split = model.root().element_type().split();
    /// assert!(split.contains(Version(2)));
    /// assert_eq!(split.to_string(), "{2}");
    /// # Ok::<(), zapelaritz::LoadError>(())
    /// ```
    pub fn split(self) -> VersionMask {
        mask(self.cell(SPLIT))
    }

    /// Its groups, in the order of the deck.
    ///
    /// ```
    /// use zapelaritz::Model;
    ///
    /// let model = Model::load("T,0,0,0,0\nG,0,1,2\nG,0,4,0\nF,0,0\nM\nE,0,0,1\n")?;
    /// let paths = model.root().element_type().groups().map(|group| group.path);
    /// assert!(paths.eq([[1].into(), [4].into()]));
    /// # Ok::<(), zapelaritz::LoadError>(())
    /// ```
    pub fn groups(self) -> impl DoubleEndedIterator<Item = Group> + Clone + 'a {
        let groups = Schema::new(self.model).groups();
        groups.filter(move |group| group.type_id == self.id())
    }

    /// Its rows, in the order of the deck: the sub-elements that its elements may have.
    ///
    /// ```
    /// use zapelaritz::{Model, Name};
    ///
    /// let model = Model::load("T,0,0,0,0\nS,0,0,3,0,2,1\nS,0,1,4,0,0,2\nF,0,0\nM\nE,0,0,1\n")?;
    /// let names = model.root().element_type().rows().map(|row| row.name);
    /// assert!(names.eq([Name(3), Name(4)]));
    /// # Ok::<(), zapelaritz::LoadError>(())
    /// ```
    pub fn rows(self) -> impl DoubleEndedIterator<Item = Row> + Clone + 'a {
        let rows = Schema::new(self.model).rows();
        rows.filter(move |row| row.type_id == self.id())
    }

    /// The row of a name; a name stands once in a type.
    ///
    /// ```
    /// use zapelaritz::{Model, Mult, Name};
    ///
    /// let model = Model::load("T,0,0,0,0\nS,0,0,3,0,2,1\nF,0,0\nM\nE,0,0,1\n")?;
    /// let root = model.root().element_type();
    /// assert_eq!(root.row(Name(3)).map(|row| row.mult), Some(Mult::Any));
    /// assert_eq!(root.row(Name(4)), None);
    /// # Ok::<(), zapelaritz::LoadError>(())
    /// ```
    pub fn row(self, name: Name) -> Option<Row> {
        self.rows().find(|row| row.name == name)
    }
}

/// The same type of the same model, which is one by its place in memory.
impl PartialEq for Type<'_> {
    fn eq(&self, other: &Self) -> bool {
        std::ptr::eq(self.model, other.model) && self.number == other.number
    }
}

impl Eq for Type<'_> {}

impl fmt::Display for Type<'_> {
    fn fmt(&self, f: &mut fmt::Formatter<'_>) -> fmt::Result {
        let (id, mode, named) = (self.id(), self.mode().number(), u64::from(self.is_named()));
        write!(f, "T,{id},{mode},{named},{:x}", self.split())
    }
}

impl fmt::Debug for Type<'_> {
    fn fmt(&self, f: &mut fmt::Formatter<'_>) -> fmt::Result {
        f.debug_struct("Type")
            .field("id", &self.number)
            .field("mode", &self.mode())
            .field("named", &self.is_named())
            .field("split", &self.split())
            .finish_non_exhaustive()
    }
}

#[cfg(test)]
mod tests {
    use super::*;

    #[test]
    fn numbers_of_modes_and_mults() {
        for number in 0..=4 {
            assert_eq!(Mode::from_cell(number).number(), number);
        }
        for number in 0..=2 {
            assert_eq!(Mult::from_cell(number).number(), number);
        }
    }

    #[test]
    fn paths_of_cells() {
        let parts = |cells| SchemaPath::from_cells(cells).parts().to_vec();
        assert_eq!(parts([1, 0, 0, 0]), [0]);
        assert_eq!(parts([256, 1, 3, 4]), [255, 0, 2, 3]);
        // No load leaves such cells.
        assert_eq!(parts([0, 1, 1, 1]), []);
        assert_eq!(parts([u64::MAX, 2, 0, 5]), [255, 1]);
        assert_eq!(SchemaPath::from_cells([0; 4]).to_string(), "");
    }

    #[test]
    fn paths_are_ordered_part_by_part() {
        let paths: [SchemaPath; 6] = [
            [0].into(),
            [0, 0].into(),
            [0, 0, 1].into(),
            [0, 1].into(),
            [1, 0, 0, 0].into(),
            [10].into(),
        ];
        assert!(paths.is_sorted());
        assert!(paths.windows(2).all(|two| two[0] != two[1]));
        let shown = paths.map(|path| path.to_string());
        assert_eq!(shown, ["0", "0.0", "0.0.1", "0.1", "1.0.0.0", "10"]);
        assert_eq!(
            SchemaPath::from([1, 2]),
            SchemaPath::from_cells([2, 3, 0, 0])
        );
    }

    #[test]
    fn masks_are_versions() {
        let mask = VersionMask::from_bits(1 << 31 | 0b101);
        assert!(mask.iter().eq([Version(0), Version(2), Version(31)]));
        assert_eq!(
            format!("{mask} {mask:x} {mask:?}"),
            "{0, 2, 31} 80000005 {0, 2, 31}"
        );
        for other in [1, 32, 64, u64::MAX] {
            assert!(!mask.contains(Version(other)));
        }
        assert_eq!(VersionMask::NONE.to_string(), "{}");
        assert_eq!(VersionMask::ALL.iter().count(), 32);
    }
}

//! Where the tables hold what, as `crates/tables` states it: counts first, then areas one behind the other, each with room
//! for a number of rows of one width. Unused cells are zero, and a cell that is not there reads as zero.

pub(crate) const TYPE_LIMIT: usize = 128;
pub(crate) const GROUP_LIMIT: usize = 128;
pub(crate) const ROW_LIMIT: usize = 512;
pub(crate) const FILE_LIMIT: usize = 64;
pub(crate) const ELEMENT_LIMIT: usize = 1024;
pub(crate) const ITEM_LIMIT: usize = 2048;
const LOG_LIMIT: usize = 1024;

/// A string's value is its place in the deck times this, and its length.
pub(crate) const STRING_LIMIT: u64 = 65536;

/// The cells of a file set.
const SET_WIDTH: usize = 1;

/// How many rows an area uses, from the count's cell.
pub(crate) fn count(table: &[u64], at: usize, limit: usize) -> usize {
    index(table.get(at).copied().unwrap_or(0)).min(limit)
}

/// A table's number as an index; one that is too large for an index is in no area.
pub(crate) fn index(number: u64) -> usize {
    usize::try_from(number).unwrap_or(usize::MAX)
}

/// Rows of one width, one behind the other.
pub(crate) struct Area {
    at: usize,
    width: usize,
    rows: usize,
}

impl Area {
    const fn new(at: usize, width: usize, rows: usize) -> Area {
        Area { at, width, rows }
    }

    const fn end(&self) -> usize {
        self.at + self.width * self.rows
    }

    /// One cell of a row.
    pub(crate) fn cell(&self, table: &[u64], row: usize, field: usize) -> u64 {
        if row >= self.rows || field >= self.width {
            return 0;
        }
        let at = self.at + row * self.width + field;
        table.get(at).copied().unwrap_or(0)
    }
}

/// The schema's table: types, groups, sub-elements, files, and three indexes.
pub(crate) mod schema {
    use super::*;

    pub(crate) const TYPE_COUNT: usize = 0;
    pub(crate) const GROUP_COUNT: usize = 1;
    pub(crate) const ROW_COUNT: usize = 2;
    pub(crate) const FILE_COUNT: usize = 3;

    pub(crate) const TYPES: Area = Area::new(4, 3, TYPE_LIMIT);
    pub(crate) const GROUPS: Area = Area::new(TYPES.end(), 6, GROUP_LIMIT);
    pub(crate) const ROWS: Area = Area::new(GROUPS.end(), 9, ROW_LIMIT);
    pub(crate) const FILES: Area = Area::new(ROWS.end(), 2, FILE_LIMIT);
    /// 512 heads and 512 links each.
    const INDEXES: Area = Area::new(FILES.end(), 512 + 512, 3);
    pub(crate) const SIZE: usize = INDEXES.end();

    // Cells of a type.
    pub(crate) const MODE: usize = 0;
    pub(crate) const NAMED: usize = 1;
    pub(crate) const SPLIT: usize = 2;

    // Cells of a group; a path has four.
    pub(crate) const GROUP_TYPE: usize = 0;
    pub(crate) const GROUP_PATH: usize = 1;
    pub(crate) const GROUP_MODE: usize = 5;

    // Cells of a row.
    pub(crate) const ROW_TYPE: usize = 0;
    pub(crate) const ROW_PATH: usize = 1;
    pub(crate) const ROW_NAME: usize = 5;
    pub(crate) const ROW_CHILD: usize = 6;
    pub(crate) const ROW_MULT: usize = 7;
    pub(crate) const ROW_MASK: usize = 8;

    // Cells of a file.
    pub(crate) const FILE: usize = 0;
    pub(crate) const VERSION: usize = 1;
}

/// The elements' table: what a load says of each element, the texts, and the delivered trees.
pub(crate) mod elements {
    use super::*;

    pub(crate) const ELEMENT_COUNT: usize = 0;
    pub(crate) const TREE_COUNT: usize = 2;

    pub(crate) const ELEMENTS: Area = Area::new(3, 3, ELEMENT_LIMIT);
    pub(crate) const TEXTS: Area = Area::new(ELEMENTS.end(), 2, ITEM_LIMIT);
    pub(crate) const TREES: Area = Area::new(TEXTS.end(), 2, FILE_LIMIT);
    pub(crate) const SIZE: usize = TREES.end();

    // Cells of an element.
    pub(crate) const NAME: usize = 0;
    pub(crate) const TYPE: usize = 1;
    pub(crate) const DEPTH: usize = 2;

    // Cells of a text.
    pub(crate) const KIND: usize = 0;
    pub(crate) const VALUE: usize = 1;

    // Kinds of text; the fourth is a float's bits.
    pub(crate) const ENUM: u64 = 0;
    pub(crate) const STRING: u64 = 1;
    pub(crate) const UNSIGNED: u64 = 2;

    // Cells of a tree.
    pub(crate) const FILE: usize = 0;
    pub(crate) const ROOT: usize = 1;
}

/// The model's table: each element's parent + 1 (0 for none), where its list starts among the items (and where the last list
/// ends), the items of all lists (an element's number, or `ELEMENT_LIMIT` + a text's), and each element's set.
pub(crate) mod model {
    use super::*;

    pub(crate) const PARENTS: Area = Area::new(1, 1, ELEMENT_LIMIT);
    pub(crate) const STARTS: Area = Area::new(PARENTS.end(), 1, ELEMENT_LIMIT + 1);
    pub(crate) const ITEMS: Area = Area::new(STARTS.end(), 1, ITEM_LIMIT);
    pub(crate) const SETS: Area = Area::new(ITEMS.end(), SET_WIDTH, ELEMENT_LIMIT);
    pub(crate) const SIZE: usize = SETS.end();
}

/// The log's table: its entries, the oldest first.
pub(crate) mod log {
    use super::*;

    pub(crate) const ENTRY_COUNT: usize = 0;

    pub(crate) const ENTRIES: Area = Area::new(1, OLD_SET + SET_WIDTH, LOG_LIMIT);
    pub(crate) const SIZE: usize = ENTRIES.end();
    pub(crate) const LIMIT: usize = LOG_LIMIT;

    // Cells of an entry.
    pub(crate) const KIND: usize = 0;
    pub(crate) const ELEMENT: usize = 1;
    pub(crate) const PARENT_OR_FILE: usize = 2;
    pub(crate) const OLD_PARENT: usize = 3;
    pub(crate) const OLD_SET: usize = 4;

    // Kinds of entry; the third is an extension.
    pub(crate) const IMPORT: u64 = 0;
    pub(crate) const RESTRICTION: u64 = 1;
}

#[cfg(test)]
mod tests {
    use super::*;
    use crate::ffi;

    #[test]
    fn sizes_are_the_librarys() {
        assert_eq!(schema::SIZE, ffi::schema_size());
        assert_eq!(elements::SIZE, ffi::elements_size());
        assert_eq!(model::SIZE, ffi::model_size());
        assert_eq!(log::SIZE, ffi::log_size());
        assert_eq!(ffi::ANSWER_SIZE, ffi::answer_size());
    }

    #[test]
    fn sizes_by_hand() {
        assert_eq!(
            schema::SIZE,
            4 + 128 * 3 + 128 * 6 + 512 * 9 + 64 * 2 + 3 * 1024
        );
        assert_eq!(elements::SIZE, 3 + 1024 * 3 + 2048 * 2 + 64 * 2);
        assert_eq!(model::SIZE, 1 + 1024 + 1025 + 2048 + 1024);
        assert_eq!(log::SIZE, 1 + 1024 * 5);
        assert_eq!(ffi::deck_limit(), 32768);
    }

    #[test]
    fn no_cell_beside_the_area() {
        let table: Vec<u64> = (1..=20).collect();
        let area = Area::new(2, 3, 4);
        assert_eq!(area.cell(&table, 0, 0), 3);
        assert_eq!(area.cell(&table, 3, 2), 14);
        assert_eq!(area.cell(&table, 4, 0), 0);
        assert_eq!(area.cell(&table, 0, 3), 0);
        assert_eq!(area.cell(&table, usize::MAX, usize::MAX), 0);
        assert_eq!(area.cell(&table[..13], 3, 2), 0);
        assert_eq!(count(&table, 0, 10), 1);
        assert_eq!(count(&table, 19, 10), 10);
        assert_eq!(count(&table, 20, 10), 0);
        assert_eq!(count(&[u64::MAX], 0, 10), 10);
    }
}

//! Zapelaritz merges suppliers' AUTOSAR ARXML deliveries into a model and reports what each merge did in three counts:
//! elements imported, elements restricted to the older files, file sets extended. It takes the latest deliveries back
//! again. Every function of the static library below this package is proved to meet its contract for any bytes and any
//! numbers; this package owns the tables that those functions are lent, and reads them.
//!
//! A deck is a text that holds all that a merge needs: a schema, the files with their versions, the model, and the
//! deliveries that wait. `docs/DECK.md` describes decks, lists of calls and refusals.
//!
//! ```
//! use zapelaritz::{FileId, Model};
//!
//! let deck = "\
//! T,0,0,0,f
//! T,1,4,0,0
//! S,0,0,3,1,2,f
//! S,0,1,4,1,0,f
//! F,0,2
//! F,1,3
//! M
//! E,0,0,1
//! E,1,3,0
//! C,2,s,p
//! B,1
//! E,0,0,0
//! E,1,3,0
//! C,2,s,q
//! E,1,4,0
//! C,2,u,7
//! ";
//! let mut model = Model::load(deck)?;
//! let mark = model.mark();
//!
//! let counts = model.merge(FileId(1))?;
//! assert_eq!(counts.imports, 2);
//! assert_eq!(counts.restrictions, 1);
//! assert_eq!(counts.extensions, 1);
//! let merged = "\
//! E,0,0,3
//! E,1,3,1
//! C,2,s,p
//! E,1,3,2
//! C,2,s,q
//! E,1,4,2
//! C,2,u,7
//! ";
//! assert_eq!(model.model_lines(), merged);
//!
//! assert_eq!(model.rollback(mark)?, 4);
//! assert_eq!(model, Model::load(deck)?);
//! # Ok::<(), Box<dyn std::error::Error>>(())
//! ```
//!
//! # Where to find what
//!
//! - [`Model`]: a loaded deck. [`merge`](Model::merge), [`mark`](Model::mark), [`rollback`](Model::rollback),
//!   [`range`](Model::range); what the program prints; the log and the [merges that stand](Model::standing_merges).
//! - [`Element`]: name, item name, path, files, content, and [what may be added](Element::palette) to it.
//! - [`Schema`]: types, groups and rows.
//! - [`DeckBuilder`]: writes decks.
//! - [`ElementId`], [`Name`], [`TypeId`], [`FileId`], [`Version`], [`Mark`]: a type for each kind of number. One that is
//!   taken for another does not compile.
//! - [`LoadError`], [`Refusal`]: why a deck was not loaded, and why a call was refused.
//! - [`statement`]: what each delivery is counted for, as a table, as CSV and as a page; `zapelaritz-statement` prints it.
//!
//! # For users of autosar-data
//!
//! The merge is a port of `AutosarModel::merge_file_data` of autosar-data 0.23.0. What this package has in common with that
//! crate is named alike where it means the same:
//!
//! | autosar-data 0.23.0 | here |
//! |---|---|
//! | `AutosarModel::load_buffer`, `load_file`: parse ARXML, and merge it into what is loaded | [`Model::load`] reads a deck with model and deliveries; [`Model::merge`] merges one of them |
//! | an error of such a merge, `InvalidFileMerge` with a path | [`Refusal`], with a number, and with an element and a name where it has them |
//! | after a failed merge, `remove_from_file` is called | a refused merge changes nothing |
//! | `AutosarModel::remove_file`, for any file: removes what is in that file alone | [`Model::rollback`], for the latest merges: all stands as it did before them |
//! | the undo log of a merge, which is private and ends with it | [`Model::log`], [`Model::standing_merges`], [`Model::mark`] |
//! | `AutosarModel::duplicate` | `Clone` |
//! | `AutosarModel::files`, `ArxmlFile::version` | [`Model::files`], [`Model::version_of`] |
//! | `AutosarModel::root_element` | [`Model::root`] |
//! | `AutosarModel::get_element_by_path`: identifiable elements, by a hash table | [`Model::element_at`]: any element, by a walk |
//! | `elements_dfs` of model and element, with the depth | [`Model::elements`], [`Element::subtree`], [`Element::depth`] |
//! | `Element::element_name`, an `ElementName` | [`Element::name`], a number |
//! | `Element::element_type` | [`Element::element_type`], [`Element::type_id`] |
//! | `Element::is_identifiable`, `item_name` | [`Element::is_identifiable`], [`Element::item_name`] |
//! | `Element::path`: of an identifiable element, item names alone | [`Element::item_name`] over [`Element::ancestors`] |
//! | `Element::xml_path`: item names, and `<ELEMENT-NAME>` where there is none | [`Element::path`]: item names, and `<4>` for name 4; the root is left out |
//! | `Element::parent`, `named_parent` | [`Element::parent`], [`Element::ancestors`] |
//! | `Element::file_membership`: the set, and whether it is stored in this element | [`Element::effective_files`], [`Element::own_files`] |
//! | `Element::min_version` | [`Element::min_version`] |
//! | `Element::content`, `content_item_count` | [`Element::items`] and its `len` |
//! | `Element::sub_elements`, `get_sub_element`, `get_sub_element_at` | [`Element::sub_elements`], [`Element::sub_element`], [`Element::item_at`] |
//! | `Element::position` | [`Element::position`] |
//! | `Element::character_data`, a `CharacterData` of four kinds | [`Element::text`], a [`Text`] of four kinds |
//! | `Element::list_valid_sub_elements`: the names that its least version knows, each with whether it is named and whether it may be inserted | [`Element::allowed_names`] of a version; [`Element::palette`]: each row with the places, or with the refusal |
//! | `Element::calc_element_insert_range` | [`Element::range`], [`Model::range`] |
//! | `AutosarModel::serialize_files`, `Element::serialize`: XML | [`Model::model_lines`]; [`DeckBuilder`] from a model |
//!
//! These have no counterpart here: reading and writing XML; attributes and comments; references (`get_reference_target`,
//! `get_references_to`, `check_references`); edits (`create_sub_element`, `move_element_here`, `remove_sub_element`,
//! `set_character_data`, `set_item_name`, `add_to_file`, `sort`, `create_file`); `check_version_compatibility`. A model changes
//! by merges and rollbacks alone. A deck has limits, which `docs/DECK.md` lists.
//!
//! These have no public counterpart there: the three counts of a merge, marks, and a log that outlives the merge.
//!
//! # Stack
//!
//! Every call runs on the caller's stack. As measured on trees of the largest depth, a merge takes up to 1,100,000 bytes of
//! it, [`output`] and [`calls_output`] up to 1,290,000. The 2 MiB of a thread that Rust starts are enough.

#![deny(missing_docs, unsafe_code)]
#![cfg_attr(
    not(test),
    deny(
        clippy::expect_used,
        clippy::indexing_slicing,
        clippy::panic,
        clippy::unwrap_used
    )
)]

mod deck;
#[allow(unsafe_code)]
mod ffi;
mod file_set;
mod layout;
mod log;
mod model;
mod numbers;
mod print;
mod refusal;
mod schema;
pub mod statement;
mod tree;

pub use deck::{BuildError, DeckBuilder, Node};
pub use file_set::FileSet;
pub use log::{Entry, StandingMerge, StandingMerges};
pub use model::{Counts, File, Model, Places};
pub use numbers::{ElementId, FileId, Mark, Name, TypeId, Version};
pub use print::{calls_output, output, version};
pub use refusal::{LoadError, Refusal};
pub use schema::{Group, Mode, Mult, Row, Schema, SchemaPath, Type, VersionMask};
pub use tree::{Element, Item, Subtree, Text, Tree};

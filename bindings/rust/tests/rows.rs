//! The printed example of document 01 and the rows of "Printed example and decks to try", through the calls. What is expected
//! is that page's; numbers that it leaves out are counted by hand.

mod common;

use common::{load, merge};
use zapelaritz::{
    Element, ElementId, Entry, File, FileId, Item, LoadError, Mark, Model, Name, Places, Refusal,
    Text, Version,
};

const EXAMPLE: &str = "E,0,0,3\nE,1,3,1\nC,2,s,p\nE,1,3,2\nC,2,s,q\nE,1,4,2\nC,2,u,7\n";

#[test]
fn the_example() {
    let mut model = load("merge/printed.deck");
    assert_eq!(merge(&mut model, 1), Ok([2, 1, 1]));
    assert_eq!(model.model_lines(), EXAMPLE);
    let output = ["merged,1,2,1,1\n", EXAMPLE].concat();
    let deck = common::data("merge/printed.deck");
    assert_eq!(zapelaritz::output(deck), output);
}

fn numbers<'a>(elements: impl Iterator<Item = Element<'a>>) -> Vec<u64> {
    elements.map(|element| element.id().get()).collect()
}

/// Elements in the order of the deck: the model's root 0 with 1, the delivery's root 2 with 3 and 4.
#[test]
fn the_example_read() {
    let mut model = load("merge/printed.deck");
    assert_eq!(numbers(model.elements()), [0, 1]);
    let tree = model.waiting().next().unwrap();
    assert_eq!((tree.file, tree.root.id()), (FileId(1), ElementId(2)));
    assert_eq!(numbers(tree.root.subtree()), [2, 3, 4]);
    let [root, child] = [2, 3].map(|number| model.element(ElementId(number)));
    assert_eq!(child.unwrap().parent(), root);
    assert_eq!(model.log().len(), 0);

    model.merge(FileId(1)).unwrap();
    let rows: Vec<_> = model
        .elements()
        .map(|e| {
            (
                e.id().0,
                e.name().0,
                e.depth(),
                e.type_id().0,
                e.own_files(),
            )
        })
        .map(|(id, name, depth, of_type, files)| (id, name, depth, of_type, files.bits()))
        .collect();
    let expected = [
        (0, 0, 0, 0, 3),
        (1, 3, 1, 1, 1),
        (3, 3, 1, 1, 2),
        (4, 4, 1, 1, 2),
    ];
    assert_eq!(rows, expected);
    let texts: Vec<_> = model.elements().flat_map(|e| e.texts()).collect();
    assert_eq!(
        texts,
        [Text::String("p"), Text::String("q"), Text::Unsigned(7)]
    );
    let root = model.root();
    assert!(root.own_files().iter().eq([0, 1].map(FileId)));
    assert_eq!(root.items().len(), 3);
    let last = model.element(ElementId(4)).unwrap();
    assert_eq!(root.items().next_back(), Some(Item::Element(last)));
    assert_eq!(last.parent(), Some(root));
    assert_eq!(model.element(ElementId(5)), None);
    assert_eq!(model.element(ElementId(u64::MAX)), None);

    // The waiting tree's list keeps what was imported.
    assert_eq!(model.waiting().count(), 0);
    let kept = model.element(ElementId(2)).unwrap().sub_elements();
    assert_eq!(numbers(kept), [3, 4]);

    let import = |element| Entry::Import {
        element: ElementId(element),
        parent: ElementId(0),
        old_parent: Some(ElementId(2)),
        old_files: Default::default(),
    };
    let restriction = Entry::Restriction {
        element: ElementId(1),
        old_files: Default::default(),
    };
    let extension = Entry::Extension {
        element: ElementId(0),
        file: FileId(1),
    };
    assert!(model
        .log()
        .eq([restriction, import(3), import(4), extension]));
    let files = [(0, 2), (1, 3)].map(file);
    assert!(model.files().eq(files));
}

fn file((id, version): (u64, u64)) -> File {
    File {
        id: FileId(id),
        version: Version(version),
    }
}

#[test]
fn the_example_rolled_back() {
    let loaded = load("merge/printed.deck");
    let mut merged = loaded.clone();
    merged.merge(FileId(1)).unwrap();

    let mut model = merged.clone();
    assert_eq!(model.rollback(Mark(0)), Ok(4));
    assert_eq!(model.model_lines(), "E,0,0,1\nE,1,3,0\nC,2,s,p\n");
    assert_eq!(model, loaded);

    let mut model = merged.clone();
    assert_eq!(model.rollback(Mark(4)), Ok(0));
    assert_eq!(model.rollback(Mark(3)), Err(Refusal::NoMark));
    assert_eq!(model.rollback(Mark(5)), Err(Refusal::NoMark));
    assert_eq!(model.model_lines(), EXAMPLE);
    assert_eq!(model, merged);
}

fn range(model: &Model, element: u64, name: u64, version: u64) -> Result<Places, Refusal> {
    model.range(ElementId(element), Name(name), Version(version))
}

#[test]
fn ranges() {
    let places = |first, last| Ok(Places { first, last });
    let none = Err(Refusal::NoPlace {
        element: ElementId(0),
    });
    for (name, expected) in [
        ("calls/range_sequence_mult_2.deck", places(1, 2)),
        ("calls/range_sequence_mult_0.deck", none),
        ("calls/range_sequence_empty.deck", places(0, 0)),
        ("calls/range_choice_with_another_path.deck", none),
        ("calls/range_bag_of_3.deck", places(0, 3)),
    ] {
        assert_eq!(range(&load(name), 0, 4, 2), expected, "{name}");
    }
}

/// Range: 11, 12, 7 and 13, each with what it carries.
#[test]
fn refusals_of_range() {
    let model = load("merge/printed.deck");
    assert_eq!(range(&model, 5, 3, 2), Err(Refusal::NoSuchElement));
    assert_eq!(range(&model, 0, 3, 32), Err(Refusal::NoSuchElement));
    let characters = Refusal::CharactersParent {
        element: ElementId(1),
    };
    assert_eq!(range(&model, 1, 3, 2), Err(characters));
    let unknown = Refusal::NotInVersion {
        element: ElementId(0),
        name: Name(9),
    };
    assert_eq!(range(&model, 0, 9, 2), Err(unknown));
    // The delivered root, element 2, has its one name 4 already.
    assert_eq!(
        range(&model, 2, 4, 3),
        Err(Refusal::NoPlace {
            element: ElementId(2)
        })
    );
}

#[test]
fn merges() {
    let counts = |imports, restrictions, extensions| Ok([imports, restrictions, extensions]);
    let unmergeable = |element| {
        let element = ElementId(element);
        Err(Refusal::Unmergeable { element })
    };
    for (name, expected) in [
        ("merge/named_x_y_against_y_x.deck", counts(0, 0, 1)),
        ("merge/named_x_against_y.deck", unmergeable(0)),
        ("merge/named_x_against_y_splittable.deck", counts(1, 1, 1)),
        (
            "merge/definitions_d_d_against_e_d.deck",
            Err(Refusal::UsedTwice {
                element: ElementId(8),
            }),
        ),
        ("merge/choice_c1_against_c2_mult_2.deck", counts(1, 1, 1)),
        ("merge/choice_c1_against_c2_mult_0.deck", unmergeable(1)),
        (
            "merge/mask_4_new_version_3.deck",
            Err(Refusal::NotInVersion {
                element: ElementId(0),
                name: Name(3),
            }),
        ),
        ("merge/mask_4_new_version_2.deck", counts(1, 0, 1)),
    ] {
        let mut model = load(name);
        let loaded = model.clone();
        assert_eq!(merge(&mut model, 1), expected, "{name}");
        assert_eq!(model == loaded, expected.is_err(), "{name}");
    }
}

/// Both are kept: the older one with the older file, the delivered one with the new file.
#[test]
fn models_where_both_are_kept() {
    for (name, lines) in [
        (
            "merge/named_x_against_y_splittable.deck",
            "E,0,0,3\nE,1,3,1\nE,2,1,0\nC,3,s,x\nE,1,3,2\nE,2,1,0\nC,3,s,y\n",
        ),
        (
            "merge/choice_c1_against_c2_mult_2.deck",
            "E,0,0,3\nE,1,3,1\nE,2,4,0\nE,1,3,2\nE,2,5,0\n",
        ),
    ] {
        let mut model = load(name);
        model.merge(FileId(1)).unwrap();
        assert_eq!(model.model_lines(), lines, "{name}");
    }
}

#[test]
fn refusals_of_load() {
    let refused = |name: &str| Model::load(common::data(name)).unwrap_err();
    assert_eq!(refused("load/refusal_1.deck"), LoadError::Form { line: 1 });
    assert_eq!(
        refused("load/refusal_2.deck"),
        LoadError::SchemaRule { line: 1 }
    );
    assert_eq!(
        refused("load/refusal_3.deck"),
        LoadError::TreeRule { line: 1 }
    );
    assert_eq!(refused("load/refusal_4.deck"), LoadError::Limit { line: 1 });
    assert_eq!(
        refused("load/empty_deck.deck"),
        LoadError::TreeRule { line: 0 }
    );
    let long = refused("load/limit_bytes_32769.deck");
    assert_eq!(long, LoadError::Limit { line: 0 });
    assert_eq!(long.to_string(), "the deck: a limit is exceeded");
}

/// The deck has each kind of text at the ends of its range.
#[test]
fn kinds_of_text() {
    let model = load("load/lines_text_kinds.deck");
    let texts: Vec<Text<'_>> = model.root().texts().collect();
    let (floats, others): (Vec<_>, Vec<_>) = texts
        .iter()
        .partition(|text| matches!(text, Text::Float(_)));
    assert_eq!(
        others,
        [
            Text::Enum(0),
            Text::Enum(65535),
            Text::String(""),
            Text::String(" ~"),
            Text::String("two words \"and\" dots..."),
            Text::Unsigned(0),
            Text::Unsigned(10),
            Text::Unsigned(u64::MAX),
        ]
    );
    let bits: Vec<u64> = floats
        .iter()
        .map(|text| match text {
            Text::Float(float) => float.to_bits(),
            _ => 0,
        })
        .collect();
    assert_eq!(bits, [0, 0x10, 0x7ff8000000000001, u64::MAX]);
}

#[test]
fn files_and_sets() {
    let model = load("load/f_ascending_with_gaps.deck");
    let files = [(0, 9), (7, 3), (63, 3)].map(file);
    assert!(model.files().eq(files));
    assert!(model.root().own_files().iter().eq([FileId(7)]));

    let mut model = load("merge/set_of_file_63.deck");
    model.merge(FileId(63)).unwrap();
    let loaded = model.root().own_files();
    assert!(loaded.iter().eq([0, 63].map(FileId)));
    assert_eq!(format!("{loaded:x}"), "8000000000000001");

    let model = load("load/lines_three_trees.deck");
    assert_eq!(common::waiting_files(&model), [63, 4, 9].map(FileId));
    let roots = model.waiting().map(|tree| tree.root);
    assert_eq!(numbers(roots), [1, 3, 4]);
}

#[test]
fn a_model_is_shown_short() {
    let model = load("merge/printed.deck");
    let shown = "Model { files: {0}, elements: 2, waiting: 1, log: 0, .. }";
    assert_eq!(format!("{model:?}"), shown);
    let shown = "Element { id: 1, name: 3, depth: 1, own_files: {}, .. }";
    assert_eq!(format!("{:?}", model.element(ElementId(1)).unwrap()), shown);
}

#[test]
fn a_model_may_move_between_threads() {
    fn send_and_sync<T: Send + Sync>(_: &T) {}
    let model = load("merge/printed.deck");
    send_and_sync(&model);
    send_and_sync(&model.elements());
}

#[test]
fn refusals_are_errors() {
    fn boxed(error: impl std::error::Error + Send + Sync + 'static) -> String {
        Box::<dyn std::error::Error + Send + Sync>::from(error).to_string()
    }
    assert_eq!(boxed(Refusal::NotWaiting), "no tree of that file waits");
    let error = LoadError::Form { line: 7 };
    assert_eq!(boxed(error), "line 7: the form of a line is wrong");
}

//! Decks that are written: read again they are the same, and what cannot be written is an error.

mod common;

use common::{cases, data, loadable, waiting_files};
use zapelaritz::{
    DeckBuilder, File, FileId, FileSet, Group, LoadError, Mode, Model, Mult, Name, Node, Row, Text,
    TypeId, Version, VersionMask,
};

/// The printed example of document 01, written.
#[test]
fn the_example_is_written() {
    let four = VersionMask::from_bits(0xf);
    let mut deck = DeckBuilder::new();
    let root = deck.add_type(Mode::Sequence, false, four);
    let characters = deck.add_type(Mode::Characters, false, VersionMask::NONE);
    for (path, name, mult) in [(0, 3, Mult::Any), (1, 4, Mult::AtMostOne)] {
        deck.add_row(Row {
            type_id: root,
            path: [path].into(),
            name: Name(name),
            child: characters,
            mult,
            versions: four,
        });
    }
    for (id, version) in [(0, 2), (1, 3)] {
        let (id, version) = (FileId(id), Version(version));
        deck.add_file(File { id, version });
    }
    let three = |text: &str| Node::new(Name(3)).text(text);
    let loaded = FileSet::EMPTY.with(FileId(0));
    let four = Node::new(Name(4)).text(7_u64);
    deck.delivery(FileId(1), Node::root().child(three("q")).child(four))
        .model(Node::root().files(loaded).child(three("p")));
    let expected = String::from_utf8(data("merge/printed.deck")).unwrap();
    assert_eq!(deck.build().unwrap(), expected);
}

/// The lines are in a deck's order, whatever the order of the calls, with each kind of text.
#[test]
fn every_kind_of_line() {
    let mut deck = DeckBuilder::new();
    let texts = Node::new(Name(4095))
        .files(FileSet::from_bits(u64::MAX))
        .text(Text::Enum(65535))
        .text("")
        .text(" ~")
        .text(u64::MAX)
        .text(-0.0)
        .text(f64::from_bits(0x7ff8_0000_0000_0001));
    deck.delivery(FileId(63), Node::root());
    deck.model(
        Node::root()
            .child(texts)
            .child(Node::named(Name(3), "x"))
            .text("behind"),
    );
    deck.add_file(File {
        id: FileId(63),
        version: Version(31),
    });
    deck.add_row(Row {
        type_id: TypeId(127),
        path: [255, 0, 1, 2].into(),
        name: Name(4095),
        child: TypeId(0),
        mult: Mult::One,
        versions: VersionMask::ALL,
    });
    deck.add_group(Group {
        type_id: TypeId(0),
        path: [1, 2, 3].into(),
        mode: Mode::Mixed,
    });
    deck.add_type(Mode::Bag, true, VersionMask::from_bits(0x10));
    let expected = "\
T,0,2,1,10
G,0,1.2.3,3
S,127,255.0.1.2,4095,0,1,ffffffff
F,63,31
M
E,0,0,0
E,1,4095,ffffffffffffffff
C,2,e,65535
C,2,s,
C,2,s, ~
C,2,u,18446744073709551615
C,2,f,8000000000000000
C,2,f,7ff8000000000001
E,1,3,0
E,2,1,0
C,3,s,x
C,1,s,behind
B,63
E,0,0,0
";
    assert_eq!(deck.build().unwrap(), expected);
}

/// What is wrong in another way is written, and refused by load.
#[test]
fn wrong_decks_are_for_load_to_refuse() {
    let refused = |deck: &DeckBuilder| Model::load(deck.build().unwrap()).unwrap_err();
    let mut deck = DeckBuilder::new();
    assert_eq!(refused(&deck), LoadError::TreeRule { line: 0 });
    deck.add_type(Mode::Sequence, false, VersionMask::NONE);
    deck.add_file(File {
        id: FileId(64),
        version: Version(0),
    });
    assert_eq!(refused(&deck), LoadError::Form { line: 2 });

    let mut deck = DeckBuilder::new();
    deck.add_type(Mode::Sequence, false, VersionMask::NONE);
    deck.add_group(Group {
        type_id: TypeId(1),
        path: [0].into(),
        mode: Mode::Bag,
    });
    assert_eq!(refused(&deck), LoadError::SchemaRule { line: 2 });

    // A group has a path of up to three parts, and is not of mode 4.
    for (path, mode) in [
        ([0, 0, 0, 0].into(), Mode::Bag),
        ([0].into(), Mode::Characters),
    ] {
        let mut deck = DeckBuilder::new();
        let type_id = deck.add_type(Mode::Sequence, false, VersionMask::NONE);
        deck.add_group(Group {
            type_id,
            path,
            mode,
        });
        assert_eq!(refused(&deck), LoadError::Form { line: 2 });
    }
}

/// A deck's strings have bytes 20 to 7e hexadecimal, but no comma.
#[test]
fn strings_that_no_deck_holds() {
    let build = |string: &str| {
        let mut deck = DeckBuilder::new();
        deck.model(Node::root().child(Node::named(Name(3), string)));
        deck.build()
    };
    for character in (0..=0x7f_u8).map(char::from).chain(['é', '\u{7fff}', '🦀']) {
        let string = format!("a{character}b");
        let holds = (' '..='~').contains(&character) && character != ',';
        match build(&string) {
            Ok(deck) => {
                assert!(holds, "{character:?}");
                assert!(deck.ends_with(&format!("C,3,s,{string}\n")));
            }
            Err(error) => {
                assert!(!holds, "{character:?}");
                assert_eq!((&error.string, error.character), (&string, character));
            }
        }
    }
    assert!(build("").is_ok());
    let error = build("two\nlines, at least").unwrap_err();
    let shown = r#"the string "two\nlines, at least": a deck's string has no '\n'"#;
    assert_eq!(error.to_string(), shown);
    let _: &dyn std::error::Error = &error;
}

/// The same schema, files and trees.
fn same(name: &str, model: &Model, again: &Model) {
    let schema = |model: &Model| -> Vec<String> {
        let schema = model.schema();
        let types = schema.types().map(|t| t.to_string());
        let groups = schema.groups().map(|g| g.to_string());
        let rows = schema.rows().map(|r| r.to_string());
        let files = model.files().map(|f| f.to_string());
        types.chain(groups).chain(rows).chain(files).collect()
    };
    assert_eq!(schema(model), schema(again), "{name}");
    assert!(model.trees_lines() == again.trees_lines(), "{name}");
}

/// Every deck that loads, written and loaded again. Most are the same to the byte; in some a text of an element stands behind
/// its child and before the child's child.
#[test]
fn every_deck_is_written_again() {
    let (mut decks, mut same_bytes) = (0, 0);
    for (case, deck) in cases() {
        let Ok(model) = Model::load(data(&format!("{deck}.deck"))) else {
            continue;
        };
        if case == deck {
            let written = DeckBuilder::from(&model).build().unwrap();
            same_bytes += usize::from(written == model.deck());
            decks += 1;
            same(&deck, &model, &Model::load(written).unwrap());
        }
    }
    assert!(
        decks > 200 && same_bytes * 10 > decks * 9,
        "{same_bytes} of {decks}"
    );
}

/// A model as it stands behind its merges is a deck too, if it is not too long.
#[test]
fn merged_models_are_written() {
    let mut decks = 0;
    for (name, mut model) in loadable() {
        for file in waiting_files(&model) {
            let _ = model.merge(file);
        }
        let written = DeckBuilder::from(&model).build().unwrap();
        match Model::load(&written) {
            Ok(again) => same(&name, &model, &again),
            Err(error) => assert_eq!(error.number(), 4, "{name}: {error}"),
        }
        decks += 1;
    }
    assert!(decks > 200, "{decks}");
}

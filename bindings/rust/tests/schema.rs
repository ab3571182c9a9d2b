//! The schema as it is read, against the lines of the decks.

mod common;

use common::{cases, data, load};
use zapelaritz::{
    Group, Mode, Model, Mult, Name, Places, Refusal, Row, TypeId, Version, VersionMask,
};

/// The lines of a deck that begin with a letter.
fn lines(deck: &str, letter: char) -> Vec<&str> {
    deck.lines()
        .filter(|line| line.starts_with(letter))
        .collect()
}

/// On every deck that loads: types, groups and rows, over all and of each type.
#[test]
fn types_groups_and_rows_are_the_lines() {
    let (mut groups, mut rows) = (0, 0);
    for (case, deck) in cases() {
        if case != deck {
            continue;
        }
        let Ok(model) = Model::load(data(&format!("{deck}.deck"))) else {
            continue;
        };
        let schema = model.schema();
        let text = model.deck();
        let shown: Vec<String> = schema.types().map(|t| t.to_string()).collect();
        assert_eq!(shown, lines(text, 'T'), "{deck}");
        let shown: Vec<String> = schema.groups().map(|g| g.to_string()).collect();
        assert_eq!(shown, lines(text, 'G'), "{deck}");
        groups += shown.len();
        let shown: Vec<String> = schema.rows().map(|r| r.to_string()).collect();
        assert_eq!(shown, lines(text, 'S'), "{deck}");
        rows += shown.len();

        for of_type in schema.types() {
            assert_eq!(schema.get(of_type.id()), Some(of_type), "{deck}");
            let of = |line: &&str| line.split(',').nth(1) == Some(&of_type.id().to_string());
            let expected: Vec<&str> = lines(text, 'S').into_iter().filter(of).collect();
            let shown: Vec<String> = of_type.rows().map(|r| r.to_string()).collect();
            assert_eq!(shown, expected, "{deck}");
            let expected: Vec<&str> = lines(text, 'G').into_iter().filter(of).collect();
            let shown: Vec<String> = of_type.groups().map(|g| g.to_string()).collect();
            assert_eq!(shown, expected, "{deck}");
            for row in of_type.rows() {
                assert_eq!(of_type.row(row.name), Some(row), "{deck}");
            }
        }
        let beyond = TypeId(schema.types().len() as u64);
        assert_eq!(schema.get(beyond), None, "{deck}");
    }
    assert!(groups > 100 && rows > 1000, "{groups} groups, {rows} rows");
}

/// The deck of `docs/DECK.md`, "Paths, groups and places".
#[test]
fn a_schema_read() {
    let model = load("calls/range_groups.deck");
    let root = model.root().element_type();
    assert_eq!((root.mode(), root.is_named()), (Mode::Sequence, false));
    assert_eq!(root.split(), VersionMask::NONE);
    let groups: Vec<Group> = root.groups().collect();
    let group = |path: u8, mode| Group {
        type_id: TypeId::ROOT,
        path: [path].into(),
        mode,
    };
    let expected = [
        group(1, Mode::Choice),
        group(2, Mode::Bag),
        group(4, Mode::Sequence),
    ];
    assert_eq!(groups, expected);
    // S,0,4.1,10,1,0,2
    let row = Row {
        type_id: TypeId::ROOT,
        path: [4, 1].into(),
        name: Name(10),
        child: TypeId(1),
        mult: Mult::AtMostOne,
        versions: VersionMask::from_bits(2),
    };
    assert_eq!(root.row(Name(10)), Some(row));
    assert_eq!(root.row(Name(8)).map(|row| row.mult), Some(Mult::One));
    assert_eq!(root.row(Name(2)), None);
    let characters = model.schema().get(TypeId(1)).unwrap();
    assert_eq!(characters.mode(), Mode::Characters);
    assert_eq!(characters.rows().count(), 0);
    let shown = "Schema { types: 2, groups: 3, rows: 9 }";
    assert_eq!(format!("{:?}", model.schema()), shown);
    let shown = "Type { id: 1, mode: Characters, named: false, split: {}, .. }";
    assert_eq!(format!("{characters:?}"), shown);
}

/// The places and refusals that the same page has for the same deck.
#[test]
fn a_palette() {
    let model = load("calls/range_groups.deck");
    let root = model.root();
    let element = root.id();
    let places = |first, last| Ok(Places { first, last });
    let no_place = Err(Refusal::NoPlace { element });
    let unknown = Err(Refusal::NotInVersion {
        element,
        name: Name(10),
    });
    let expected = [
        (3, places(0, 1)),
        (4, places(1, 2)),
        (5, no_place),
        (6, places(2, 4)),
        (7, places(2, 4)),
        (8, places(4, 4)),
        (9, places(4, 4)),
        (10, unknown),
        (11, places(5, 5)),
    ];
    let palette: Vec<_> = root
        .palette(Version(0))
        .map(|(row, places)| (row.name.get(), places))
        .collect();
    assert_eq!(palette, expected);
    assert_eq!(root.range(Name(10), Version(1)), no_place);

    let allowed: Vec<u64> = root.allowed_names(Version(0)).map(Name::get).collect();
    assert_eq!(allowed, [3, 4, 5, 6, 7, 8, 9, 11]);
    assert!(root.allowed_names(Version(1)).eq([Name(10)]));
    assert_eq!(root.allowed_names(Version(2)).count(), 0);
    assert_eq!(root.allowed_names(Version(32)).count(), 0);
    // An element of mode 4 has no rows.
    let child = root.sub_element(Name(3)).unwrap();
    assert_eq!(child.palette(Version(0)).count(), 0);
}

/// Every element, row and version of every deck: a name is allowed exactly where its range is not refused with 7.
#[test]
fn allowed_names_are_those_of_the_ranges() {
    let mut asked = 0;
    for name in [
        "merge/named",
        "merge/mask_4_new_version_3",
        "calls/range_groups",
    ] {
        let model = load(&format!("{name}.deck"));
        for element in model.elements() {
            for version in (0..=32).map(Version) {
                let known: Vec<Name> = element
                    .palette(version)
                    .filter(|(_, places)| {
                        places.map_or_else(|refusal| refusal.number(), |_| 0) != 7
                    })
                    .map(|(row, _)| row.name)
                    .collect();
                // Over 31 every range is refused with 11.
                if version.get() < 32 {
                    assert!(
                        element.allowed_names(version).eq(known),
                        "{name}, {element}"
                    );
                }
                asked += 1;
            }
        }
    }
    assert!(asked > 300, "{asked}");
}

#[test]
fn shown_for_people() {
    let modes = [
        (Mode::Sequence, "sequence"),
        (Mode::Choice, "choice"),
        (Mode::Bag, "bag"),
        (Mode::Mixed, "mixed"),
        (Mode::Characters, "characters"),
    ];
    for (number, (mode, shown)) in (0..).zip(modes) {
        assert_eq!((mode.number(), mode.to_string().as_str()), (number, shown));
    }
    let mults = [
        (Mult::AtMostOne, "at most one"),
        (Mult::One, "one"),
        (Mult::Any, "any number"),
    ];
    for (number, (mult, shown)) in (0..).zip(mults) {
        assert_eq!((mult.number(), mult.to_string().as_str()), (number, shown));
    }
    let places = |first, last| Places { first, last };
    assert_eq!(places(2, 4).to_string(), "places 2 to 4");
    assert_eq!(places(4, 4).to_string(), "place 4");
    assert!(places(2, 4).iter().eq(2..5));
    assert!([1, 2, 4, 5].map(|place| places(2, 4).contains(place)) == [false, true, true, false]);
}

//! What is read of an element: document 01, "Pairing" and "File sets". What is expected is worked out by hand from the lines.

mod common;

use common::{load, read, waiting_files};
use zapelaritz::{Element, ElementId, FileId, FileSet, Item, Model, Name, Text, Version};

/// In the root any children; name 3 is of a named mixed type, name 4 of a mixed type that is not named.
const SCHEMA: &str = "\
T,0,2,0,0
T,1,3,1,0
T,2,3,0,0
T,3,4,0,0
S,0,0,3,1,2,1
S,0,1,4,2,2,1
S,1,0,1,3,1,1
S,1,1,2,3,2,1
S,1,2,5,3,2,1
S,2,0,1,3,1,1
S,2,1,2,3,2,1
F,0,0
M
E,0,0,1
";

/// The deck of the schema and these lines; the element of the first is asked.
fn with_first<T>(lines: &[&str], ask: impl Fn(Element<'_>) -> T) -> T {
    let deck = format!("{SCHEMA}{}\n", lines.join("\n"));
    let model = Model::load(&deck).unwrap_or_else(|error| panic!("{error}\n{deck}"));
    ask(model.element(ElementId(1)).unwrap())
}

/// Identifiable: its type is named and its first content is a SHORT-NAME. Its item name is that element's sole string.
#[test]
fn item_names() {
    let cases: [(&[&str], bool, Option<&str>); 10] = [
        (&["E,1,3,0", "E,2,1,0", "C,3,s,x"], true, Some("x")),
        (&["E,1,3,0", "E,2,1,0", "C,3,s,"], true, Some("")),
        (&["E,1,3,0", "E,2,1,0"], true, None),
        (&["E,1,3,0", "E,2,1,0", "C,3,u,7"], true, None),
        (&["E,1,3,0", "E,2,1,0", "C,3,s,x", "C,3,s,y"], true, None),
        (&["E,1,3,0", "C,2,s,t", "E,2,1,0", "C,3,s,x"], false, None),
        (&["E,1,3,0", "E,2,5,0", "E,2,1,0", "C,3,s,x"], false, None),
        (&["E,1,3,0"], false, None),
        (&["E,1,3,0", "C,2,s,x"], false, None),
        // The type is not named.
        (&["E,1,4,0", "E,2,1,0", "C,3,s,x"], false, None),
    ];
    for (lines, identifiable, item_name) in cases {
        let read = with_first(lines, |element| {
            let name = element.item_name().map(str::to_string);
            (element.is_identifiable(), name)
        });
        assert_eq!(read, (identifiable, item_name.map(Into::into)), "{lines:?}");
    }
}

/// The string of its first DEFINITION-REF child, or missing.
#[test]
fn definitions() {
    let cases: [(&[&str], Option<&str>); 7] = [
        (&["E,1,4,0", "E,2,2,0", "C,3,s,d"], Some("d")),
        (
            &["E,1,4,0", "E,2,1,0", "C,2,u,1", "E,2,2,0", "C,3,s,d"],
            Some("d"),
        ),
        (
            &["E,1,4,0", "E,2,2,0", "C,3,s,d", "E,2,2,0", "C,3,s,e"],
            Some("d"),
        ),
        (
            &["E,1,4,0", "E,2,2,0", "C,3,e,1", "E,2,2,0", "C,3,s,e"],
            None,
        ),
        (&["E,1,4,0", "E,2,2,0"], None),
        (&["E,1,4,0", "C,2,s,d"], None),
        (
            &["E,1,3,0", "E,2,1,0", "C,3,s,x", "E,2,2,0", "C,3,s,d"],
            Some("d"),
        ),
    ];
    for (lines, definition) in cases {
        let read = with_first(lines, |element| element.definition().map(str::to_string));
        assert_eq!(read.as_deref(), definition, "{lines:?}");
    }
}

/// Its only content item, if that is a text.
#[test]
fn texts_of_elements() {
    let text = |lines: &[&str]| with_first(lines, |element| element.text().map(|t| t.to_string()));
    assert_eq!(text(&["E,1,4,0", "C,2,s,red"]).as_deref(), Some("red"));
    assert_eq!(text(&["E,1,4,0", "C,2,u,7"]).as_deref(), Some("7"));
    assert_eq!(text(&["E,1,4,0", "C,2,e,12"]).as_deref(), Some("12"));
    // The bits of 1.5.
    let float = text(&["E,1,4,0", "C,2,f,3ff8000000000000"]);
    assert_eq!(float.as_deref(), Some("1.5"));
    assert_eq!(text(&["E,1,4,0"]), None);
    assert_eq!(text(&["E,1,4,0", "E,2,1,0"]), None);
    assert_eq!(text(&["E,1,4,0", "C,2,s,red", "C,2,s,red"]), None);
    assert_eq!(text(&["E,1,4,0", "C,2,s,red", "E,2,1,0"]), None);
}

/// Texts count as places; only elements have one.
#[test]
fn positions_in_mixed_content() {
    let lines = ["E,1,4,0", "C,2,s,a", "E,2,2,0", "C,2,s,b", "E,2,2,0"];
    with_first(&lines, |element| {
        let places: Vec<_> = element.sub_elements().map(|e| e.position()).collect();
        assert_eq!(places, [Some(1), Some(3)]);
        assert_eq!(element.position(), Some(0));
        assert_eq!(element.item_at(2), Some(Item::Text(Text::String("b"))));
        assert_eq!(element.item_at(4), None);
        assert_eq!(element.item_at(usize::MAX), None);
    });
}

/// The first of several, by name and by item name.
#[test]
fn sub_elements_found() {
    let model = load("merge/named.deck");
    let root = model.root();
    let engine = root.sub_element(Name(3)).unwrap();
    assert_eq!(engine.id(), ElementId(1));
    assert_eq!(root.named_sub_element("engine"), Some(engine));
    let doors = root.named_sub_element("doors").unwrap();
    assert_eq!(doors.id(), ElementId(3));
    assert_eq!(root.named_sub_element("lights"), None);
    // The SHORT-NAME holds the item name, and has none itself.
    assert_eq!(engine.named_sub_element("engine"), None);
    assert_eq!(engine.sub_element(Name(4)), None);

    // The delivery of file 2 has an engine with a value, and lights.
    let tree = model.waiting().last().unwrap();
    assert_eq!(tree.file, FileId(2));
    let engine = tree.root.named_sub_element("engine").unwrap();
    assert_eq!(
        engine.sub_element(Name(4)).unwrap().text(),
        Some(Text::Unsigned(7))
    );
}

/// Both deliveries merged: `engine` with the value of file 2, `doors` of files 0 and 1, `brakes` of 1, `lights` of 2.
#[test]
fn paths_and_files() {
    let mut model = load("merge/named.deck");
    let shown = |model: &Model| -> Vec<String> {
        let elements = model.elements();
        elements
            .map(|e| format!("{e} {} {}", e.own_files(), e.effective_files()))
            .collect()
    };
    let loaded = [
        "/ {0} {0}",
        "/engine {} {0}",
        "/engine/<1> {} {0}",
        "/doors {} {0}",
        "/doors/<1> {} {0}",
    ];
    assert_eq!(shown(&model), loaded);
    for file in waiting_files(&model) {
        model.merge(file).unwrap();
    }
    let mut paths = shown(&model);
    paths.sort();
    let merged = [
        "/ {0, 1, 2} {0, 1, 2}",
        "/brakes {1} {1}",
        "/brakes/<1> {} {1}",
        "/doors {0, 1} {0, 1}",
        "/doors/<1> {} {0, 1}",
        "/engine {0, 2} {0, 2}",
        "/engine/<1> {} {0, 2}",
        "/engine/<4> {2} {2}",
        "/lights {2} {2}",
        "/lights/<1> {} {2}",
    ];
    assert_eq!(paths, merged);
    // Files 0 and 1 are of version 2, file 2 of version 3.
    let version = |path| model.element_at(path).unwrap().min_version();
    assert_eq!(version("/engine"), Some(Version(2)));
    assert_eq!(version("/lights/<1>"), Some(Version(3)));
}

/// A waiting tree has no sets.
#[test]
fn files_of_a_waiting_tree() {
    let model = load("merge/named.deck");
    let tree = model.waiting().next().unwrap();
    for element in tree.root.subtree() {
        assert_eq!(element.own_files(), FileSet::EMPTY);
        assert_eq!(element.effective_files(), FileSet::EMPTY);
        assert_eq!(element.min_version(), None);
    }
    let paths: Vec<String> = tree.root.subtree().map(|e| e.path()).collect();
    assert_eq!(
        paths,
        ["/", "/doors", "/doors/<1>", "/brakes", "/brakes/<1>"]
    );
}

#[test]
fn ancestors_end_at_the_root() {
    let model = load("calls/depth_31_import.deck");
    let deepest = model
        .elements()
        .max_by_key(|element| element.depth())
        .unwrap();
    let above: Vec<usize> = deepest.ancestors().map(|element| element.depth()).collect();
    let expected: Vec<usize> = (0..deepest.depth()).rev().collect();
    assert_eq!(above, expected);
    assert_eq!(model.root().ancestors().count(), 0);
}

/// A path that several elements have names the first; one that none has names none.
#[test]
fn elements_at_paths() {
    let deck = format!("{SCHEMA}E,1,4,0\nE,1,3,0\nE,2,1,0\nC,3,s,a/b <4>\nE,1,4,0\n");
    let model = Model::load(deck).unwrap();
    let at = |path| model.element_at(path).map(|element| element.id());
    assert_eq!(at("/"), Some(ElementId(0)));
    assert_eq!(at("/<4>"), Some(ElementId(1)));
    assert_eq!(at("/a/b <4>"), Some(ElementId(2)));
    assert_eq!(at("/a/b <4>/<1>"), Some(ElementId(3)));
    for none in ["", "/4", "/a", "<4>", "/<4>/", "/<0>"] {
        assert_eq!(at(none), None, "{none}");
    }
}

/// Texts are equal with equal kind and value; floats if both are NaN or they compare equal.
#[test]
fn equal_texts() {
    let nan = |bits| Text::Float(f64::from_bits(bits));
    let texts = [
        Text::Enum(1),
        Text::Unsigned(1),
        Text::Float(1.0),
        Text::String("1"),
        Text::String(""),
        Text::Float(0.0),
        nan(0x7ff8_0000_0000_0001),
    ];
    for (i, a) in texts.iter().enumerate() {
        for (j, b) in texts.iter().enumerate() {
            assert_eq!(a == b, i == j, "{a:?} {b:?}");
        }
    }
    assert_eq!(Text::Float(0.0), Text::Float(-0.0));
    assert_eq!(nan(0x7ff8_0000_0000_0001), nan(u64::MAX));
}

/// The examples of `Element` read the deck that its page shows.
#[test]
fn the_deck_of_the_examples_is_shown() {
    let source = String::from_utf8(read("bindings/rust/src/tree.rs")).unwrap();
    let deck = String::from_utf8(read("bindings/rust/tests/decks/engine.deck")).unwrap();
    let shown: String = deck.lines().map(|line| format!("/// {line}\n")).collect();
    assert!(source.contains(&format!("/// let deck = \"\\\n{shown}/// \";\n")));
}

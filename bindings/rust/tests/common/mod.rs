//! What several tests share.

#![allow(dead_code)]

use std::fmt::Write;
use std::fs;
use std::path::{Path, PathBuf};

use zapelaritz::{Element, FileId, Item, Model, Refusal, Text};

/// A path of the repository.
pub fn repository(path: &str) -> PathBuf {
    Path::new(env!("CARGO_MANIFEST_DIR"))
        .join("../..")
        .join(path)
}

/// A file of the repository.
pub fn read(path: &str) -> Vec<u8> {
    fs::read(repository(path)).unwrap_or_else(|error| panic!("{path}: {error}"))
}

/// The cases of the test program `crates/decks`: each has a name, and the name of the case whose deck it takes.
pub fn cases() -> Vec<(String, String)> {
    let list = String::from_utf8(read("crates/decks/data/list")).unwrap();
    let names = |line: &str| {
        let (case, deck) = line.split_once(' ').unwrap_or((line, line));
        (case.to_string(), deck.to_string())
    };
    let cases: Vec<_> = list.lines().map(names).collect();
    assert!(cases.len() > 1000, "{} cases", cases.len());
    cases
}

/// A file of the test program, by its path in `crates/decks/data`.
pub fn data(path: &str) -> Vec<u8> {
    read(&format!("crates/decks/data/{path}"))
}

/// A deck of the test program that loads.
pub fn load(name: &str) -> Model {
    Model::load(data(name)).unwrap_or_else(|error| panic!("{name}: {error}"))
}

/// The test program's decks that load, by name.
pub fn loadable() -> Vec<(String, Model)> {
    let mut decks = Vec::new();
    for (case, deck) in cases() {
        if case == deck {
            if let Ok(model) = Model::load(data(&format!("{deck}.deck"))) {
                decks.push((deck, model));
            }
        }
    }
    assert!(decks.len() > 200, "{} decks load", decks.len());
    decks
}

/// The files whose trees wait, in the order of the deck.
pub fn waiting_files(model: &Model) -> Vec<FileId> {
    model.waiting().map(|tree| tree.file).collect()
}

/// A merge's answer as numbers: the three counts, or the refusal.
pub fn merge(model: &mut Model, file: u64) -> Result<[u64; 3], Refusal> {
    let counts = model.merge(FileId(file))?;
    Ok([counts.imports, counts.restrictions, counts.extensions])
}

/// The E and C lines of a tree, read through the iterators.
pub fn tree_lines(root: Element<'_>) -> String {
    let mut lines = String::new();
    write_element(root, &mut lines);
    lines
}

fn write_element(element: Element<'_>, lines: &mut String) {
    lines.push_str(&element_line(element));
    for item in element.items() {
        match item {
            Item::Element(child) => write_element(child, lines),
            Item::Text(text) => write_text(element.depth() + 1, text, lines),
        }
    }
}

fn element_line(element: Element<'_>) -> String {
    let (depth, name) = (element.depth(), element.name());
    format!("E,{depth},{name},{:x}\n", element.own_files())
}

fn write_text(depth: usize, text: Text<'_>, lines: &mut String) {
    write!(lines, "C,{depth},").unwrap();
    match text {
        Text::Enum(number) => writeln!(lines, "e,{number}"),
        Text::String(string) => writeln!(lines, "s,{string}"),
        Text::Unsigned(number) => writeln!(lines, "u,{number}"),
        Text::Float(float) => writeln!(lines, "f,{:x}", float.to_bits()),
    }
    .unwrap();
}

/// The M, B, E and C lines, read through the iterators.
pub fn all_lines(model: &Model) -> String {
    let mut lines = format!("M\n{}", tree_lines(model.root()));
    for tree in model.waiting() {
        write!(lines, "B,{}\n{}", tree.file, tree_lines(tree.root)).unwrap();
    }
    lines
}

/// The length of the log and its entries, read through the iterator.
pub fn log_lines(model: &Model) -> String {
    let mut lines = format!("log,{}\n", model.log().len());
    for entry in model.log() {
        writeln!(lines, "{entry}").unwrap();
    }
    lines
}

/// The iterators agree with what the library prints, and with one another.
pub fn check_reading(name: &str, model: &Model) {
    let printed = model.model_lines();
    let read = tree_lines(model.root());
    assert!(read == printed, "{name}: the model is read otherwise");
    assert!(all_lines(model) == model.trees_lines(), "{name}: trees");
    assert_eq!(log_lines(model), model.log_lines(), "{name}");
    let elements: Vec<String> = model.elements().map(element_line).collect();
    let lines = printed.split_inclusive('\n');
    let lines: Vec<&str> = lines.filter(|line| line.starts_with("E,")).collect();
    assert!(elements == lines, "{name}: the elements come otherwise");
    for element in model.elements() {
        assert_eq!(model.element(element.id()), Some(element));
        for (place, item) in element.items().enumerate() {
            assert_eq!(element.item_at(place), Some(item), "{name}");
            if let Item::Element(child) = item {
                assert_eq!(child.parent(), Some(element), "{name}");
                assert_eq!(child.depth(), element.depth() + 1, "{name}");
                assert_eq!(child.position(), Some(place), "{name}");
            }
        }
        let (items, texts) = (element.items(), element.texts());
        assert_eq!(items.len(), element.sub_elements().count() + texts.count());
    }
    let root = model.root();
    assert_eq!((root.parent(), root.position()), (None, None));
}

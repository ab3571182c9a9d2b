//! The declarations in Rust and in the C header are those of the Rattle source.

mod common;

use std::collections::BTreeMap;
use std::fs;

use common::{read, repository};
use zapelaritz::{ElementId, LoadError, Name, Refusal};

/// Parameters in order, each as its name and type, and the result's type; types as Rust writes them.
#[derive(Debug, PartialEq)]
struct Signature {
    parameters: Vec<(String, String)>,
    result: String,
}

type Functions = BTreeMap<String, Signature>;

const NAMES: [&str; 17] = [
    "zapelaritz_answer_size",
    "zapelaritz_deck_limit",
    "zapelaritz_elements_size",
    "zapelaritz_load",
    "zapelaritz_log_size",
    "zapelaritz_mark",
    "zapelaritz_merge",
    "zapelaritz_model_size",
    "zapelaritz_print_calls",
    "zapelaritz_print_log",
    "zapelaritz_print_model",
    "zapelaritz_print_output",
    "zapelaritz_print_trees",
    "zapelaritz_range",
    "zapelaritz_rollback",
    "zapelaritz_schema_size",
    "zapelaritz_version",
];

fn text(path: &str) -> String {
    String::from_utf8(read(path)).unwrap()
}

fn without_line_comments(text: &str) -> String {
    text.lines()
        .map(|line| line.split("//").next().unwrap_or_default())
        .collect::<Vec<_>>()
        .join("\n")
}

/// The Rattle source, each file without its comments: the calls, and their answers as numbers.
fn rattle_files() -> Vec<String> {
    let mut files = Vec::new();
    for folder in ["crates/zapelaritz_c/src", "crates/answer_numbers/src"] {
        for entry in fs::read_dir(repository(folder)).unwrap() {
            let name = entry.unwrap().file_name().into_string().unwrap();
            assert!(name.ends_with(".rt"), "{name}");
            files.push(without_line_comments(&text(&format!("{folder}/{name}"))));
        }
    }
    assert!(!files.is_empty());
    files
}

/// The text between the parenthesis that opens `text` and the one that closes it, and what follows.
fn in_parentheses(text: &str) -> (&str, &str) {
    let inner = text.strip_prefix('(').unwrap();
    inner.split_once(')').unwrap()
}

fn parts(parameters: &str) -> impl Iterator<Item = &str> {
    parameters
        .split(',')
        .map(str::trim)
        .filter(|part| !part.is_empty())
}

fn insert(functions: &mut Functions, name: &str, parameters: Vec<(String, String)>, result: &str) {
    let signature = Signature {
        parameters,
        result: result.to_string(),
    };
    let earlier = functions.insert(name.to_string(), signature);
    assert_eq!(earlier, None, "{name} is declared twice");
}

/// What a parameter of Rattle passes: a slice is its pointer and its length.
fn passed(parameter: &str) -> Vec<(String, String)> {
    let (name, kind) = parameter.split_once(": ").unwrap();
    let pointer = match kind {
        "&[u8]" => "*const u8",
        "&[u64]" => "*const u64",
        "&mut [u8]" => "*mut u8",
        "&mut [u64]" => "*mut u64",
        "u64" | "usize" => return vec![(name.into(), kind.into())],
        _ => panic!("{parameter}: not a type that passes"),
    };
    vec![
        (name.into(), pointer.into()),
        (format!("{name}_length"), "usize".into()),
    ]
}

fn rattle() -> Functions {
    let mut functions = Functions::new();
    for file in rattle_files() {
        let exported = "#[unsafe(no_mangle)]\npub extern \"C\" fn ";
        assert_eq!(
            file.matches("extern").count(),
            file.matches(exported).count()
        );
        assert_eq!(
            file.matches("no_mangle").count(),
            file.matches(exported).count()
        );
        for function in file.split(exported).skip(1) {
            let (name, rest) = function.split_at(function.find('(').unwrap());
            let (parameters, rest) = in_parentheses(rest);
            let parameters = parts(parameters).flat_map(passed).collect();
            let result = rest.trim_start().strip_prefix("->").unwrap();
            let result = result.split_whitespace().next().unwrap();
            insert(&mut functions, name, parameters, result);
        }
    }
    functions
}

fn rust() -> Functions {
    let source = without_line_comments(&text("bindings/rust/src/ffi.rs"));
    assert_eq!(source.matches("extern").count(), 1);
    let (_, block) = source.split_once("extern \"C\" {").unwrap();
    let (block, _) = block.split_once('}').unwrap();
    let mut functions = Functions::new();
    for declaration in block.split(';').map(str::trim).filter(|d| !d.is_empty()) {
        let function = declaration.strip_prefix("fn ").unwrap();
        let (name, rest) = function.split_at(function.find('(').unwrap());
        let (parameters, result) = in_parentheses(rest);
        let parameters = parts(parameters)
            .map(|parameter| parameter.split_once(": ").unwrap())
            .map(|(name, kind)| (name.into(), kind.into()))
            .collect();
        let result = result.trim().strip_prefix("->").unwrap().trim();
        insert(&mut functions, name, parameters, result);
    }
    functions
}

fn number_in_rust(c: &str) -> &str {
    match c {
        "uint8_t" => "u8",
        "uint64_t" => "u64",
        "size_t" => "usize",
        _ => panic!("{c}: not a type that passes"),
    }
}

/// `const uint8_t *deck` or `size_t from`.
fn parameter_of_c(parameter: &str) -> (String, String) {
    let (kind, name) = match parameter.split_once('*') {
        None => {
            let (kind, name) = parameter.split_once(' ').unwrap();
            (number_in_rust(kind).to_string(), name)
        }
        Some((kind, name)) => {
            let kind = kind.trim();
            let pointer = match kind.strip_prefix("const ") {
                Some(kind) => format!("*const {}", number_in_rust(kind)),
                None => format!("*mut {}", number_in_rust(kind)),
            };
            (pointer, name)
        }
    };
    (name.trim().to_string(), kind)
}

/// The declarations of the header: no comments, no preprocessor's lines, no inline functions.
fn header_text() -> String {
    let header = text("include/zapelaritz.h");
    let mut parts = header.split("/*");
    let mut code = parts.next().unwrap().to_string();
    for part in parts {
        code += part.split_once("*/").unwrap().1;
    }
    let code: Vec<&str> = code.lines().filter(|line| !line.starts_with('#')).collect();
    without_inline(&code.join("\n"))
}

/// What the header defines itself is no function of the library. Its closing brace begins a line.
fn without_inline(code: &str) -> String {
    let mut parts = code.split("static inline ");
    let mut declarations = parts.next().unwrap().to_string();
    for part in parts {
        declarations += part.split_once("\n}\n").unwrap().1;
    }
    declarations
}

fn header() -> Functions {
    let mut functions = Functions::new();
    for declaration in header_text().split(';').filter(|d| d.contains('(')) {
        let declaration = declaration.trim();
        let (before, rest) = declaration.split_at(declaration.find('(').unwrap());
        let (result, name) = before.split_once(' ').unwrap();
        let (parameters, rest) = in_parentheses(rest);
        assert_eq!(rest, "");
        let parameters = match parameters {
            "void" => Vec::new(),
            parameters => parts(parameters).map(parameter_of_c).collect(),
        };
        insert(&mut functions, name, parameters, number_in_rust(result));
    }
    functions
}

/// Function by function, for a short message.
fn same(declared: &Functions, exported: &Functions) {
    let names = |functions: &Functions| functions.keys().cloned().collect::<Vec<_>>();
    assert_eq!(names(declared), names(exported));
    for (name, signature) in exported {
        assert_eq!(declared.get(name), Some(signature), "{name}");
    }
}

#[test]
fn the_exported_functions() {
    assert!(rattle().keys().eq(NAMES));
}

#[test]
fn rust_declares_what_is_exported() {
    same(&rust(), &rattle());
}

#[test]
fn the_header_declares_what_is_exported() {
    same(&header(), &rattle());
}

/// A function of the library takes anything: none has a condition on its caller.
#[test]
fn no_function_requires() {
    for file in rattle_files() {
        assert!(file.contains("ensures") || !file.contains("fn "));
        assert!(!file.contains("requires"), "{file}");
    }
}

/// What calls return and how long an answer is, by the source.
#[test]
fn codes() {
    let source = rattle_files().concat();
    let rust = text("bindings/rust/src/ffi.rs");
    let header = text("include/zapelaritz.h");
    let accepted = "const ACCEPTED: u64 = 255;";
    let size = "const ANSWER_SIZE: usize = 4;";
    for constant in [accepted, size] {
        assert!(source.contains(constant), "{constant}");
        assert!(rust.contains(constant), "{constant}");
    }
    assert!(source.contains("const VERSION: u64 = 200;"));
    for constant in [
        "ZAPELARITZ_ACCEPTED = 255",
        "#define ZAPELARITZ_ANSWER_SIZE 4",
        "#define ZAPELARITZ_VERSION 200",
    ] {
        assert!(header.contains(constant), "{constant}");
    }
}

/// The refusals of the header have the numbers of those in Rust.
#[test]
fn refusals() {
    let header = header_text();
    let (_, list) = header.split_once("enum zapelaritz_refusal {").unwrap();
    let (list, _) = list.split_once('}').unwrap();
    let declared: Vec<(&str, u64)> = parts(list)
        .map(|part| part.split_once(" = ").unwrap())
        .map(|(name, number)| (name, number.parse().unwrap()))
        .collect();
    let (line, element, name) = (1, ElementId(1), Name(1));
    let numbers = [
        ("TABLES", Refusal::BadTables.number()),
        ("FORM", LoadError::Form { line }.number()),
        ("SCHEMA_RULE", LoadError::SchemaRule { line }.number()),
        ("TREE_RULE", LoadError::TreeRule { line }.number()),
        ("LIMIT", LoadError::Limit { line }.number()),
        ("NOT_WAITING", Refusal::NotWaiting.number()),
        ("UNMERGEABLE", Refusal::Unmergeable { element }.number()),
        (
            "NOT_IN_VERSION",
            Refusal::NotInVersion { element, name }.number(),
        ),
        ("USED_TWICE", Refusal::UsedTwice { element }.number()),
        ("LOG_FULL", Refusal::LogFull.number()),
        ("CONTENT_FULL", Refusal::ContentFull.number()),
        ("NO_SUCH_ELEMENT", Refusal::NoSuchElement.number()),
        (
            "CHARACTERS_PARENT",
            Refusal::CharactersParent { element }.number(),
        ),
        ("NO_PLACE", Refusal::NoPlace { element }.number()),
        ("NO_MARK", Refusal::NoMark.number()),
    ];
    let expected = numbers.map(|(name, number)| (format!("ZAPELARITZ_REFUSAL_{name}"), number));
    let declared: Vec<_> = declared
        .iter()
        .map(|(name, n)| (name.to_string(), *n))
        .collect();
    assert_eq!(declared, expected);
    assert_eq!(LoadError::BadTables.number(), Refusal::BadTables.number());
}

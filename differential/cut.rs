//! cut SOURCE OUT: cuts the items below, by name, out of the original's files into the file OUT. Their text is not changed.
//! What stands above an item (comments, `#[must_use]`, `#[derive(Debug)]`) is left out. SOURCE is a folder that has the file
//! src/NAME.rs of the crate as `src/NAME.rs` or as `src--src--NAME.rs.txt`.

use std::ops::Range;
use std::path::Path;
use std::{env, fs, io, process};

/// The head of a block, and the functions to cut out of it; none for the whole block.
type Block = (&'static str, &'static [&'static str]);

/// For each file its blocks.
const ITEMS: [(&str, &[Block]); 4] = [
    (
        "autosarmodel",
        &[
            ("enum MergeAction", &[]),
            ("enum MergeUndo", &[]),
            (
                "impl AutosarModel",
                &[
                    "merge_file_data",
                    "merge_element",
                    "calc_identifiables_merge",
                    "calc_element_merge",
                    "import_new_items",
                    "import_single_item",
                    "rollback_merge",
                    "merge_sub_elements",
                    "root_element",
                    "downgrade",
                ],
            ),
            ("impl AutosarModelRaw", &["wrap"]),
        ],
    ),
    (
        "elementraw",
        &[(
            "impl ElementRaw",
            &[
                "parent",
                "set_parent",
                "weak_model",
                "file_membership_cloned",
                "set_file_membership",
                "insert_file_membership",
                "remove_file_membership",
                "element_name",
                "item_name",
                "is_identifiable",
                "calc_element_insert_range",
                "character_data",
                "wrap",
            ],
        )],
    ),
    (
        "element",
        &[
            (
                "impl Element",
                &[
                    "parent",
                    "element_name",
                    "element_type",
                    "item_name",
                    "is_identifiable",
                    "character_data",
                    "downgrade",
                    "position",
                    "sub_elements",
                    "get_sub_element",
                    "file_membership_local",
                    "set_file_membership",
                    "xml_path",
                    "calc_element_insert_range",
                ],
            ),
            ("impl PartialEq for Element", &[]),
            ("impl Eq for Element", &[]),
            ("impl WeakElement", &["upgrade"]),
            ("impl PartialEq for WeakElement", &[]),
            ("impl Eq for WeakElement", &[]),
            ("impl Hash for WeakElement", &[]),
        ],
    ),
    (
        "arxmlfile",
        &[
            ("impl ArxmlFile", &["version", "downgrade"]),
            ("impl ArxmlFileRaw", &["wrap"]),
            ("impl WeakArxmlFile", &["upgrade"]),
            ("impl PartialEq for WeakArxmlFile", &[]),
            ("impl Eq for WeakArxmlFile", &[]),
            ("impl Hash for WeakArxmlFile", &[]),
        ],
    ),
];

fn main() {
    let arguments: Vec<String> = env::args().skip(1).collect();
    let [source, out] = arguments.as_slice() else {
        eprintln!("usage: cut SOURCE OUT");
        process::exit(2);
    };
    match cut_all(Path::new(source)) {
        Ok((text, items)) => {
            if let Err(error) = fs::write(out, &text) {
                eprintln!("cut: {out}: {error}");
                process::exit(1);
            }
            println!("cut: {items} items of the original, {} lines", text.lines().count());
        }
        Err(error) => {
            eprintln!("cut: {error}");
            process::exit(1);
        }
    }
}

fn cut_all(source: &Path) -> Result<(String, usize), String> {
    let mut out = String::new();
    let mut items = 0;
    for (file, blocks) in ITEMS {
        let text = read(source, file).map_err(|error| format!("{file}.rs in {}: {error}", source.display()))?;
        let code = code_alone(&text);
        for (head, functions) in blocks {
            let missing = |name: &str| format!("{file}.rs has no {name}");
            let found = find(&code, 0..code.len(), head, "");
            let first = found.first().ok_or_else(|| missing(head))?;
            if functions.is_empty() {
                out += &text[first.clone()];
                out += "\n\n";
                items += 1;
                continue;
            }
            out += head;
            out += " {\n";
            for function in *functions {
                let place = found
                    .iter()
                    .find_map(|block| find(&code, block.clone(), &format!("fn {function}"), "    ").into_iter().next())
                    .ok_or_else(|| missing(&format!("{head}, fn {function}")))?;
                out += &text[place];
                out += "\n\n";
                items += 1;
            }
            out += "}\n\n";
        }
    }
    Ok((out, items))
}

fn read(source: &Path, file: &str) -> io::Result<String> {
    fs::read_to_string(source.join(format!("src--src--{file}.rs.txt")))
        .or_else(|_| fs::read_to_string(source.join(format!("src/{file}.rs"))))
}

/// Where the items with this head stand: each from the line that has the head, behind `indent` and a visibility, to its last
/// brace.
fn find(code: &[u8], within: Range<usize>, head: &str, indent: &str) -> Vec<Range<usize>> {
    let mut found = Vec::new();
    let mut start = within.start;
    for line in code[within.clone()].split_inclusive(|byte| *byte == b'\n') {
        if is_head(line, head, indent)
            && let Some(end) = end_of_block(code, start..within.end)
        {
            found.push(start..end);
        }
        start += line.len();
    }
    found
}

fn is_head(line: &[u8], head: &str, indent: &str) -> bool {
    let behind = |visibility: &str| {
        line.strip_prefix(indent.as_bytes())?.strip_prefix(visibility.as_bytes())?.strip_prefix(head.as_bytes())
    };
    ["", "pub ", "pub(crate) "].into_iter().filter_map(behind).any(|rest| match head.starts_with("fn ") {
        true => rest.starts_with(b"(") || rest.starts_with(b"<"),
        false => rest.starts_with(b" {"),
    })
}

fn end_of_block(code: &[u8], within: Range<usize>) -> Option<usize> {
    let mut depth = 0;
    for place in within {
        match code[place] {
            b'{' => depth += 1,
            b'}' => {
                depth -= 1;
                if depth == 0 {
                    return Some(place + 1);
                }
            }
            _ => {}
        }
    }
    None
}

/// The bytes of the text with every comment, string and character literal made blank, so that the braces left are code.
fn code_alone(text: &str) -> Vec<u8> {
    let mut code = text.as_bytes().to_vec();
    let mut place = 0;
    while place < code.len() {
        let rest = &text.as_bytes()[place..];
        let length = match rest {
            [b'/', b'/', ..] => rest.iter().position(|byte| *byte == b'\n').unwrap_or(rest.len()),
            [b'/', b'*', ..] => length_to(rest, b"*/", 2),
            [b'r', b'"', ..] => length_to(rest, b"\"", 2),
            [b'r', b'#', b'"', ..] => length_to(rest, b"\"#", 3),
            [b'"', ..] => quoted(rest, b'"'),
            [b'\'', b'\\', ..] | [b'\'', _, b'\'', ..] => quoted(rest, b'\''),
            _ => 0,
        };
        for byte in &mut code[place..place + length] {
            if *byte != b'\n' {
                *byte = b' ';
            }
        }
        place += length.max(1);
    }
    code
}

/// The length up to and with `end`, which is looked for from `from` on.
fn length_to(rest: &[u8], end: &[u8], from: usize) -> usize {
    (from..rest.len()).find(|place| rest[*place..].starts_with(end)).map_or(rest.len(), |place| place + end.len())
}

/// The length of a literal that begins with this quote, where a backslash takes the next byte with it.
fn quoted(rest: &[u8], quote: u8) -> usize {
    let mut place = 1;
    while place < rest.len() && rest[place] != quote {
        place += if rest[place] == b'\\' { 2 } else { 1 };
    }
    (place + 1).min(rest.len())
}

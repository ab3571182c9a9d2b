//! The cases of the test program `crates/decks`: for each deck, with its list of calls where it has one, the answer that stands beside it, from the
//! printing functions and from calls on a `Model`.

mod common;

use std::collections::HashMap;
use std::fmt::Write;
use std::fs;
use std::thread::Builder;

use common::{
    all_lines, cases, check_reading, data, loadable, log_lines, repository, waiting_files,
};
use zapelaritz::{
    calls_output, output, ElementId, FileId, Mark, Model, Name, Refusal, TypeId, Version,
};

/// Holds what `print` gives for each case to its answer. A case without a list of calls has each delivery merged.
fn hold_to_the_answers(print: impl Fn(&[u8], Option<&[u8]>) -> String) {
    for (case, deck) in cases() {
        let calls = fs::read(repository(&format!("crates/decks/data/{case}.calls"))).ok();
        let printed = print(&data(&format!("{deck}.deck")), calls.as_deref());
        let expected = String::from_utf8(data(&format!("{case}.out"))).unwrap();
        if printed != expected {
            panic!("{case}: got\n{printed}\nwhere the answer is\n{expected}");
        }
    }
}

#[test]
fn printed_output_is_the_answers() {
    hold_to_the_answers(|deck, calls| match calls {
        None => output(deck),
        Some(calls) => calls_output(deck, calls),
    });
}

#[test]
fn calls_on_a_model_are_the_answers() {
    hold_to_the_answers(|deck, calls| {
        let mut model = match Model::load(deck) {
            Ok(model) => model,
            Err(error) => return format!("deck,{},{}\n", error.number(), error.line()),
        };
        check_reading("loaded", &model);
        let mut out = String::new();
        match calls {
            None => {
                for file in waiting_files(&model) {
                    answer(&mut model, Call::Merge(file), &mut out);
                }
                answer(&mut model, Call::Model, &mut out);
            }
            Some(calls) => answer_lines(&mut model, calls, &mut out),
        }
        out
    });
}

enum Call {
    Merge(FileId),
    Rollback(Mark),
    Range(ElementId, Name, Version),
    Model,
    Trees,
    Log,
}

/// A line of another form ends the run; so do bytes behind the last LF.
fn answer_lines(model: &mut Model, calls: &[u8], out: &mut String) {
    for (number, line) in calls.split_inclusive(|byte| *byte == b'\n').enumerate() {
        match line.strip_suffix(b"\n").and_then(read_call) {
            Some(call) => answer(model, call, out),
            None => return writeln!(out, "calls,{}", number + 1).unwrap(),
        }
    }
}

fn read_call(line: &[u8]) -> Option<Call> {
    let fields: Vec<&[u8]> = line.split(|byte| *byte == b',').collect();
    let call = match *fields.as_slice() {
        [b"merge", file] => Call::Merge(FileId(number(file)?)),
        [b"rollback", mark] => Call::Rollback(Mark(number(mark)?)),
        [b"range", element, name, version] => Call::Range(
            ElementId(number(element)?),
            Name(number(name)?),
            Version(number(version)?),
        ),
        [b"model"] => Call::Model,
        [b"trees"] => Call::Trees,
        [b"log"] => Call::Log,
        _ => return None,
    };
    Some(call)
}

/// Decimal, without leading zeros, of 64 bits.
fn number(field: &[u8]) -> Option<u64> {
    let leading_zero = field.len() > 1 && field[0] == b'0';
    if leading_zero || !field.iter().all(u8::is_ascii_digit) {
        return None;
    }
    std::str::from_utf8(field).ok()?.parse().ok()
}

fn answer(model: &mut Model, call: Call, out: &mut String) {
    match call {
        Call::Merge(file) => {
            match model.merge(file) {
                Ok(counts) => writeln!(
                    out,
                    "merged,{file},{},{},{}",
                    counts.imports, counts.restrictions, counts.extensions
                ),
                Err(refusal) => writeln!(out, "refused,{file},{}", fields(refusal)),
            }
            .unwrap();
            check_reading("merged", model);
        }
        Call::Rollback(mark) => {
            match model.rollback(mark) {
                Ok(entries) => writeln!(out, "rolledback,{mark},{entries}"),
                Err(refusal) => writeln!(out, "rollback-refused,{mark},{}", refusal.number()),
            }
            .unwrap();
            check_reading("rolled back", model);
        }
        Call::Range(element, name, version) => match model.range(element, name, version) {
            Ok(places) => writeln!(
                out,
                "range,{element},{name},{version},{},{}",
                places.first, places.last
            )
            .unwrap(),
            Err(refusal) => writeln!(
                out,
                "range-refused,{element},{name},{version},{}",
                fields(refusal)
            )
            .unwrap(),
        },
        Call::Model => out.push_str(&model.model_lines()),
        Call::Trees => out.push_str(&all_lines(model)),
        Call::Log => out.push_str(&log_lines(model)),
    }
}

/// Number, element and name of a refusal.
fn fields(refusal: Refusal) -> String {
    let (element, name) = (or_dash(refusal.element()), or_dash(refusal.name()));
    format!("{},{element},{name}", refusal.number())
}

fn or_dash(number: Option<impl ToString>) -> String {
    number.map_or("-".into(), |number| number.to_string())
}

/// Every deck, also those that the program runs with one list alone: read after the load and after every merge.
#[test]
fn every_deck_is_read_as_it_is_printed() {
    for (name, mut model) in loadable() {
        check_reading(&name, &model);
        for file in waiting_files(&model) {
            // Accepted or refused: the program's runs hold the answers.
            let _ = model.merge(file);
            check_reading(&name, &model);
        }
    }
}

/// An output that is printed in several parts.
#[test]
fn a_long_output() {
    let deck = data("merge/printed.deck");
    let model = "E,0,0,1\nE,1,3,0\nC,2,s,p\n";
    let printed = calls_output(deck, "model\n".repeat(20_000));
    assert!(printed == model.repeat(20_000));
}

/// Trees of the largest depth are merged on a thread of the size that Rust gives.
#[test]
fn deep_trees_on_a_thread() {
    let thread = Builder::new().stack_size(2 << 20);
    let run = || {
        for name in [
            "calls/depth_31_import.deck",
            "calls/depth_31_conflict.deck",
            "calls/depth_31_fallback.deck",
        ] {
            assert_ne!(output(data(name)), "");
            assert_ne!(calls_output(data(name), "merge,1\n"), "");
        }
    };
    thread.spawn(run).unwrap().join().unwrap();
}

/// The test program's decks that load, as text.
fn loaded_texts() -> impl Iterator<Item = (String, Model)> {
    cases().into_iter().filter_map(|(_, deck)| {
        let deck = data(&format!("{deck}.deck"));
        let model = Model::load(&deck).ok()?;
        Some((String::from_utf8(deck).unwrap(), model))
    })
}

#[test]
fn files_are_those_of_the_f_lines() {
    for (deck, model) in loaded_texts() {
        let expected: Vec<&str> = deck.lines().filter(|line| line.starts_with('F')).collect();
        let files: Vec<String> = model
            .files()
            .map(|file| format!("F,{},{}", file.id, file.version))
            .collect();
        assert_eq!(files, expected, "{deck}");
    }
}

/// A root is of type 0, and any other element of the type that the S line of its name in its parent's type has.
#[test]
fn types_are_those_of_the_s_lines() {
    for (deck, model) in loaded_texts() {
        let mut types = HashMap::new();
        for line in deck.lines().filter(|line| line.starts_with('S')) {
            let fields: Vec<&str> = line.split(',').collect();
            let [parent, name, child] = [1, 3, 4].map(|field| fields[field].parse::<u64>());
            let key = (TypeId(parent.unwrap()), Name(name.unwrap()));
            types.insert(key, TypeId(child.unwrap()));
        }
        let roots = model.waiting().map(|tree| tree.root).chain([model.root()]);
        for root in roots {
            assert_eq!(root.type_id(), TypeId::ROOT, "{deck}");
            for element in root.subtree() {
                for child in element.sub_elements() {
                    let expected = types[&(element.type_id(), child.name())];
                    assert_eq!(child.type_id(), expected, "{deck}");
                }
            }
        }
    }
}

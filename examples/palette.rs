//! Merges what waits, takes the latest merge back, and says what may be added: `palette DECK PATH VERSION`.
//!
//! Loads the deck, merges its deliveries in their order, and explains each refusal. It withdraws the latest merge that
//! stands, asks for every name that the schema has in the element at PATH where another one may be put in VERSION, and walks
//! the model with the files that each element is in.

use std::env;
use std::error::Error;
use std::fs;
use std::process::ExitCode;

use zapelaritz::{Element, FileId, Model, Version};

fn main() -> ExitCode {
    match run() {
        Ok(()) => ExitCode::SUCCESS,
        Err(error) => {
            eprintln!("palette: {error}");
            ExitCode::FAILURE
        }
    }
}

fn run() -> Result<(), Box<dyn Error>> {
    let arguments: Vec<String> = env::args().skip(1).collect();
    let [deck, path, version] = arguments.as_slice() else {
        return Err("usage: palette DECK PATH VERSION".into());
    };
    let mut model = Model::load(fs::read(deck)?)?;
    merge_all(&mut model);
    withdraw_latest(&mut model)?;
    let element = model.element_at(path).ok_or("no element has that path")?;
    show_palette(element, version.parse()?);
    show_model(&model);
    Ok(())
}

fn merge_all(model: &mut Model) {
    let files: Vec<FileId> = model.waiting().map(|tree| tree.file).collect();
    for file in files {
        match model.merge(file) {
            Ok(counts) => println!("file {file}: {counts}"),
            Err(refusal) => {
                println!("file {file}: refused ({}): {refusal}", refusal.number());
                if let Some(element) = refusal.element().and_then(|id| model.element(id)) {
                    println!("  element {} is {element}", element.id());
                }
            }
        }
    }
}

fn withdraw_latest(model: &mut Model) -> Result<(), Box<dyn Error>> {
    let latest = model.standing_merges().last();
    if let Some(merge) = latest {
        let entries = model.rollback(merge.before)?;
        println!("withdrawn: file {}, {entries} entries", merge.file);
    }
    Ok(())
}

fn show_palette(element: Element<'_>, version: Version) {
    println!("{element} in version {version}:");
    for (row, places) in element.palette(version) {
        match places {
            Ok(places) => println!("  name {}, {}: {places}", row.name, row.mult),
            Err(refusal) => println!("  name {}, {}: {refusal}", row.name, row.mult),
        }
    }
}

fn show_model(model: &Model) {
    for element in model.elements() {
        let text = element
            .text()
            .map_or(String::new(), |text| format!(": {text}"));
        println!("{element} {}{text}", element.effective_files());
    }
}

//! Merges deliveries and takes them back: `withdraw DECK FILE...`.
//!
//! Loads the deck, merges the delivery of each file number, and prints each answer and the model as the program does. Then it
//! rolls back to the mark that it took behind the load, and prints how many entries were taken off the log.

use std::env;
use std::error::Error;
use std::ffi::OsString;
use std::fs;
use std::io::{self, BufWriter, Write};
use std::process::ExitCode;

use zapelaritz::{FileId, Model};

fn main() -> ExitCode {
    let arguments: Vec<OsString> = env::args_os().skip(1).collect();
    match run(&arguments) {
        Ok(()) => ExitCode::SUCCESS,
        Err(error) => {
            // Nothing is left to do where standard error is closed too.
            let _ = writeln!(io::stderr(), "withdraw: {error}");
            ExitCode::FAILURE
        }
    }
}

fn run(arguments: &[OsString]) -> Result<(), Box<dyn Error>> {
    let [path, files @ ..] = arguments else {
        return Err("usage: withdraw DECK FILE...".into());
    };
    let name = path.to_string_lossy();
    let files = files
        .iter()
        .map(file_number)
        .collect::<Result<Vec<FileId>, String>>()?;
    let deck = fs::read(path).map_err(|error| format!("{name}: {error}"))?;

    let mut out = BufWriter::new(io::stdout().lock());
    let mut model = match Model::load(&deck) {
        Ok(model) => model,
        Err(error) => {
            writeln!(out, "deck,{},{}", error.number(), error.line())?;
            out.flush()?;
            return Err(format!("{name}: {error}").into());
        }
    };
    let mark = model.mark();
    for file in files {
        match model.merge(file) {
            Ok(counts) => writeln!(
                out,
                "merged,{file},{},{},{}",
                counts.imports, counts.restrictions, counts.extensions
            )?,
            Err(refusal) => writeln!(
                out,
                "refused,{file},{},{},{}",
                refusal.number(),
                or_dash(refusal.element()),
                or_dash(refusal.name())
            )?,
        }
    }
    out.write_all(model.model_lines().as_bytes())?;
    let entries = model.rollback(mark)?;
    writeln!(out, "rolledback,{mark},{entries}")?;
    out.flush()?;
    Ok(())
}

fn file_number(argument: &OsString) -> Result<FileId, String> {
    let text = argument.to_string_lossy();
    text.parse()
        .map_err(|_| format!("{text}: not a file number"))
}

fn or_dash(number: Option<impl ToString>) -> String {
    number.map_or("-".into(), |number| number.to_string())
}

//! The differential run: decks merged by the engine, by the original's functions and by the rules in plain Rust, and their
//! answers, models and logs compared. `differential/run` starts it, in the root of the repository.

mod deck;
mod decks;
mod difference;
mod engine;
mod faults;
mod original;
mod random;
mod rules;
mod sample;
mod schema_calls;
mod shrink;
mod stand_ins;
mod times;
mod trees;
mod with_original;
mod with_rules;

use std::ops::Range;
use std::panic::{self, AssertUnwindSafe};
use std::path::{Path, PathBuf};
use std::process::ExitCode;
use std::sync::Mutex;
use std::{env, fs, thread};

use difference::Difference;
use with_original::{Order, Tally};

const USAGE: &str = "usage: differential/run [--decks N] [--seed S] [--source DIR] [--fault N | --faults | --sample FOLDER | --times [DECK...]]";

/// Their decks are compared in every run.
const FOLDERS: [&str; 8] = [
    "crates/decks/data/load",
    "crates/decks/data/merge",
    "crates/decks/data/calls",
    "crates/decks/data/requests",
    "crates/decks/data/original",
    "crates/forged/data",
    "crates/merge_bench/data",
    "crates/load_bench/data",
];

/// For faults, one in so many of the small decks is taken.
const SMALL_STEP: usize = 20;

/// Differences that are shown with their smallest deck.
const SHOWN: u64 = 3;

/// A merge of so many entries is a large one.
const LARGE: u64 = 256;

/// Decks whose times are taken.
const TIMED: [&str; 2] = ["crates/merge_bench/data", "differential/times"];

/// A merge of the deepest trees takes 3 MB of it.
const STACK: usize = 64 << 20;

struct Options {
    decks: Option<u64>,
    seed: u64,
    task: Task,
}

impl Options {
    /// The seeds of as many decks as were asked for, or else of `decks`.
    fn seeds(&self, decks: u64) -> Range<u64> {
        self.seed..self.seed.saturating_add(self.decks.unwrap_or(decks))
    }
}

enum Task {
    /// With this fault, or 0.
    Compare(usize),
    Faults,
    /// Into this folder.
    Sample(PathBuf),
    /// Of these decks; of those of TIMED if there are none.
    Times(Vec<PathBuf>),
}

/// Whom the engine is held against, and in how many ranges and further calls for a deck.
#[derive(Clone, Copy)]
struct Scope {
    original: bool,
    rules: bool,
    ranges: u64,
    calls: u64,
}

const OF_A_FILE: Scope = Scope { original: true, rules: true, ranges: 3_000, calls: 100 };
const OF_A_SEED: Scope = Scope { original: true, rules: true, ranges: 20, calls: 20 };

static PANIC: Mutex<String> = Mutex::new(String::new());

fn main() -> ExitCode {
    let Some(options) = options(env::args().skip(1)) else {
        eprintln!("{USAGE}");
        return ExitCode::from(2);
    };
    panic::set_hook(Box::new(|panic| {
        if let Ok(mut message) = PANIC.lock() {
            *message = panic.to_string();
        }
    }));
    let run = move || match &options.task {
        Task::Compare(fault) => compare_all(&options, *fault),
        Task::Faults => all_faults(&options),
        Task::Sample(folder) => write_sample(folder),
        Task::Times(decks) => all_times(decks),
    };
    match thread::Builder::new().stack_size(STACK).spawn(run).map(thread::JoinHandle::join) {
        Ok(Ok(true)) => ExitCode::SUCCESS,
        Ok(Ok(false)) => ExitCode::FAILURE,
        _ => {
            eprintln!("differential: the run broke off: {}", panic_message());
            ExitCode::FAILURE
        }
    }
}

fn options(mut arguments: impl Iterator<Item = String>) -> Option<Options> {
    let mut options = Options { decks: None, seed: 1, task: Task::Compare(0) };
    while let Some(argument) = arguments.next() {
        match argument.as_str() {
            "--decks" => options.decks = Some(arguments.next()?.parse().ok()?),
            "--seed" => options.seed = arguments.next()?.parse().ok()?,
            "--fault" => {
                let fault = arguments.next()?.parse().ok()?;
                options.task = Task::Compare(fault);
                if fault > fault_names().len() {
                    return None;
                }
            }
            "--faults" => options.task = Task::Faults,
            "--sample" => options.task = Task::Sample(arguments.next()?.into()),
            "--times" => options.task = Task::Times(arguments.by_ref().map(PathBuf::from).collect()),
            _ => return None,
        }
    }
    Some(options)
}

fn panic_message() -> String {
    PANIC.lock().map_or(String::new(), |mut message| std::mem::take(&mut message))
}

/// The decks of the folders, in the order of their names.
fn decks_in(folders: &[&str]) -> Vec<PathBuf> {
    let folders = folders.iter().filter_map(|folder| fs::read_dir(folder).ok());
    let mut files: Vec<PathBuf> = folders
        .flatten()
        .filter_map(|entry| entry.ok().map(|entry| entry.path()))
        .filter(|path| path.extension().is_some_and(|extension| extension == "deck"))
        .collect();
    files.sort();
    files
}

/// What a run compared and met.
#[derive(Default)]
struct Run {
    decks: u64,
    differences: u64,
    tally: Tally,
    met: rules::Met,
}

fn compare_all(options: &Options, fault: usize) -> bool {
    let sides = switch(fault);
    if let Some(words) = fault_names().get(fault.wrapping_sub(1)) {
        println!("with a fault, {words}");
    }
    let mut run = Run::default();
    if let (0, Err(difference)) = (fault, schema_calls::compare_texts()) {
        run.differences += 1;
        show("texts", b"", &difference);
    }
    for file in decks_in(&FOLDERS) {
        if let Ok(deck) = fs::read(&file) {
            run.deck(&file.display().to_string(), &deck, sides(OF_A_FILE));
        }
    }
    let files = run.decks;
    for deck in decks::small() {
        run.deck("a small deck", &deck, sides(OF_A_SEED));
    }
    let small = run.decks - files;
    let seeds = options.seeds(20_000);
    for seed in seeds.clone() {
        run.deck(&format!("seed {seed}"), &decks::deck(seed), sides(OF_A_SEED));
    }
    println!("decks: {files} files, {small} small ones, seeds from {} to below {}", seeds.start, seeds.end);
    run.print();
    println!("{} decks, {} differences", run.decks, run.differences);
    run.differences == 0
}

impl Run {
    fn deck(&mut self, name: &str, deck: &[u8], scope: Scope) {
        self.decks += 1;
        let Err(difference) = compare(deck, scope, &mut self.tally, &mut self.met) else {
            return;
        };
        self.differences += 1;
        if self.differences <= SHOWN {
            let again = |deck: &[u8]| compare(deck, scope, &mut Tally::default(), &mut rules::Met::default()).err();
            let shows = |deck: &[u8]| again(deck).is_some_and(|other| other.what == difference.what);
            let smallest = shrink::shrink(deck, shows);
            show(name, &smallest, &again(&smallest).unwrap_or(difference));
        }
    }

    fn print(&self) {
        let tally = &self.tally;
        let [aside_5, aside_8, aside_9, aside_10] = tally.set_aside;
        println!("engine and original, merges up to the first refusal:");
        println!("  decks not loaded: {}", tally.not_loaded);
        println!("  merged: {}", tally.accepted);
        println!("  imports: {}", tally.imports);
        println!("  restrictions: {}", tally.restrictions);
        println!("  extensions: {}", tally.extensions);
        println!("  refused with 6: {}", tally.unmergeable);
        println!("  refused with 7: {}", tally.not_in_version);
        println!("  set aside: {aside_5} with 5, {aside_8} with 8, {aside_9} with 9, {aside_10} with 10");
        println!("  ranges: {}", tally.ranges);
        println!("  ranges refused: {}", tally.ranges_refused);
        println!("engine and rules, all calls:");
        for (what, count) in self.met.each() {
            println!("  {what}: {count}");
        }
    }
}

fn show(name: &str, deck: &[u8], difference: &Difference) {
    println!("DIFFERENCE in {name}: {}, behind {}", difference.what, difference.call);
    println!("smallest deck:\n{}", String::from_utf8_lossy(deck).trim_end());
    println!("the engine:\n{}", difference.engine.trim_end());
    println!("the other side:\n{}\n", difference.other.trim_end());
}

/// A panic, which no side should have, is a difference too.
fn compare(deck: &[u8], scope: Scope, tally: &mut Tally, met: &mut rules::Met) -> Result<(), Difference> {
    let compare = || {
        if scope.original {
            with_original::compare(deck, Order::OfDeck, scope.ranges, tally)?;
            with_original::compare(deck, Order::Reverse, scope.ranges, tally)?;
        }
        if scope.rules {
            with_rules::compare(deck, scope.calls, met)?;
        }
        if scope.original && scope.rules {
            schema_calls::compare(deck, scope.calls)?;
        }
        Ok(())
    };
    panic::catch_unwind(AssertUnwindSafe(compare)).unwrap_or_else(|_| {
        let call = "some call".into();
        Err(Difference { what: "a panic", call, engine: String::new(), other: panic_message() })
    })
}

// ---- faults on purpose

/// The faults of the stand-ins and then those of the rules, counted from 1.
fn fault_names() -> Vec<String> {
    let of_stand_ins = faults::FAULTS.iter().map(|words| format!("stand-ins: {words}"));
    of_stand_ins.chain(rules::FAULTS.iter().map(|words| format!("rules: {words}"))).collect()
}

/// Switches a fault on and every other off; 0 for none. Gives what leaves of a scope the side that has the fault.
fn switch(fault: usize) -> impl Fn(Scope) -> Scope {
    let of_rules = fault.checked_sub(faults::FAULTS.len()).filter(|fault| *fault > 0);
    faults::switch(if of_rules.is_none() { fault } else { 0 });
    rules::set_fault(of_rules.unwrap_or(0) as u32);
    move |scope| Scope { original: of_rules.is_none(), rules: fault == 0 || of_rules.is_some(), ..scope }
}

/// Every fault by itself. Those of the stand-ins have to be noticed in merges.
fn all_faults(options: &Options) -> bool {
    let files = decks_in(&FOLDERS).into_iter().filter_map(|file| fs::read(file).ok());
    let small = decks::small().step_by(SMALL_STEP);
    let decks: Vec<Vec<u8>> = files.chain(small).chain(options.seeds(2_000).map(decks::deck)).collect();
    let names = fault_names();
    let mut unnoticed = 0;
    for (number, words) in (1..).zip(&names) {
        let scope = switch(number)(Scope { ranges: 0, ..OF_A_SEED });
        let (mut tally, mut met) = (Tally::default(), rules::Met::default());
        let noticed = decks.iter().filter(|deck| compare(deck, scope, &mut tally, &mut met).is_err()).count();
        unnoticed += usize::from(noticed == 0);
        println!("fault {number}, {words}: noticed by {noticed} of {} decks", decks.len());
    }
    println!("{} faults, {unnoticed} not noticed", names.len());
    unnoticed == 0
}

// ---- the sample

fn write_sample(folder: &Path) -> bool {
    sample::write(folder).inspect_err(|error| eprintln!("differential: {}: {error}", folder.display())).is_ok()
}

// ---- times

/// Of each deck the merge of the first waiting tree; of a large merge its rollback, and a range behind it.
fn all_times(decks: &[PathBuf]) -> bool {
    let decks = if decks.is_empty() { decks_in(&TIMED) } else { decks.to_vec() };
    println!("| microseconds | engine, least | median | original, least | median | original / engine |");
    println!("|---|---|---|---|---|---|");
    let mut all = true;
    for path in decks {
        let Some((deck, file, entries)) = fs::read(&path).ok().and_then(first_merge) else {
            println!("{}: no deck with a tree that can be merged", path.display());
            all = false;
            continue;
        };
        let name = path.file_stem().map_or(String::new(), |name| name.to_string_lossy().into_owned());
        let mut row = |kind: &str, both: Option<times::Both>| match both {
            Some(both) => println!("| {name}, {kind} | {both} |"),
            None => all = false,
        };
        row("merge", times::of_merge(&deck, file));
        if entries >= LARGE {
            row("rollback", times::of_rollback(&deck, file));
            row("range", times::of_range(&deck, file));
        }
    }
    all
}

/// The deck, the file of its first waiting tree, and the log's length behind that merge.
fn first_merge(deck: Vec<u8>) -> Option<(Vec<u8>, u64, u64)> {
    let mut engine = engine::Engine::load(&deck).ok()?;
    let file = *engine.waiting().first()?;
    engine.merge(file).ok()?;
    Some((deck, file, engine.mark()))
}

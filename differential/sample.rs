//! A sample of decks with the original's answers, which the test program `crates/decks` replays.

use std::collections::HashMap;
use std::fs;
use std::path::Path;

use crate::deck::Deck;
use crate::decks;
use crate::engine::{Engine, SET_ASIDE};
use crate::original;
use crate::rules;
use crate::trees::{Refusal, Trees};

/// Of each kind that the rules count, so many decks are wanted.
const OF_A_KIND: u64 = 10;

/// In bytes. Longer decks are taken for a kind that no shorter one shows.
const LENGTHS: [usize; 2] = [1_200, 6_000];

/// Decks of seeds, and of every small deck one in so many.
const SEEDS: std::ops::Range<u64> = 1..20_001;
const SMALL_STEP: usize = 97;

/// Writes into a folder the decks with their answers beside them, and their lines for `crates/decks/data/list`.
pub fn write(folder: &Path) -> std::io::Result<()> {
    let mut kinds: HashMap<&str, u64> = HashMap::new();
    let mut names = String::new();
    let mut count = 0;
    let mut take = |name: String, deck: &[u8]| -> std::io::Result<()> {
        let Some(answer) = answers(deck) else {
            return Ok(());
        };
        let met = kinds_of(deck);
        if met.iter().all(|kind| kinds.get(kind).is_some_and(|taken| *taken >= OF_A_KIND)) {
            return Ok(());
        }
        met.into_iter().for_each(|kind| *kinds.entry(kind).or_default() += 1);
        fs::write(folder.join(format!("{name}.deck")), deck)?;
        fs::write(folder.join(format!("{name}.out")), answer)?;
        names += &format!("original/{name}\n");
        count += 1;
        Ok(())
    };
    for (number, deck) in decks::small().enumerate().step_by(SMALL_STEP) {
        take(format!("small_{number}"), &deck)?;
    }
    for length in LENGTHS {
        for seed in SEEDS {
            let deck = decks::deck(seed);
            if deck.len() <= length && !folder.join(format!("{seed}.deck")).exists() {
                take(seed.to_string(), &deck)?;
            }
        }
    }
    fs::write(folder.join("list"), names)?;
    println!("{count} decks, {} kinds", kinds.len());
    for (kind, _) in kinds_not_in(&kinds) {
        println!("in no deck of the sample: {kind}");
    }
    Ok(())
}

fn kinds_not_in(kinds: &HashMap<&str, u64>) -> Vec<(&'static str, u64)> {
    rules::Met::default().each().into_iter().filter(|(kind, _)| !kinds.contains_key(kind)).collect()
}

/// What the rules meet in the merges of a deck.
fn kinds_of(deck: &[u8]) -> Vec<&'static str> {
    let Ok(mut world) = rules::load(deck) else {
        return Vec::new();
    };
    for file in world.waiting() {
        let _ = world.merge(file);
    }
    world.met.each().into_iter().filter(|(_, count)| *count > 0).map(|(kind, _)| kind).collect()
}

/// What the program has to print for a deck, by the original: none if a merge is set aside, if one follows a refusal, or if the
/// original does not tell an element that is printed.
fn answers(deck: &[u8]) -> Option<String> {
    let mut engine = Engine::load(deck).ok()?;
    let waiting = engine.waiting();
    let trees = Trees::load(Deck::read(deck)?);
    let mut lines = String::new();
    for (place, file) in waiting.iter().enumerate() {
        if let Err(refusal) = engine.merge(*file)
            && SET_ASIDE.contains(&refusal.number())
        {
            return None;
        }
        let before = trees.model_lines();
        let answer = trees.merge(*file);
        let log = original::log();
        let refused = match answer {
            Ok(()) => {
                // The root's extension is an entry of the engine alone.
                lines += &format!("merged,{file},{},{},{}\n", log.imports, log.restrictions, log.extensions + 1);
                continue;
            }
            Err(Refusal::Unmergeable { element }) => format!("refused,{file},6,{element},-\n"),
            Err(Refusal::NotInVersion { parent_name, name }) => {
                format!("refused,{file},7,{},{name}\n", only_element(&engine, parent_name)?)
            }
            Err(Refusal::Other) => return None,
        };
        // A refused merge leaves the model as it stood; the original's stays half merged.
        return (place + 1 == waiting.len()).then(|| lines + &refused + &before);
    }
    Some(lines + &trees.model_lines())
}

/// The model's element of a name, if it is the only one.
fn only_element(engine: &Engine, name: u64) -> Option<u64> {
    let mut elements = engine.model.elements().filter(|element| element.name().get() == name);
    let element = elements.next()?;
    elements.next().is_none().then_some(element.id().get())
}

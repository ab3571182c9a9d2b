//! The engine held against the original: the merges of a deck up to the first refusal, and insert ranges.

use crate::deck::Deck;
use crate::difference::{Difference, same};
use crate::engine::{self, Engine, SET_ASIDE, or_dash};
use crate::original;
use crate::random::Random;
use crate::trees::{RangeRefusal, Refusal, Trees};

/// What was compared with the original.
#[derive(Clone, Default)]
pub struct Tally {
    pub not_loaded: u64,
    pub accepted: u64,
    pub imports: u64,
    pub restrictions: u64,
    pub extensions: u64,
    pub unmergeable: u64,
    pub not_in_version: u64,
    /// Merges that the engine refused with 5, 8, 9 and 10.
    pub set_aside: [u64; 4],
    pub ranges: u64,
    pub ranges_refused: u64,
}

/// Which of the waiting trees is merged first.
#[derive(Clone, Copy, PartialEq, Eq)]
pub enum Order {
    OfDeck,
    Reverse,
}

/// The merges of a deck up to the first refusal, and `ranges` insert ranges before and behind them.
pub fn compare(deck: &[u8], order: Order, ranges: u64, tally: &mut Tally) -> Result<(), Difference> {
    let Ok(mut engine) = Engine::load(deck) else {
        tally.not_loaded += u64::from(order == Order::OfDeck);
        return Ok(());
    };
    let mut waiting = engine.waiting();
    if order == Order::Reverse {
        if waiting.len() < 2 {
            return Ok(());
        }
        waiting.reverse();
    }
    let Some(read) = Deck::read(deck) else {
        return same("original: the deck", "load", "read".into(), "not read".into());
    };
    let names = Names::of(&read);
    let trees = Trees::load(read);
    same("original: the loaded state", "load", engine.state(), trees.state())?;
    let mut random = Random::new(deck.len() as u64);
    compare_ranges(&engine, &trees, &names, ranges, &mut random, tally)?;
    for file in waiting {
        let mark = engine.mark();
        let answer = engine.merge(file);
        if let Err(refusal) = answer
            && let Some(place) = SET_ASIDE.iter().position(|number| *number == refusal.number())
        {
            tally.set_aside[place] += 1;
            return Ok(());
        }
        let others = trees.merge(file);
        let mut log = original::log();
        let others = match others {
            Ok(()) => {
                // The root's extension is an entry of the engine alone.
                log.extensions += 1;
                log.lines += &format!("extension,0,{file}\n");
                format!("merged,{file},{},{},{}", log.imports, log.restrictions, log.extensions)
            }
            Err(Refusal::Unmergeable { element }) => format!("refused,{file},6,{element},-"),
            Err(Refusal::NotInVersion { parent_name, name }) => refused_7(file, parent_name, name),
            Err(Refusal::Other) => "an error that no merge has".into(),
        };
        let engines = match answer {
            Err(zapelaritz::Refusal::NotInVersion { element, name }) => {
                refused_7(file, engine.name(element), name.get())
            }
            _ => engine::answer(file, &answer),
        };
        let call = format!("merge,{file}");
        same("original: the answer", &call, engines, others)?;
        match answer {
            Ok(counts) => {
                tally.accepted += 1;
                tally.imports += counts.imports;
                tally.restrictions += counts.restrictions;
                tally.extensions += counts.extensions;
            }
            Err(refusal) => {
                match refusal.number() {
                    6 => tally.unmergeable += 1,
                    _ => tally.not_in_version += 1,
                }
                return Ok(());
            }
        }
        same("original: the model", &call, engine.model_lines(), trees.model_lines())?;
        same("original: the state", &call, engine.state(), trees.state())?;
        same("original: the log", &call, engine.log(mark), log.lines)?;
    }
    compare_ranges(&engine, &trees, &names, ranges, &mut random, tally)
}

/// Of the parent the original tells the name only.
fn refused_7(file: u64, parent_name: u64, name: u64) -> String {
    format!("refused,{file},7,an element of name {parent_name},{name}")
}

/// The names that ranges are asked for.
struct Names {
    of_type: Vec<Vec<u16>>,
    /// Those of all types, and two more.
    all: Vec<u16>,
}

impl Names {
    fn of(deck: &Deck) -> Names {
        let names = deck.types.iter().map(|of_type| of_type.rows.iter().map(|row| row.name));
        let of_type: Vec<Vec<u16>> = names.map(Iterator::collect).collect();
        let mut all: Vec<u16> = of_type.iter().flatten().copied().chain([0, 4095]).collect();
        all.sort_unstable();
        all.dedup();
        Names { of_type, all }
    }

    /// A name of the type's rows, or any.
    fn choose(&self, of_type: u64, random: &mut Random) -> u16 {
        match self.of_type.get(of_type as usize) {
            Some(names) if !names.is_empty() && random.below(8) > 0 => *random.choose(names),
            _ => *random.choose(&self.all),
        }
    }
}

const VERSIONS: u64 = 32;

/// Every element with every name in every version, if those are not more than `count`; else `count` of them.
fn compare_ranges(
    engine: &Engine,
    trees: &Trees,
    names: &Names,
    count: u64,
    random: &mut Random,
    tally: &mut Tally,
) -> Result<(), Difference> {
    let elements = engine.element_count();
    let all = names.all.len() as u64;
    if elements * all * VERSIONS <= count {
        for element in 0..elements {
            for name in &names.all {
                for version in 0..VERSIONS {
                    compare_range(engine, trees, element, *name, version, tally)?;
                }
            }
        }
        return Ok(());
    }
    for _ in 0..count {
        let element = random.below(elements);
        let name = names.choose(engine.type_number(element), random);
        let version = engine.some_version(random);
        compare_range(engine, trees, element, name, version, tally)?;
    }
    Ok(())
}

fn compare_range(
    engine: &Engine,
    trees: &Trees,
    element: u64,
    name: u16,
    version: u64,
    tally: &mut Tally,
) -> Result<(), Difference> {
    let answer = engine.range(element, name.into(), version);
    let engines = match answer {
        Ok(places) => format!("range,{},{}", places.first, places.last),
        Err(refusal) => {
            let parent_name = refusal.element().map(|element| engine.name(element));
            format!("refused,{},{},{}", refusal.number(), or_dash(parent_name), or_dash(refusal.name()))
        }
    };
    let others = match trees.range(element as usize, name, version as usize) {
        Ok((first, last)) => format!("range,{first},{last}"),
        Err(RangeRefusal::NotInVersion { parent_name, name }) => format!("refused,7,{parent_name},{name}"),
        Err(RangeRefusal::CharactersParent { parent_name }) => format!("refused,12,{parent_name},-"),
        Err(RangeRefusal::NoPlace { parent_name }) => format!("refused,13,{parent_name},-"),
        Err(RangeRefusal::Other) => "an error that no range has".into(),
    };
    tally.ranges += 1;
    tally.ranges_refused += u64::from(answer.is_err());
    same("original: a range", &format!("range,{element},{name},{version}"), engines, others)
}

//! The engine held against the rules in plain Rust: load, merges, rollbacks and ranges.

use std::fmt::Write;

use crate::difference::{Difference, same};
use crate::engine::{self, Engine, or_dash};
use crate::random::Random;
use crate::rules;

/// The load; every waiting tree merged, also behind a refusal; then `calls` more merges, rollbacks and ranges.
pub fn compare(deck: &[u8], calls: u64, met: &mut rules::Met) -> Result<(), Difference> {
    let (mut engine, mut world) = match (Engine::load(deck), rules::load(deck)) {
        (Ok(engine), Ok(world)) => (engine, world),
        (engine, world) => {
            if let Err((number, _)) = world {
                met.refused(number);
            }
            let answer = |refusal: Option<(u64, u64)>| match refusal {
                Some((number, line)) => format!("deck,{number},{line}"),
                None => "loaded".into(),
            };
            return same("rules: the load", "load", answer(engine.err()), answer(world.err()));
        }
    };
    let done = all_calls(deck, calls, &mut engine, &mut world);
    *met += &world.met;
    done
}

fn all_calls(deck: &[u8], calls: u64, engine: &mut Engine, world: &mut rules::World) -> Result<(), Difference> {
    compare_states("load", engine, world)?;
    let waiting = engine.waiting();
    same("rules: what waits", "load", format!("{waiting:?}"), format!("{:?}", world.waiting()))?;
    for file in &waiting {
        compare_merge(*file, engine, world)?;
    }
    let mut random = Random::new(deck.len() as u64);
    for _ in 0..calls {
        match random.below(12) {
            0 => compare_merge(random.below(65), engine, world)?,
            1 if !waiting.is_empty() => compare_merge(*random.choose(&waiting), engine, world)?,
            2 => compare_rollback(random.below(engine.mark() + 2), engine, world)?,
            3 => compare_rollback(random_mark(engine, &mut random), engine, world)?,
            4 => compare_range(random.next(), random.next(), random.next(), engine, world)?,
            _ => {
                let element = random.below(engine.element_count() + 1);
                let rows =
                    world.types.get(engine.type_number(element) as usize).map_or(&[][..], |of_type| &of_type.rows);
                let name = match rows.is_empty() {
                    true => random.below(4096),
                    false => random.choose(rows).name,
                };
                let version = engine.some_version(&mut random);
                compare_range(element, name, version, engine, world)?;
            }
        }
    }
    Ok(())
}

/// The length of the log behind some merge, or 0.
fn random_mark(engine: &Engine, random: &mut Random) -> u64 {
    let merges = engine.model.standing_merges();
    let marks: Vec<u64> = merges.map(|merge| merge.after.get()).chain([0]).collect();
    *random.choose(&marks)
}

fn compare_states(call: &str, engine: &Engine, world: &rules::World) -> Result<(), Difference> {
    let lines = String::from_utf8_lossy(&world.model_lines()).into_owned();
    same("rules: the model", call, engine.model_lines(), lines)?;
    same("rules: the state", call, engine.state(), state(world))?;
    same("rules: the mark", call, engine.mark().to_string(), world.mark().to_string())?;
    same("rules: the log", call, engine.log(0), log(world))
}

fn compare_merge(file: u64, engine: &mut Engine, world: &mut rules::World) -> Result<(), Difference> {
    let call = format!("merge,{file}");
    let answer = engine.merge(file);
    let others = match world.merge(file) {
        rules::Answer::Merged { imports, restrictions, extensions } => {
            format!("merged,{file},{imports},{restrictions},{extensions}")
        }
        rules::Answer::Refused { number, element, name } => {
            format!("refused,{file},{number},{},{}", or_dash(element), or_dash(name))
        }
    };
    same("rules: the answer", &call, engine::answer(file, &answer), others)?;
    compare_states(&call, engine, world)
}

fn compare_rollback(mark: u64, engine: &mut Engine, world: &mut rules::World) -> Result<(), Difference> {
    let call = format!("rollback,{mark}");
    let answer = |answer: Result<u64, u64>| match answer {
        Ok(entries) => format!("rolledback,{mark},{entries}"),
        Err(number) => format!("rollback-refused,{mark},{number}"),
    };
    let engines = engine.rollback(mark).map_err(|refusal| refusal.number());
    let others = world.rollback(mark).map_err(|refusal| refusal.number);
    same("rules: a rollback", &call, answer(engines), answer(others))?;
    compare_states(&call, engine, world)
}

fn compare_range(
    element: u64,
    name: u64,
    version: u64,
    engine: &Engine,
    world: &rules::World,
) -> Result<(), Difference> {
    let engines = match engine.range(element, name, version) {
        Ok(places) => format!("range,{},{}", places.first, places.last),
        Err(refusal) => {
            format!("refused,{},{},{}", refusal.number(), or_dash(refusal.element()), or_dash(refusal.name()))
        }
    };
    let others = match world.range(element, name, version) {
        Ok((first, last)) => format!("range,{first},{last}"),
        Err(refusal) => format!("refused,{},{},{}", refusal.number, or_dash(refusal.element), or_dash(refusal.name)),
    };
    same("rules: a range", &format!("range,{element},{name},{version}"), engines, others)
}

/// As `Engine::state` has it.
fn state(world: &rules::World) -> String {
    let mut lines = String::new();
    for (number, element) in world.elements.iter().enumerate() {
        let parent = or_dash(element.parent.map(|parent| parent as u64));
        let _ = write!(lines, "{number}: {parent}, {:x}:", element.set);
        for item in &element.content {
            let _ = match item {
                rules::Item::Element(child) => write!(lines, " {child}"),
                rules::Item::Text(text) => write!(lines, " [{}]", fields(text)),
            };
        }
        lines.push('\n');
    }
    lines
}

/// As `Engine::log` has it.
fn log(world: &rules::World) -> String {
    let mut lines = String::new();
    for entry in &world.log {
        let _ = match entry {
            rules::Entry::Import { element, parent, old_parent, old_set } => {
                let old_parent = or_dash(old_parent.map(|parent| parent as u64));
                writeln!(lines, "import,{element},{parent},{old_parent},{old_set:x}")
            }
            rules::Entry::Restriction { element, old_set } => writeln!(lines, "restriction,{element},{old_set:x}"),
            rules::Entry::Extension { element, file } => writeln!(lines, "extension,{element},{file}"),
        };
    }
    lines
}

/// The kind and the value, as a C line has them.
fn fields(text: &rules::Text) -> String {
    match text {
        rules::Text::Enum(number) => format!("e,{number}"),
        rules::Text::String(string) => format!("s,{}", String::from_utf8_lossy(string)),
        rules::Text::Whole(number) => format!("u,{number}"),
        rules::Text::Float(bits) => format!("f,{bits:x}"),
    }
}

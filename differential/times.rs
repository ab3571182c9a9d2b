//! Times of both sides, taken alternately in one run.

use std::fmt;
use std::hint::black_box;
use std::time::{Duration, Instant};

use crate::deck::Deck;
use crate::engine::Engine;
use crate::original;
use crate::trees::Trees;
use zapelaritz::{ElementId, FileId, Mark};

const ROUNDS: usize = 200;

#[derive(Clone, Copy)]
pub struct Times {
    least: Duration,
    median: Duration,
}

impl Times {
    fn of(mut times: Vec<Duration>) -> Option<Times> {
        times.sort_unstable();
        Some(Times { least: *times.first()?, median: *times.get(times.len() / 2)? })
    }
}

/// In microseconds.
impl fmt::Display for Times {
    fn fmt(&self, f: &mut fmt::Formatter<'_>) -> fmt::Result {
        let [least, median] = [self.least, self.median].map(|time| time.as_nanos() as f64 / 1000.0);
        write!(f, "{least:.1} | {median:.1}")
    }
}

/// The engine's times and the original's.
pub struct Both {
    engine: Times,
    original: Times,
}

/// A row of the table: least and median of each, and how often the engine's median is in the original's.
impl fmt::Display for Both {
    fn fmt(&self, f: &mut fmt::Formatter<'_>) -> fmt::Result {
        let ratio = self.original.median.as_nanos() as f64 / self.engine.median.as_nanos().max(1) as f64;
        write!(f, "{} | {} | {ratio:.1}", self.engine, self.original)
    }
}

impl Both {
    fn of(
        mut engine: impl FnMut() -> Option<Duration>,
        mut original: impl FnMut() -> Option<Duration>,
    ) -> Option<Both> {
        let [mut engines, mut originals] = [Vec::new(), Vec::new()];
        for _ in 0..ROUNDS {
            engines.push(engine()?);
            originals.push(original()?);
        }
        Some(Both { engine: Times::of(engines)?, original: Times::of(originals)? })
    }
}

fn time<T>(act: impl FnOnce() -> T) -> Duration {
    let start = Instant::now();
    black_box(act());
    start.elapsed()
}

/// A merge: by the engine with its test of the lent tables, on tables copied anew for each round; by the original on trees built
/// anew. The copying, building and dropping is not timed.
pub fn of_merge(deck: &[u8], file: u64) -> Option<Both> {
    let loaded = Engine::load(deck).ok()?.model;
    let engine = || {
        let mut model = loaded.clone();
        Some(time(|| model.merge(black_box(FileId(file)))))
    };
    let original = || {
        let trees = Trees::load(Deck::read(deck)?);
        let time = time(|| trees.merge(black_box(file)));
        // Else the next round would drop the undo log in its time.
        original::log();
        Some(time)
    };
    Both::of(engine, original)
}

/// The rollback of that merge.
pub fn of_rollback(deck: &[u8], file: u64) -> Option<Both> {
    let mut merged = Engine::load(deck).ok()?.model;
    merged.merge(FileId(file)).ok()?;
    let engine = || {
        let mut model = merged.clone();
        Some(time(|| model.rollback(black_box(Mark::START))))
    };
    let original = || {
        let trees = Trees::load(Deck::read(deck)?);
        trees.merge(file).ok()?;
        Some(time(original::roll_back))
    };
    Both::of(engine, original)
}

/// An insert range in the root's list behind that merge, for the name of its last child.
pub fn of_range(deck: &[u8], file: u64) -> Option<Both> {
    let mut model = Engine::load(deck).ok()?.model;
    model.merge(FileId(file)).ok()?;
    let name = model.root().sub_elements().last()?.name();
    let version = model.version_of(FileId(file))?;
    let trees = Trees::load(Deck::read(deck)?);
    trees.merge(file).ok()?;
    original::log();
    let engine = || Some(time(|| model.range(ElementId::ROOT, black_box(name), version)));
    let (name, version) = (name.get() as u16, version.get() as usize);
    let original = || Some(time(|| trees.range(0, black_box(name), version).is_ok()));
    Both::of(engine, original)
}

//! The merges that stand, read from the log, against the book of document 01: "Log, mark, rollback".

mod common;

use common::{load, loadable, waiting_files};
use zapelaritz::{Counts, Entry, FileId, Mark, Model, StandingMerge};

fn numbers(merge: StandingMerge) -> (u64, [u64; 3], u64, u64) {
    let Counts {
        imports,
        restrictions,
        extensions,
        ..
    } = merge.counts;
    let counts = [imports, restrictions, extensions];
    (
        merge.file.get(),
        counts,
        merge.before.get(),
        merge.after.get(),
    )
}

fn standing(model: &Model) -> Vec<(u64, [u64; 3], u64, u64)> {
    model.standing_merges().map(numbers).collect()
}

/// The counts are those of `calls.rs`, worked out there.
#[test]
fn merges_stand_until_they_are_taken_back() {
    let mut model = load("merge/named.deck");
    assert_eq!(standing(&model), []);
    model.merge(FileId(1)).unwrap();
    model.merge(FileId(2)).unwrap();
    let first = (1, [1, 1, 1], 0, 3);
    assert_eq!(standing(&model), [first, (2, [2, 1, 2], 3, 8)]);
    let shown: Vec<String> = model.standing_merges().map(|m| m.to_string()).collect();
    assert_eq!(
        shown,
        [
            "file 1: 1 import, 1 restriction, 1 extension, marks 0 to 3",
            "file 2: 2 imports, 1 restriction, 2 extensions, marks 3 to 8",
        ]
    );

    model.rollback(Mark(3)).unwrap();
    assert_eq!(standing(&model), [first]);
    model.rollback(Mark::START).unwrap();
    assert_eq!(standing(&model), []);
    // In the other order: alone, file 2 extends the root alone.
    model.merge(FileId(2)).unwrap();
    assert_eq!(standing(&model), [(2, [2, 1, 1], 0, 4)]);
}

/// A refused merge does not stand.
#[test]
fn a_refused_merge_between() {
    let mut model = load("merge/trees_refusal_between.deck");
    for file in waiting_files(&model) {
        let _ = model.merge(file);
    }
    assert_eq!(
        standing(&model),
        [(1, [1, 0, 1], 0, 2), (3, [1, 0, 2], 2, 5)]
    );
}

/// On every deck: the merges that stand are those that were accepted, with the counts that they reported, and a rollback to
/// the mark before one lets those before it stand.
#[test]
fn every_accepted_merge_stands() {
    let mut accepted = 0;
    for (name, mut model) in loadable() {
        let mut book = Vec::new();
        for file in waiting_files(&model) {
            let before = model.mark();
            if let Ok(counts) = model.merge(file) {
                book.push((file, counts, before, model.mark()));
            }
        }
        let merges: Vec<StandingMerge> = model.standing_merges().collect();
        let read: Vec<_> = merges
            .iter()
            .map(|m| (m.file, m.counts, m.before, m.after))
            .collect();
        assert_eq!(read, book, "{name}");
        accepted += book.len();

        for merge in merges.iter().rev() {
            let total = merge.counts.total();
            let entries = model.log_between(merge.before, merge.after);
            assert_eq!(entries.len() as u64, total, "{name}");
            assert!(
                entries.eq(model.log().skip(merge.before.get() as usize)),
                "{name}"
            );
            assert_eq!(model.rollback(merge.before), Ok(total), "{name}");
        }
        assert_eq!(model.standing_merges().next(), None, "{name}");
    }
    assert!(accepted > 100, "{accepted}");
}

#[test]
fn entries_between_other_numbers() {
    let mut model = load("merge/printed.deck");
    model.merge(FileId(1)).unwrap();
    let count = |from, to| model.log_between(Mark(from), Mark(to)).len();
    assert_eq!(count(0, 4), 4);
    assert_eq!(count(1, 3), 2);
    assert_eq!(count(3, 1), 0);
    assert_eq!(count(4, u64::MAX), 0);
    assert_eq!(count(u64::MAX, u64::MAX), 0);
    assert_eq!(count(2, u64::MAX), 2);
}

/// Entries as the program prints them, and what each is of.
#[test]
fn entries_are_shown_as_lines() {
    let mut model = load("merge/step_4.deck");
    model.merge(FileId(1)).unwrap();
    let shown: Vec<String> = model.log().map(|entry| entry.to_string()).collect();
    assert_eq!(
        shown,
        ["restriction,2,0", "import,5,0,3,0", "extension,0,1"]
    );
    let elements: Vec<u64> = model.log().map(|entry| entry.element().get()).collect();
    assert_eq!(elements, [2, 5, 0]);
    assert_eq!(model.log_lines(), format!("log,3\n{}\n", shown.join("\n")));
    let root = Entry::Import {
        element: 4.into(),
        parent: 0.into(),
        old_parent: None,
        old_files: [FileId(4)].into_iter().collect(),
    };
    assert_eq!(root.to_string(), "import,4,0,-,10");
}

#[test]
fn counts_are_summed_and_shown() {
    let mut model = load("merge/named.deck");
    let one = model.merge(FileId(1)).unwrap();
    let two = model.merge(FileId(2)).unwrap();
    let sum: Counts = [one, two].into_iter().sum();
    assert_eq!(sum.to_string(), "3 imports, 2 restrictions, 3 extensions");
    assert_eq!((sum.total(), one.total(), two.total()), (8, 3, 5));
    let mut same = one;
    same += two;
    assert_eq!(same, sum);
    let none = "0 imports, 0 restrictions, 0 extensions";
    assert_eq!(Counts::default().to_string(), none);
}

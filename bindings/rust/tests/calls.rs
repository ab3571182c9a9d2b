//! Lists of calls: what a rollback brings back, what it reports, and that a refused call changes nothing.

mod common;

use common::{check_reading, load, loadable, merge, waiting_files};
use zapelaritz::{ElementId, FileId, Mark, Model, Name, Refusal};

/// Counts by hand: file 1's `brakes` is imported, `engine` restricted, the root extended; file 2's value and `lights` are
/// imported, `doors` restricted (it has no set), `engine` and the root extended.
#[test]
fn merged_marked_withdrawn_and_merged_again() {
    let mut model = load("merge/named.deck");
    assert_eq!(model.mark(), Mark(0));
    assert_eq!(merge(&mut model, 1), Ok([1, 1, 1]));
    let mark = model.mark();
    assert_eq!(mark, Mark(3));
    let at_mark = model.clone();

    assert_eq!(merge(&mut model, 2), Ok([2, 1, 2]));
    assert_eq!(model.mark(), Mark(8));
    assert_eq!(model.rollback(mark), Ok(5));
    assert_eq!(model, at_mark);
    assert_eq!(model.model_lines(), at_mark.model_lines());
    assert_eq!(waiting_files(&model), [FileId(2)]);

    assert_eq!(merge(&mut model, 2), Ok([2, 1, 2]));
    assert_eq!(model.rollback(Mark(0)), Ok(8));
    assert_eq!(waiting_files(&model), [1, 2].map(FileId));
    // Alone, file 2 restricts `doors` and imports as before; `engine` has no set that could be extended.
    assert_eq!(merge(&mut model, 2), Ok([2, 1, 1]));
}

/// A refused delivery between two accepted ones leaves no trace, and a rollback does not count it.
#[test]
fn refused_between() {
    let mut model = load("merge/trees_refusal_between.deck");
    assert_eq!(merge(&mut model, 1), Ok([1, 0, 1]));
    let before = model.clone();
    assert_eq!(
        merge(&mut model, 2),
        Err(Refusal::Unmergeable {
            element: ElementId(0)
        })
    );
    assert_eq!(model, before);
    assert_eq!(merge(&mut model, 3), Ok([1, 0, 2]));
    for no_mark in [1, 3, 4, 6, u64::MAX] {
        assert_eq!(model.rollback(Mark(no_mark)), Err(Refusal::NoMark));
    }
    assert_eq!(model.rollback(Mark(2)), Ok(3));
    assert_eq!(model, before);
    assert_eq!(model.rollback(Mark(0)), Ok(2));
}

/// Refusals of a merge, each with what it carries; the state is the same after it.
#[test]
fn refused_merges_change_nothing() {
    for (name, first, file, refusal) in [
        ("merge/step_1.deck", &[] as &[u64], 1, Refusal::NotWaiting),
        ("merge/printed.deck", &[1], 1, Refusal::NotWaiting),
        ("merge/printed.deck", &[], 0, Refusal::NotWaiting),
        ("merge/printed.deck", &[], u64::MAX, Refusal::NotWaiting),
        (
            "merge/refusal_6.deck",
            &[],
            1,
            Refusal::Unmergeable {
                element: ElementId(0),
            },
        ),
        (
            "merge/refusal_7.deck",
            &[],
            1,
            Refusal::NotInVersion {
                element: ElementId(0),
                name: Name(3),
            },
        ),
        (
            "merge/refusal_8.deck",
            &[],
            1,
            Refusal::UsedTwice {
                element: ElementId(6),
            },
        ),
        ("calls/refusal_9.deck", &[1, 2, 3], 4, Refusal::LogFull),
        ("calls/refusal_10.deck", &[], 1, Refusal::ContentFull),
    ] {
        let mut model = load(name);
        for file in first {
            model.merge(FileId(*file)).unwrap();
        }
        let before = model.clone();
        assert_eq!(merge(&mut model, file), Err(refusal), "{name}");
        assert_eq!(model.model_lines(), before.model_lines(), "{name}");
        assert!(model.log().eq(before.log()), "{name}");
        assert!(model == before, "{name}");
    }
}

/// Merges the waiting trees in the order of the deck; the models behind the load and behind each accepted merge, each with the
/// sum of the counts until then.
fn history(name: &str, mut model: Model) -> Vec<(u64, Model)> {
    let mut past = vec![(0, model.clone())];
    let mut length = 0;
    for file in waiting_files(&model) {
        let before = model.clone();
        match model.merge(file) {
            Ok(counts) => {
                length += counts.total();
                past.push((length, model.clone()));
            }
            Err(_) => assert!(model == before, "{name}, file {file}"),
        }
        check_reading(name, &model);
    }
    past
}

/// Demand 3, on every deck of the test program and at every mark: a rollback reports the sum of the counts since the mark, and
/// the model stands as it did there.
#[test]
fn every_mark_brings_back() {
    let mut withdrawn = 0;
    for (name, model) in loadable() {
        let past = history(&name, model);
        let (length, last) = &past[past.len() - 1];
        for (mark, then) in &past {
            assert_eq!(then.mark(), Mark(*mark), "{name}");
            let mut model = last.clone();
            let entries = model.rollback(Mark(*mark));
            assert_eq!(entries, Ok(length - mark), "{name}");
            assert!(model == *then, "{name}, mark {mark}");
            check_reading(&name, &model);
            withdrawn += usize::from(mark < length);
        }
    }
    assert!(withdrawn > 100, "{withdrawn}");
}

/// Where no merge ended there is no mark, and the refusal changes nothing.
#[test]
fn every_other_number_is_no_mark() {
    for (name, model) in loadable() {
        let past = history(&name, model);
        let (length, last) = &past[past.len() - 1];
        let mut model = last.clone();
        for mark in (0..=length + 2).chain([u64::MAX]) {
            if past.iter().all(|(end, _)| *end != mark) {
                let answer = model.rollback(Mark(mark));
                assert_eq!(answer, Err(Refusal::NoMark), "{name}, {mark}");
            }
        }
        assert!(model == *last, "{name}");
    }
}

/// A list of merges and rollbacks; the book of document 01 says which merges stand.
#[test]
fn a_long_list_of_calls() {
    let mut model = load("merge/slip_merge_or_rollback_of_nothing.deck");
    let loaded = model.clone();
    let mut book: Vec<u64> = Vec::new();
    for step in 0..300_u64 {
        let file = FileId(step * 7 % 5);
        if let Ok(counts) = model.merge(file) {
            book.push(counts.total());
        }
        if step % 4 == 3 {
            let stay = (step / 4) as usize % (book.len() + 1);
            let mark = book[..stay].iter().sum();
            let since: u64 = book.split_off(stay).iter().sum();
            assert_eq!(model.rollback(Mark(mark)), Ok(since));
        }
        assert_eq!(model.mark(), Mark(book.iter().sum()));
        check_reading("list", &model);
    }
    assert_eq!(model.rollback(Mark(0)), Ok(book.iter().sum()));
    assert_eq!(model, loaded);
}

/// A clone is a model of its own.
#[test]
fn clones_are_apart() {
    let loaded = load("merge/printed.deck");
    let mut model = loaded.clone();
    model.merge(FileId(1)).unwrap();
    assert_ne!(model, loaded);
    assert_eq!(loaded.mark(), Mark::START);
    assert_eq!(waiting_files(&loaded), [FileId(1)]);
}

//! Each function at its edges: slices of every wrong size, null where the length is 0, tables of any numbers, the largest
//! numbers. What is expected is document 01's, "What each operation refuses".

use std::ptr::{null, null_mut};

use super::*;

/// The printed example of document 01. Its root is element 0, with element 1 of name 3 in it.
const DECK: &[u8] = b"\
T,0,0,0,f
T,1,4,0,0
S,0,0,3,1,2,f
S,0,1,4,1,0,f
F,0,2
F,1,3
M
E,0,0,1
E,1,3,0
C,2,s,p
B,1
E,0,0,0
E,1,3,0
C,2,s,q
E,1,4,0
C,2,u,7
";

const MODEL: &[u8] = b"E,0,0,1\nE,1,3,0\nC,2,s,p\n";

const TREES: &[u8] =
    b"M\nE,0,0,1\nE,1,3,0\nC,2,s,p\nB,1\nE,0,0,0\nE,1,3,0\nC,2,s,q\nE,1,4,0\nC,2,u,7\n";

/// What is printed of the tables of the example as they are loaded.
const PRINTED: [(Print, &[u8]); 3] = [
    (print_model, MODEL),
    (print_trees, TREES),
    (print_log, b"log,0\n"),
];

/// Refusal 0: a lent table of a wrong size, or with wrong numbers.
const TABLES: u64 = 0;

const OUTPUT: &[u8] =
    b"merged,1,2,1,1\nE,0,0,3\nE,1,3,1\nC,2,s,p\nE,1,3,2\nC,2,s,q\nE,1,4,2\nC,2,u,7\n";

const CALLS: &[u8] = b"merge,1\nrollback,0\nmodel\n";

const CALLS_OUTPUT: &[u8] = b"merged,1,2,1,1\nrolledback,0,4\nE,0,0,1\nE,1,3,0\nC,2,s,p\n";

/// All slices that a call is lent.
#[derive(Clone, PartialEq)]
struct Lent {
    deck: Vec<u8>,
    tables: [Vec<u64>; 4],
    out: Vec<u8>,
    answer: Vec<u64>,
}

type Call = fn(&mut Lent) -> u64;

/// The calls on loaded tables, each accepted on those of the example.
const ON_LOADED: [(&str, Call); 7] = [
    ("merge", |lent| merge_of(lent, 1)),
    ("rollback", |lent| rollback_to(lent, 0)),
    ("range", |lent| range_of(lent, 0, 3, 2)),
    ("mark", |lent| {
        let [schema, elements, model, log] = &lent.tables;
        mark(&lent.deck, schema, elements, model, log, &mut lent.answer)
    }),
    ("print_model", |lent| print_from(print_model, lent, 0)),
    ("print_trees", |lent| print_from(print_trees, lent, 0)),
    ("print_log", |lent| print_from(print_log, lent, 0)),
];

fn load_of(lent: &mut Lent) -> u64 {
    let [schema, elements, model, log] = &mut lent.tables;
    load(&lent.deck, schema, elements, model, log, &mut lent.answer)
}

fn merge_of(lent: &mut Lent, file: u64) -> u64 {
    let [schema, elements, model, log] = &mut lent.tables;
    merge(
        &lent.deck,
        schema,
        elements,
        model,
        log,
        file,
        &mut lent.answer,
    )
}

fn rollback_to(lent: &mut Lent, mark: u64) -> u64 {
    let [schema, elements, model, log] = &mut lent.tables;
    rollback(
        &lent.deck,
        schema,
        elements,
        model,
        log,
        mark,
        &mut lent.answer,
    )
}

fn range_of(lent: &mut Lent, element: u64, name: u64, version: u64) -> u64 {
    let [schema, elements, model, log] = &lent.tables;
    range(
        &lent.deck,
        schema,
        elements,
        model,
        log,
        element,
        name,
        version,
        &mut lent.answer,
    )
}

fn print_from(print: Print, lent: &mut Lent, from: usize) -> u64 {
    let [schema, elements, model, log] = &lent.tables;
    print(
        &lent.deck,
        schema,
        elements,
        model,
        log,
        from,
        &mut lent.out,
        &mut lent.answer,
    )
}

/// Tables of the right sizes, of one number.
fn filled(number: u64) -> Lent {
    let sizes = [schema_size(), elements_size(), model_size(), log_size()];
    Lent {
        deck: DECK.to_vec(),
        tables: sizes.map(|size| vec![number; size]),
        out: vec![9; 100],
        answer: vec![9; 4],
    }
}

/// The example, loaded.
fn loaded() -> Lent {
    let mut lent = filled(7);
    assert_eq!(load_of(&mut lent), ACCEPTED);
    assert_eq!(lent.answer, [0, 0, 0, 0]);
    lent.answer = vec![9; 4];
    lent
}

/// The call is refused with this answer, returns its first number, and changes nothing else.
fn refuses(name: &str, call: impl Fn(&mut Lent) -> u64, mut lent: Lent, answer: [u64; 4]) {
    let mut expected = lent.clone();
    expected.answer = answer.to_vec();
    assert_eq!(call(&mut lent), answer[0], "{name}");
    assert_eq!(lent.answer, answer, "{name}");
    assert!(lent == expected, "{name} changes a slice");
}

/// Sizes that are wrong for a slice of this size.
fn wrong_sizes(size: usize) -> [usize; 5] {
    [0, 1, size - 1, size + 1, 2 * size]
}

#[test]
fn answers_of_accepted_calls() {
    let mut lent = loaded();
    assert_eq!(range_of(&mut lent, 0, 3, 2), ACCEPTED);
    assert_eq!(lent.answer, [0, 1, 0, 0]);
    assert_eq!(merge_of(&mut lent, 1), ACCEPTED);
    assert_eq!(lent.answer, [2, 1, 1, 0]);
    let (_, mark) = ON_LOADED[3];
    assert_eq!(mark(&mut lent), ACCEPTED);
    assert_eq!(lent.answer, [4, 0, 0, 0]);
    assert_eq!(rollback_to(&mut lent, 0), ACCEPTED);
    assert_eq!(lent.answer, [4, 0, 0, 0]);
    assert_eq!(mark(&mut lent), ACCEPTED);
    assert_eq!(lent.answer, [0, 0, 0, 0]);
    for (print, text) in PRINTED {
        assert_eq!(print_from(print, &mut lent, 0), ACCEPTED);
        assert_eq!(lent.answer, [text.len() as u64, 0, 0, 0]);
    }
}

#[test]
fn load_into_tables_of_wrong_sizes() {
    for table in 0..4 {
        for size in wrong_sizes(filled(7).tables[table].len()) {
            let mut lent = filled(7);
            lent.tables[table].resize(size, 7);
            let mut expected = lent.clone();
            for cell in expected.tables.iter_mut().flatten() {
                *cell = 0;
            }
            expected.answer = vec![0; 4];
            assert_eq!(load_of(&mut lent), TABLES);
            assert_eq!(lent.answer, [0; 4]);
            assert!(lent == expected, "table {table} of size {size}");
        }
    }
}

#[test]
fn load_of_decks_of_other_lengths() {
    let cut = DECK[..DECK.len() - 1].to_vec();
    let long = [DECK, &vec![b'\n'; deck_limit()]].concat();
    for (deck, number, line) in [(vec![], 3, 0), (cut, 1, 16), (long, 4, 0)] {
        let mut lent = filled(7);
        lent.deck = deck;
        assert_eq!(load_of(&mut lent), number);
        assert_eq!(lent.answer, [number, line, 0, 0]);
        assert!(lent.tables.iter().flatten().all(|cell| *cell == 0));
    }
}

#[test]
fn calls_on_tables_of_wrong_sizes() {
    for (name, call) in ON_LOADED {
        for table in 0..4 {
            for size in wrong_sizes(loaded().tables[table].len()) {
                let mut lent = loaded();
                lent.tables[table].resize(size, 0);
                refuses(name, call, lent, [0; 4]);
            }
        }
    }
}

#[test]
fn calls_on_tables_of_any_numbers() {
    for (name, call) in ON_LOADED {
        refuses(name, call, filled(0), [0; 4]);
        refuses(name, call, filled(1), [0; 4]);
        refuses(name, call, filled(u64::MAX), [0; 4]);
        for table in 0..4 {
            let mut lent = loaded();
            lent.tables[table][0] = u64::MAX;
            refuses(name, call, lent, [0; 4]);
            let mut lent = loaded();
            *lent.tables[table].last_mut().unwrap() = 1;
            refuses(name, call, lent, [0; 4]);
        }
    }
}

/// A string of the tables has to stand in the deck; what stands behind it is not asked.
#[test]
fn calls_with_decks_of_other_lengths() {
    for (name, call) in ON_LOADED {
        for length in [0, 1, 70] {
            let mut lent = loaded();
            lent.deck.truncate(length);
            refuses(name, call, lent, [0; 4]);
        }
        let mut right = loaded();
        assert_eq!(call(&mut right), ACCEPTED);
        let mut lent = loaded();
        lent.deck.resize(2 * DECK.len(), b'x');
        assert_eq!(call(&mut lent), ACCEPTED, "{name}");
        assert_eq!(lent.answer, right.answer, "{name}");
        assert!(lent.tables == right.tables, "{name}");
    }
}

/// Such an answer is a lent table of a wrong size: refused, and only a load writes.
#[test]
fn answers_of_wrong_sizes() {
    for size in [0, 1, 2, 3, 5, 1000] {
        for (name, call) in ON_LOADED {
            let mut lent = loaded();
            lent.answer.resize(size, 9);
            let before = lent.clone();
            assert_eq!(call(&mut lent), TABLES, "{name}, {size}");
            assert!(lent == before, "{name}, {size}");
        }
        let mut lent = filled(7);
        lent.answer.resize(size, 9);
        assert_eq!(load_of(&mut lent), TABLES, "{size}");
        let written = lent.tables.iter().flatten().chain(&lent.answer);
        assert!(written.into_iter().all(|cell| *cell == 0), "{size}");
        assert_eq!(lent.answer.len(), size);
    }
}

#[test]
fn largest_numbers() {
    let most = u64::MAX;
    refuses("merge", |l| merge_of(l, most), loaded(), [5, 0, 0, 0]);
    refuses(
        "rollback",
        |l| rollback_to(l, most),
        loaded(),
        [14, 0, 0, 0],
    );
    refuses(
        "element",
        |l| range_of(l, most, 3, 2),
        loaded(),
        [11, 0, 0, 0],
    );
    refuses(
        "name",
        |l| range_of(l, 0, most, 2),
        loaded(),
        [7, 0, most, 0],
    );
    refuses(
        "version",
        |l| range_of(l, 0, 3, most),
        loaded(),
        [11, 0, 0, 0],
    );
    refuses(
        "range",
        |l| range_of(l, most, most, most),
        loaded(),
        [11, 0, 0, 0],
    );

    for (print, _) in PRINTED {
        let mut lent = loaded();
        let mut expected = lent.clone();
        expected.answer = vec![0; 4];
        assert_eq!(print_from(print, &mut lent, usize::MAX), ACCEPTED);
        assert!(lent == expected);
    }
    let mut out = [9; 100];
    assert_eq!(print_output(DECK, usize::MAX, &mut out), 0);
    assert_eq!(print_calls(DECK, CALLS, usize::MAX, &mut out), 0);
    assert_eq!(out, [9; 100]);
}

/// From every byte on, with every room: the text's bytes as far as they fit, and what stands behind them stays.
fn prints_in_parts(text: &[u8], print: impl Fn(usize, &mut [u8]) -> usize) {
    for from in 0..text.len() + 3 {
        for room in 0..text.len() + 3 {
            let rest = text.get(from..).unwrap_or_default();
            let count = rest.len().min(room);
            let mut expected = rest[..count].to_vec();
            expected.resize(room, 9);
            let mut out = vec![9; room];
            assert_eq!(print(from, &mut out), count, "from {from}, room {room}");
            assert_eq!(out, expected, "from {from}, room {room}");
        }
    }
}

#[test]
fn printing_in_parts() {
    let lent = loaded();
    for (print, text) in PRINTED {
        prints_in_parts(text, |from, out| {
            let mut lent = lent.clone();
            lent.out = out.to_vec();
            assert_eq!(print_from(print, &mut lent, from), ACCEPTED);
            out.copy_from_slice(&lent.out);
            assert_eq!(lent.answer[1..], [0; 3]);
            lent.answer[0] as usize
        });
    }
    prints_in_parts(OUTPUT, |from, out| print_output(DECK, from, out));
    prints_in_parts(CALLS_OUTPUT, |from, out| {
        print_calls(DECK, CALLS, from, out)
    });
    prints_in_parts(b"deck,3,0\n", |from, out| print_output(b"", from, out));
    prints_in_parts(b"deck,3,0\n", |from, out| {
        print_calls(b"", CALLS, from, out)
    });
    prints_in_parts(b"", |from, out| print_calls(DECK, b"", from, out));
}

/// Null for every slice of length 0.
#[test]
fn null_slices() {
    let (no_bytes, no_numbers) = (null::<u8>(), null::<u64>());
    let (no_out, no_table) = (null_mut::<u8>(), null_mut::<u64>());

    let mut lent = filled(7);
    let [schema, elements, model, log] = &mut lent.tables;
    let mut answer = [9; 4];
    // SAFETY: each pointer and length are those of a slice, null ones of length 0; those that are written are apart.
    let code = unsafe {
        zapelaritz_load(
            no_bytes,
            0,
            schema.as_mut_ptr(),
            schema.len(),
            elements.as_mut_ptr(),
            elements.len(),
            model.as_mut_ptr(),
            model.len(),
            log.as_mut_ptr(),
            log.len(),
            answer.as_mut_ptr(),
            4,
        )
    };
    assert_eq!((code, answer), (3, [3, 0, 0, 0]));
    assert!(lent.tables.iter().flatten().all(|cell| *cell == 0));

    // SAFETY: as above.
    let calls: [&dyn Fn(*mut u64, usize) -> u64; 8] = unsafe {
        [
            &|answer, size| {
                zapelaritz_load(
                    no_bytes, 0, no_table, 0, no_table, 0, no_table, 0, no_table, 0, answer, size,
                )
            },
            &|answer, size| {
                zapelaritz_merge(
                    no_bytes, 0, no_numbers, 0, no_numbers, 0, no_table, 0, no_table, 0, 1, answer,
                    size,
                )
            },
            &|answer, size| {
                zapelaritz_rollback(
                    no_bytes, 0, no_numbers, 0, no_numbers, 0, no_table, 0, no_table, 0, 0, answer,
                    size,
                )
            },
            &|answer, size| {
                zapelaritz_range(
                    no_bytes, 0, no_numbers, 0, no_numbers, 0, no_numbers, 0, no_numbers, 0, 0, 3,
                    2, answer, size,
                )
            },
            &|answer, size| {
                zapelaritz_mark(
                    no_bytes, 0, no_numbers, 0, no_numbers, 0, no_numbers, 0, no_numbers, 0,
                    answer, size,
                )
            },
            &|answer, size| {
                zapelaritz_print_model(
                    no_bytes, 0, no_numbers, 0, no_numbers, 0, no_numbers, 0, no_numbers, 0, 0,
                    no_out, 0, answer, size,
                )
            },
            &|answer, size| {
                zapelaritz_print_trees(
                    no_bytes, 0, no_numbers, 0, no_numbers, 0, no_numbers, 0, no_numbers, 0, 0,
                    no_out, 0, answer, size,
                )
            },
            &|answer, size| {
                zapelaritz_print_log(
                    no_bytes, 0, no_numbers, 0, no_numbers, 0, no_numbers, 0, no_numbers, 0, 0,
                    no_out, 0, answer, size,
                )
            },
        ]
    };
    for call in calls {
        let mut answer = [9; 4];
        assert_eq!(call(answer.as_mut_ptr(), 4), TABLES);
        assert_eq!(answer, [0; 4]);
        assert_eq!(call(no_table, 0), TABLES);
    }

    let mut out = [9; 10];
    // SAFETY: as above.
    unsafe {
        let count = zapelaritz_print_output(no_bytes, 0, 0, out.as_mut_ptr(), 10);
        assert_eq!((count, &out), (9, b"deck,3,0\n\x09"));
        assert_eq!(zapelaritz_print_output(no_bytes, 0, 0, no_out, 0), 0);

        let mut out = [9; 10];
        let count = zapelaritz_print_calls(no_bytes, 0, no_bytes, 0, 0, out.as_mut_ptr(), 10);
        assert_eq!((count, &out), (9, b"deck,3,0\n\x09"));
        assert_eq!(
            zapelaritz_print_calls(no_bytes, 0, no_bytes, 0, 0, no_out, 0),
            0
        );
        let count = zapelaritz_print_calls(
            DECK.as_ptr(),
            DECK.len(),
            no_bytes,
            0,
            0,
            out.as_mut_ptr(),
            10,
        );
        assert_eq!((count, &out), (0, b"deck,3,0\n\x09"));
    }
}

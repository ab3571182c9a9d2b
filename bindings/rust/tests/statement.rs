//! `zapelaritz-statement`: its three forms against stored files, refusals, what cannot be read or written, and the decks of
//! `docs/STATEMENT.md`.

mod common;

use std::fs::{self, File};
use std::os::fd::OwnedFd;
use std::os::unix::net::UnixStream;
use std::path::{Path, PathBuf};
use std::process::{Command, Stdio};

use common::{cases, data, read, repository};
use zapelaritz::statement::{Delivery, Kind, State, Statement, StatementError};
use zapelaritz::{LoadError, Mark, Model, Refusal};

const STORED: &str = "bindings/rust/tests/statement";

/// The program in a folder of the repository.
fn program(folder: &str, arguments: &[&str]) -> Command {
    let mut command = Command::new(env!("CARGO_BIN_EXE_zapelaritz-statement"));
    command.args(arguments).current_dir(repository(folder));
    command
}

/// Exit status, standard output and standard error.
fn run(folder: &str, arguments: &[&str]) -> (Option<i32>, String, String) {
    let output = program(folder, arguments).output().unwrap();
    let [out, error] = [output.stdout, output.stderr].map(|text| String::from_utf8(text).unwrap());
    (output.status.code(), out, error)
}

fn assert_lines(name: &str, printed: &str, expected: &str) {
    let lines = (1..).zip(printed.lines().zip(expected.lines()));
    for (number, (printed, expected)) in lines {
        assert_eq!(printed, expected, "{name}, line {number}");
    }
    assert!(printed == expected, "{name}: {printed}");
}

/// All three forms of a statement against the stored files of a name.
fn hold_to_stored(name: &str, status: i32, paths: &[&str]) {
    for (form, ending) in [("", "txt"), ("--csv", "csv"), ("--html", "html")] {
        let form = [form].into_iter().filter(|form| !form.is_empty());
        let arguments: Vec<&str> = form.chain(paths.iter().copied()).collect();
        let (code, out, error) = run("", &arguments);
        let stored = format!("{STORED}/{name}.{ending}");
        assert_lines(&stored, &out, &String::from_utf8(read(&stored)).unwrap());
        assert_eq!((code, error.as_str()), (Some(status), ""), "{stored}");
    }
}

#[test]
fn each_delivery_in_the_order_of_the_deck() {
    hold_to_stored("named", 0, &["examples/named.deck"]);
}

#[test]
fn withdrawn_and_merged_again() {
    let paths = ["examples/named.deck", "examples/withdraw.calls"];
    hold_to_stored("named_withdraw", 0, &paths);
}

#[test]
fn a_refused_merge() {
    hold_to_stored("definitions", 1, &["examples/definitions.deck"]);
}

/// Item names and texts that mean something in HTML and CSV; a refused rollback.
#[test]
fn names_with_marks() {
    let paths = ["deck", "calls"].map(|ending| format!("{STORED}/marks.{ending}"));
    hold_to_stored("marks", 1, &[&paths[0], &paths[1]]);
    let page = String::from_utf8(read(&format!("{STORED}/marks.html"))).unwrap();
    assert!(page.contains("<b>&lt;b&gt;&amp;&quot;x&quot;&#39;&lt;/b&gt;</b>"));
    assert_eq!(page.matches("<script>").count(), 1);
}

/// No statement: nothing on standard output, and the reason on standard error.
fn hold_to_reason(arguments: &[&str], status: i32, reason: &str) {
    let (code, out, error) = run("", arguments);
    assert_eq!((code, out.as_str()), (Some(status), ""), "{arguments:?}");
    assert_eq!(error, format!("zapelaritz-statement: {reason}\n"));
}

#[test]
fn a_refused_deck() {
    let deck = "crates/decks/data/load/refusal_3.deck";
    let reason = format!("{deck}: line 1: a rule of the trees is broken");
    for form in ["--csv", "--html", "--"] {
        hold_to_reason(&[form, deck], 1, &reason);
    }
    // Whatever calls follow.
    let calls = format!("{STORED}/bad_line.calls");
    hold_to_reason(&[deck, &calls], 1, &reason);
}

#[test]
fn a_bad_line_of_the_list() {
    let calls = format!("{STORED}/bad_line.calls");
    let reason = format!("{calls}: line 3: no call of this form");
    hold_to_reason(&["examples/named.deck", &calls], 1, &reason);
}

#[test]
fn files_that_cannot_be_read() {
    let missing = "No such file or directory (os error 2)";
    hold_to_reason(&["no.deck"], 2, &format!("no.deck: {missing}"));
    let reason = format!("no.calls: {missing}");
    hold_to_reason(&["examples/named.deck", "no.calls"], 2, &reason);
    let reason = "examples: Is a directory (os error 21)";
    hold_to_reason(&["examples"], 2, reason);
}

#[test]
fn arguments() {
    let usage = "usage: zapelaritz-statement [--csv | --html] DECK [CALLS]";
    let deck = "examples/named.deck";
    for arguments in [
        &[] as &[&str],
        &["--csv"],
        &["--csv", "--html", deck],
        &["--html", deck, "--csv"],
        &["--pdf", deck],
        &["-c"],
        &["-", "-"],
        &[deck, deck, deck],
    ] {
        hold_to_reason(arguments, 2, &format!("{usage}; --help says more"));
    }
    let (code, out, error) = run("", &["--help"]);
    assert_eq!((code, error.as_str()), (Some(0), ""));
    assert!(out.starts_with(&format!("{usage}\n\n")));
    assert_eq!(run("", &["-h"]).1, out);
    let (code, out, _) = run("", &["--version"]);
    let version = concat!("zapelaritz-statement ", env!("CARGO_PKG_VERSION"), "\n");
    assert_eq!((code, out.as_str()), (Some(0), version));
    // Behind the deck too, and as a file's name behind `--`.
    assert_eq!(run("", &[deck, "--csv"]), run("", &["--csv", deck]));
    let (code, _, error) = run("", &["--", "--csv"]);
    assert_eq!(code, Some(2));
    assert!(error.starts_with("zapelaritz-statement: --csv: "));
}

#[test]
fn standard_input() {
    let deck = "examples/named.deck";
    let calls = "examples/withdraw.calls";
    for (input, arguments) in [(deck, ["-", calls]), (calls, [deck, "-"])] {
        let input = File::open(repository(input)).unwrap();
        let mut command = program("", &["--csv", arguments[0], arguments[1]]);
        let output = command.stdin(input).output().unwrap();
        assert_eq!(output.stdout, read(&format!("{STORED}/named_withdraw.csv")));
    }
}

/// Exit status and standard error with an output that takes nothing.
fn run_into(output: impl Into<Stdio>) -> (Option<i32>, String) {
    let mut command = program("", &["--html", "examples/named.deck"]);
    let output = command
        .stdout(output)
        .stderr(Stdio::piped())
        .output()
        .unwrap();
    (
        output.status.code(),
        String::from_utf8(output.stderr).unwrap(),
    )
}

#[test]
fn outputs_that_take_nothing() {
    let full = File::options().write(true).open("/dev/full").unwrap();
    let (code, error) = run_into(full);
    assert_eq!(code, Some(2));
    assert!(error.contains("standard output: No space left"), "{error}");

    let (reader, writer) = UnixStream::pair().unwrap();
    drop(reader);
    let (code, error) = run_into(OwnedFd::from(writer));
    assert_eq!(code, Some(2));
    assert!(error.contains("standard output: Broken pipe"), "{error}");

    let (code, _) = run_into(Stdio::null());
    assert_eq!(code, Some(0));
    let mut shell = Command::new("sh");
    let program = env!("CARGO_BIN_EXE_zapelaritz-statement");
    shell.args([
        "-c",
        "exec \"$0\" \"$1\" >&-",
        program,
        "examples/named.deck",
    ]);
    let output = shell.current_dir(repository("")).output().unwrap();
    assert_eq!(output.status.code(), Some(2));
    let closed = "zapelaritz-statement: standard output is closed\n";
    assert_eq!(String::from_utf8(output.stderr).unwrap(), closed);
}

#[test]
fn as_a_library() {
    let deck = read("examples/named.deck");
    let calls = b"merge,1\nmerge,2\nmerge,2\nrollback,3\nrollback,8\nmerge,2\n";
    let statement = Statement::of(&deck, Some(calls)).unwrap();
    let states: Vec<&State> = statement.deliveries().iter().map(|it| &it.state).collect();
    let not_waiting = State::Refused {
        refusal: Refusal::NotWaiting,
        path: None,
    };
    let withdrawn = State::Withdrawn {
        call: 4,
        mark: Mark(3),
    };
    assert_eq!(
        states,
        [&State::Stands, &withdrawn, &not_waiting, &State::Stands]
    );
    assert_eq!(statement.rollbacks()[0].answer, Ok(5));
    assert_eq!(statement.rollbacks()[1].answer, Err(Refusal::NoMark));
    let engine = &statement.deliveries()[1].entries[3];
    assert_eq!(
        (engine.kind, engine.path.as_str()),
        (Kind::Extended, "/engine")
    );
    assert!(!statement.all_accepted());

    let error = Statement::of(b"M\n", None).unwrap_err();
    assert_eq!(error, StatementError::Deck(LoadError::TreeRule { line: 1 }));
    let error = Statement::of(&deck, Some(b"merge")).unwrap_err();
    assert_eq!(error, StatementError::Call { line: 1 });
}

/// Every deck and list of the test program, held to the answers in its own files.
#[test]
fn statements_are_those_of_the_answers() {
    let mut calls_made = 0;
    for (case, deck) in cases() {
        let calls = fs::read(repository(&format!("crates/decks/data/{case}.calls"))).ok();
        let deck = data(&format!("{deck}.deck"));
        let answer = String::from_utf8(data(&format!("{case}.out"))).unwrap();
        let statement = match Statement::of(&deck, calls.as_deref()) {
            Ok(statement) => statement,
            Err(StatementError::Deck(_)) => {
                assert!(Model::load(&deck).is_err(), "{case}");
                continue;
            }
            Err(StatementError::Call { line }) => {
                assert!(answer.ends_with(&format!("calls,{line}\n")), "{case}");
                continue;
            }
            Err(error) => panic!("{case}: {error}"),
        };
        let kinds = ["merged,", "refused,", "rolledback,", "rollback-refused,"];
        let is_answer = |line: &&str| kinds.iter().any(|kind| line.starts_with(kind));
        let expected: Vec<&str> = answer.lines().filter(is_answer).collect();
        let lines = answer_lines(&statement);
        assert_eq!(lines, expected, "{case}");
        calls_made += lines.len();

        check_csv(&case, &statement);
        if calls.is_none() {
            let elements = answer.lines().filter(|line| line.starts_with("E,"));
            let page = statement.to_html();
            let shown = page.matches("<li data-files=").count();
            assert_eq!(shown, elements.count(), "{case}");
        }
    }
    assert!(calls_made > 500, "{calls_made}");
}

/// The program's lines for the merges and rollbacks of a statement, in the order of the calls.
fn answer_lines(statement: &Statement) -> Vec<String> {
    let merges = statement.deliveries().iter();
    let merges = merges.map(|delivery| (delivery.call, merge_line(delivery)));
    let rollbacks = statement.rollbacks().iter().map(|rollback| {
        let mark = rollback.mark;
        let line = match rollback.answer {
            Ok(entries) => format!("rolledback,{mark},{entries}"),
            Err(refusal) => format!("rollback-refused,{mark},{}", refusal.number()),
        };
        (rollback.call, line)
    });
    let mut lines: Vec<(u64, String)> = merges.chain(rollbacks).collect();
    lines.sort();
    lines.into_iter().map(|(_, line)| line).collect()
}

fn merge_line(delivery: &Delivery) -> String {
    let file = delivery.file;
    match &delivery.state {
        State::Refused { refusal, .. } => {
            let (element, name) = (or_dash(refusal.element()), or_dash(refusal.name()));
            format!("refused,{file},{},{element},{name}", refusal.number())
        }
        _ => {
            let counts = delivery.counts;
            let (imports, restrictions) = (counts.imports, counts.restrictions);
            format!(
                "merged,{file},{imports},{restrictions},{}",
                counts.extensions
            )
        }
    }
}

/// Every row has a field for each column; the column `standing` sums up to what stands, and so do the entries that stand.
fn check_csv(case: &str, statement: &Statement) {
    let csv = statement.to_csv();
    let mut rows = csv.lines().map(csv_fields);
    let columns = rows.next().unwrap();
    let column = |name: &str| columns.iter().position(|it| it == name).unwrap();
    let [row, state, standing] = ["row", "state", "standing"].map(column);
    let (mut sum, mut entries) = (0, 0);
    for fields in rows {
        assert_eq!(fields.len(), columns.len(), "{case}: {fields:?}");
        if fields[row] == "delivery" {
            sum += fields[standing].parse::<u64>().unwrap();
        }
        if fields[row] == "entry" && fields[state] == "stands" {
            entries += 1;
        }
    }
    let total = statement.total().total();
    assert_eq!([sum, entries], [total, total], "{case}");
}

/// A line of comma-separated values, read anew.
fn csv_fields(line: &str) -> Vec<String> {
    let mut fields = vec![String::new()];
    let mut quoted = false;
    let mut characters = line.chars().peekable();
    while let Some(character) = characters.next() {
        let field = fields.last_mut().unwrap();
        match character {
            '"' if quoted && characters.peek() == Some(&'"') => {
                characters.next();
                field.push('"');
            }
            '"' => quoted = !quoted,
            ',' if !quoted => fields.push(String::new()),
            _ => field.push(character),
        }
    }
    assert!(!quoted, "{line}");
    fields
}

fn or_dash(number: Option<impl ToString>) -> String {
    number.map_or("-".into(), |number| number.to_string())
}

/// `docs/STATEMENT.md`: a block behind a file's name is that file, and a block behind a command is what it prints.
#[test]
fn the_page_for_the_clerk_is_true() {
    let page = String::from_utf8(read("docs/STATEMENT.md")).unwrap();
    let mut parts = page.split("```\n");
    let mut heading = parts.next().unwrap();
    let (mut files, mut runs) = (0, 0);
    while let (Some(block), Some(behind)) = (parts.next(), parts.next()) {
        let line = heading.trim_end().lines().last().unwrap();
        let quoted = line.split('`').nth(1).unwrap_or_default();
        if let Some(arguments) = quoted.strip_prefix("zapelaritz-statement ") {
            let arguments: Vec<&str> = arguments.split(' ').collect();
            let (code, out, _) = run(folder_of(&arguments), &arguments);
            assert_lines(quoted, &out, block);
            assert!(code < Some(2), "{quoted}");
            runs += 1;
        } else {
            let file: PathBuf = repository(folder_of(&[quoted])).join(quoted);
            let file = fs::read_to_string(&file).unwrap_or_else(|error| panic!("{line}: {error}"));
            assert_lines(quoted, block, &file);
            files += 1;
        }
        heading = behind;
    }
    assert!(files > 3 && runs > 4, "{files} files, {runs} runs");
    assert!(Path::new(&repository("docs/statement.png")).is_file());
}

/// Where the page's decks are.
fn folder_of(arguments: &[&str]) -> &'static str {
    match arguments
        .iter()
        .any(|argument| argument.starts_with("examples/"))
    {
        true => "",
        false => STORED,
    }
}

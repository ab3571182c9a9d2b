//! Prints the statement of a deck: `zapelaritz-statement [--csv | --html] DECK [CALLS]`.

#![deny(unsafe_code)]

use std::env;
use std::ffi::OsString;
use std::fs;
use std::io::{self, Read, Write};
use std::path::Path;
use std::process::ExitCode;

use zapelaritz::statement::{Statement, StatementError};

const USAGE: &str = "usage: zapelaritz-statement [--csv | --html] DECK [CALLS]";

const HELP: &str = "
Prints what each delivery of the deck is counted for: elements imported, elements restricted to the older files, file sets
extended; what was withdrawn, what was refused, and the totals of what stands. Without CALLS each delivery is merged in the
order of the deck; with CALLS the merges and rollbacks of that list are made. docs/STATEMENT.md says how to read it.

  DECK       the file of the deck; -: standard input
  CALLS      the file of the list of calls; -: standard input
  --csv      comma-separated values for a spreadsheet
  --html     a page that needs no other file, with the model as a tree
  -h, --help this text
  --version  the version
  --         what follows are files

Exit status: 0 all accepted; 1 something was refused: a merge or a rollback, or, and then there is no statement, the deck or a
line of the list; 2 something could not be read or written, or the usage is wrong.
";

/// Why there is no statement, and the exit status for it.
struct Failure {
    status: u8,
    message: String,
}

const REFUSED: u8 = 1;
const FAILED: u8 = 2;

impl Failure {
    fn new(message: String) -> Failure {
        let status = FAILED;
        Failure { status, message }
    }
}

fn main() -> ExitCode {
    run(env::args_os().skip(1)).unwrap_or_else(|failure| {
        // Nothing is left to do where standard error is closed too.
        let _ = writeln!(io::stderr(), "zapelaritz-statement: {}", failure.message);
        failure.status.into()
    })
}

/// The forms of a statement.
#[derive(Clone, Copy, PartialEq, Eq)]
enum Form {
    Table,
    Csv,
    Html,
}

fn run(arguments: impl Iterator<Item = OsString>) -> Result<ExitCode, Failure> {
    let usage = || Failure::new(format!("{USAGE}; --help says more"));
    let mut form = Form::Table;
    let mut paths = Vec::new();
    let mut options = true;
    for argument in arguments {
        match argument.to_str().filter(|_| options) {
            Some("--") => options = false,
            Some("-h" | "--help") => return print(&format!("{USAGE}\n{HELP}")),
            Some("--version") => {
                let version = env!("CARGO_PKG_VERSION");
                return print(&format!("zapelaritz-statement {version}\n"));
            }
            Some("--csv") if form != Form::Html => form = Form::Csv,
            Some("--html") if form != Form::Csv => form = Form::Html,
            Some(option) if option.starts_with('-') && option != "-" => return Err(usage()),
            _ => paths.push(argument),
        }
    }
    match paths.as_slice() {
        [deck] => state(form, deck.as_ref(), None),
        [deck, calls] if deck != "-" || calls != "-" => {
            state(form, deck.as_ref(), Some(calls.as_ref()))
        }
        _ => Err(usage()),
    }
}

fn state(form: Form, deck: &Path, calls: Option<&Path>) -> Result<ExitCode, Failure> {
    let deck_bytes = read(deck)?;
    let calls_bytes = calls.map(read).transpose()?;
    let source = match calls {
        None => shown(deck),
        Some(calls) => format!("{}, calls of {}", shown(deck), shown(calls)),
    };
    let statement = Statement::of(&deck_bytes, calls_bytes.as_deref())
        .map_err(|error| {
            let (path, status) = match error {
                StatementError::Call { .. } => (calls.unwrap_or(deck), REFUSED),
                StatementError::Deck(_) => (deck, REFUSED),
                _ => (deck, FAILED),
            };
            let message = format!("{}: {error}", shown(path));
            Failure { status, message }
        })?
        .with_source(&source);
    let accepted = print(&match form {
        Form::Table => statement.to_string(),
        Form::Csv => statement.to_csv(),
        Form::Html => statement.to_html(),
    })?;
    Ok(match statement.all_accepted() {
        true => accepted,
        false => REFUSED.into(),
    })
}

/// The name of a file, as the statement's heading and the messages have it.
fn shown(path: &Path) -> String {
    if path == Path::new("-") {
        "standard input".into()
    } else {
        path.display().to_string()
    }
}

fn read(path: &Path) -> Result<Vec<u8>, Failure> {
    let bytes = if path == Path::new("-") {
        let mut bytes = Vec::new();
        io::stdin().read_to_end(&mut bytes).map(|_| bytes)
    } else {
        fs::read(path)
    };
    bytes.map_err(|error| Failure::new(format!("{}: {error}", shown(path))))
}

fn print(text: &str) -> Result<ExitCode, Failure> {
    if closed::is_output_closed() {
        return Err(Failure::new("standard output is closed".into()));
    }
    let mut out = io::stdout().lock();
    match out.write_all(text.as_bytes()).and_then(|()| out.flush()) {
        Ok(()) => Ok(ExitCode::SUCCESS),
        Err(error) => Err(Failure::new(format!("standard output: {error}"))),
    }
}

/// Before `main`, Rust puts /dev/null in the place of a standard output that is closed, and a statement would be lost unseen.
/// So it is looked at before that.
#[allow(unsafe_code)]
mod closed {
    use std::ffi::c_int;
    use std::sync::atomic::{AtomicBool, Ordering};

    static CLOSED: AtomicBool = AtomicBool::new(false);

    extern "C" {
        fn fcntl(file: c_int, command: c_int, ...) -> c_int;
    }

    const STANDARD_OUTPUT: c_int = 1;
    const F_GETFD: c_int = 1;

    extern "C" fn look() {
        // SAFETY: F_GETFD takes no further argument, and is answered for every number.
        let answer = unsafe { fcntl(STANDARD_OUTPUT, F_GETFD) };
        CLOSED.store(answer == -1, Ordering::Relaxed);
    }

    /// The functions that the system calls before the program's own start.
    #[used]
    #[link_section = ".init_array"]
    static LOOK: extern "C" fn() = look;

    pub fn is_output_closed() -> bool {
        CLOSED.load(Ordering::Relaxed)
    }
}

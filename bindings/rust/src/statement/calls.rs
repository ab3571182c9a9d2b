//! The lines of a list of calls, as `docs/DECK.md` describes them.

use crate::numbers::{FileId, Mark};

/// A call, as far as a statement needs it.
#[derive(Debug, PartialEq, Eq)]
pub(super) enum Call {
    Merge(FileId),
    Rollback(Mark),
    /// A call that changes nothing: a range, the model, the trees, the log.
    PassedOver,
}

/// The calls, one to a line, or the number of the first line of another form, counted from 1.
pub(super) fn read(list: &[u8]) -> Result<Vec<Call>, u64> {
    let lines = list.split_inclusive(|byte| *byte == b'\n');
    (1..)
        .zip(lines)
        .map(|(number, line)| read_line(line).ok_or(number))
        .collect()
}

fn read_line(line: &[u8]) -> Option<Call> {
    let line = line.strip_suffix(b"\n")?;
    let fields: Vec<&[u8]> = line.split(|byte| *byte == b',').collect();
    match *fields.as_slice() {
        [b"merge", file] => read_number(file).map(FileId).map(Call::Merge),
        [b"rollback", mark] => read_number(mark).map(Mark).map(Call::Rollback),
        [b"range", element, name, version] => {
            let numbers = [element, name, version].map(read_number);
            numbers
                .iter()
                .all(Option::is_some)
                .then_some(Call::PassedOver)
        }
        [b"model" | b"trees" | b"log"] => Some(Call::PassedOver),
        _ => None,
    }
}

/// Decimal, without leading zeros, of 64 bits.
fn read_number(field: &[u8]) -> Option<u64> {
    let leading_zero = field.len() > 1 && field.starts_with(b"0");
    if leading_zero || !field.iter().all(u8::is_ascii_digit) {
        return None;
    }
    std::str::from_utf8(field).ok()?.parse().ok()
}

#[cfg(test)]
mod tests {
    use super::*;

    #[test]
    fn calls_of_every_form() {
        let list = b"merge,1\nrollback,18446744073709551615\nrange,0,3,0\nmodel\ntrees\nlog\n";
        let mut calls = vec![Call::Merge(FileId(1)), Call::Rollback(Mark(u64::MAX))];
        calls.extend((0..4).map(|_| Call::PassedOver));
        assert_eq!(read(list), Ok(calls));
        assert_eq!(read(b""), Ok(vec![]));
    }

    #[test]
    fn lines_of_another_form() {
        for line in [
            "",
            "merge",
            "merge,",
            "merge,01",
            "merge,+1",
            "merge,-1",
            "merge, 1",
            "merge,1 ",
            "merge,1,",
            "merge,18446744073709551616",
            "rollback,00",
            "rollback",
            "range,0,3",
            "range,0,3,x",
            "model,",
            "Log",
            "log\r",
            "trees,0",
            "mark",
            "#",
        ] {
            assert_eq!(
                read(format!("log\n{line}\nlog\n").as_bytes()),
                Err(2),
                "{line}"
            );
        }
        assert_eq!(read(b"log\nlog"), Err(2));
    }
}

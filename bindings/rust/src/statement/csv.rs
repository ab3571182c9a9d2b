//! The statement for a spreadsheet.

use std::borrow::Cow;
use std::fmt;

use super::{file_list, Counted, Delivery, Rollback, State, Statement};

/// The columns, in their order; `docs/STATEMENT.md` says what each has.
const HEADER: &str = "row,call,file,state,imported,restricted,extended,sum,standing,\
    kind,element,path,files,withdrawn_by,rollback_to,refusal,reason";

impl Statement {
    /// The statement as comma-separated values: a header line, then a row for each delivery's counts, one for each entry
    /// behind its delivery, and one for each rollback.
    pub fn to_csv(&self) -> String {
        Csv(self).to_string()
    }
}

struct Csv<'a>(&'a Statement);

impl fmt::Display for Csv<'_> {
    fn fmt(&self, f: &mut fmt::Formatter<'_>) -> fmt::Result {
        writeln!(f, "{HEADER}")?;
        for delivery in &self.0.deliveries {
            Row::of_delivery(delivery).fmt(f)?;
            for entry in &delivery.entries {
                Row::of_entry(delivery, entry).fmt(f)?;
            }
        }
        for rollback in &self.0.rollbacks {
            Row::of_rollback(rollback).fmt(f)?;
        }
        Ok(())
    }
}

/// A row by its columns; a number that is missing and an empty text are empty fields.
#[derive(Default)]
struct Row<'a> {
    row: &'a str,
    call: u64,
    file: Option<u64>,
    state: &'a str,
    imported: Option<u64>,
    restricted: Option<u64>,
    extended: Option<u64>,
    sum: Option<u64>,
    standing: Option<u64>,
    kind: String,
    element: Option<u64>,
    path: &'a str,
    files: String,
    withdrawn_by: Option<u64>,
    rollback_to: Option<u64>,
    refusal: Option<u64>,
    reason: String,
}

impl<'a> Row<'a> {
    /// What delivery and entry rows share.
    fn new(row: &'a str, delivery: &Delivery) -> Row<'a> {
        let (withdrawn_by, rollback_to) = match delivery.state {
            State::Withdrawn { call, mark } => (Some(call), Some(mark.get())),
            _ => (None, None),
        };
        Row {
            row,
            call: delivery.call,
            file: Some(delivery.file.get()),
            state: delivery.state.word(),
            withdrawn_by,
            rollback_to,
            ..Row::default()
        }
    }

    fn of_delivery(delivery: &Delivery) -> Row<'a> {
        let sum = delivery.counts.total();
        let stands = delivery.state == State::Stands;
        Row {
            imported: Some(delivery.counts.imports),
            restricted: Some(delivery.counts.restrictions),
            extended: Some(delivery.counts.extensions),
            sum: Some(sum),
            standing: Some(if stands { sum } else { 0 }),
            refusal: match &delivery.state {
                State::Refused { refusal, .. } => Some(refusal.number()),
                _ => None,
            },
            reason: delivery.state.reason(),
            ..Row::new("delivery", delivery)
        }
    }

    fn of_entry(delivery: &Delivery, entry: &'a Counted) -> Row<'a> {
        Row {
            kind: entry.kind.to_string(),
            element: Some(entry.element.get()),
            path: &entry.path,
            files: file_list(entry.files.iter()),
            ..Row::new("entry", delivery)
        }
    }

    fn of_rollback(rollback: &Rollback) -> Row<'a> {
        let refusal = rollback.answer.err();
        Row {
            row: "rollback",
            call: rollback.call,
            state: if refusal.is_none() { "made" } else { "refused" },
            rollback_to: Some(rollback.mark.get()),
            refusal: refusal.map(|refusal| refusal.number()),
            reason: refusal
                .map(|refusal| refusal.to_string())
                .unwrap_or_default(),
            ..Row::default()
        }
    }
}

impl fmt::Display for Row<'_> {
    fn fmt(&self, f: &mut fmt::Formatter<'_>) -> fmt::Result {
        let number = |number: Option<u64>| number.map(|number| number.to_string());
        let number = |field| number(field).unwrap_or_default();
        let fields = [
            self.row,
            &self.call.to_string(),
            &number(self.file),
            self.state,
            &number(self.imported),
            &number(self.restricted),
            &number(self.extended),
            &number(self.sum),
            &number(self.standing),
            &self.kind,
            &number(self.element),
            self.path,
            &self.files,
            &number(self.withdrawn_by),
            &number(self.rollback_to),
            &number(self.refusal),
            &self.reason,
        ];
        let fields: Vec<Cow<'_, str>> = fields.into_iter().map(quoted).collect();
        writeln!(f, "{}", fields.join(","))
    }
}

/// In quotes where the field has a comma, a quote or a line's end; its own quotes are doubled.
fn quoted(field: &str) -> Cow<'_, str> {
    if field.contains([',', '"', '\n', '\r']) {
        format!("\"{}\"", field.replace('"', "\"\"")).into()
    } else {
        field.into()
    }
}

#[cfg(test)]
mod tests {
    use super::*;

    #[test]
    fn fields_are_quoted_where_they_must_be() {
        for (field, written) in [
            ("", ""),
            ("/engine", "/engine"),
            ("/a b'c;d", "/a b'c;d"),
            ("a,b", "\"a,b\""),
            ("\"", "\"\"\"\""),
            ("say \"x\"", "\"say \"\"x\"\"\""),
            ("two\nlines", "\"two\nlines\""),
            ("\r", "\"\r\""),
        ] {
            assert_eq!(quoted(field), written);
        }
    }
}

//! The statement for the terminal.

use std::fmt;

use super::{count_values, file_list, Rollback, Statement, COUNT_NAMES};

/// Two spaces part the columns.
const GAP: &str = "  ";

impl fmt::Display for Statement {
    fn fmt(&self, f: &mut fmt::Formatter<'_>) -> fmt::Result {
        writeln!(f, "{}", self.heading())?;
        write_deliveries(self, f)?;
        write_totals(self, f)?;
        write_entries(self, f)?;
        write_rollbacks(self, f)?;
        let waiting = self.waiting();
        if !waiting.is_empty() {
            writeln!(f, "\nFiles that still wait: {}", file_list(waiting))?;
        }
        Ok(())
    }
}

fn write_deliveries(statement: &Statement, f: &mut fmt::Formatter<'_>) -> fmt::Result {
    let mut rows = vec![row(&["call", "file"], &COUNT_NAMES, &["state"])];
    for delivery in &statement.deliveries {
        let numbers = [delivery.call, delivery.file.get()];
        let state = [delivery.state.to_string()];
        rows.push(row(&numbers, &count_values(delivery.counts), &state));
    }
    writeln!(f, "\nDeliveries")?;
    write_columns(&rows, 6, f)
}

fn row(first: &[impl ToString], counts: &[impl ToString], last: &[impl ToString]) -> Vec<String> {
    let mut fields: Vec<String> = first.iter().map(ToString::to_string).collect();
    fields.extend(counts.iter().map(ToString::to_string));
    fields.extend(last.iter().map(ToString::to_string));
    fields
}

fn write_totals(statement: &Statement, f: &mut fmt::Formatter<'_>) -> fmt::Result {
    let none: [&str; 0] = [];
    let mut rows = vec![row(&["file"], &COUNT_NAMES, &none)];
    for file in &statement.delivered {
        let counts = count_values(statement.total_of(*file));
        rows.push(row(&[file], &counts, &none));
    }
    rows.push(row(&["all"], &count_values(statement.total()), &none));
    writeln!(f, "\nTotals of what stands")?;
    write_columns(&rows, 5, f)
}

fn write_entries(statement: &Statement, f: &mut fmt::Formatter<'_>) -> fmt::Result {
    for delivery in &statement.deliveries {
        if delivery.entries.is_empty() {
            continue;
        }
        let (call, file, state) = (delivery.call, delivery.file, &delivery.state);
        writeln!(f, "\nCall {call}, file {file} ({state})")?;
        let rows: Vec<Vec<String>> = delivery
            .entries
            .iter()
            .map(|entry| {
                vec![
                    entry.kind.to_string(),
                    entry.path.clone(),
                    format!("element {}", entry.element),
                    format!("files {}", file_list(entry.files.iter())),
                ]
            })
            .collect();
        write_columns(&rows, 0, f)?;
    }
    Ok(())
}

fn write_rollbacks(statement: &Statement, f: &mut fmt::Formatter<'_>) -> fmt::Result {
    if statement.rollbacks.is_empty() {
        return Ok(());
    }
    writeln!(f, "\nRollbacks")?;
    for rollback in &statement.rollbacks {
        writeln!(f, "{GAP}{rollback}")?;
    }
    Ok(())
}

impl fmt::Display for Rollback {
    fn fmt(&self, f: &mut fmt::Formatter<'_>) -> fmt::Result {
        write!(f, "call {}: rollback to {}: ", self.call, self.mark)?;
        match &self.answer {
            Ok(1) => write!(f, "1 entry taken off"),
            Ok(entries) => write!(f, "{entries} entries taken off"),
            Err(refusal) => write!(f, "refused: {refusal}"),
        }
    }
}

/// Rows as columns, each as wide as its widest field; the first `right` of them are set to the right.
fn write_columns(rows: &[Vec<String>], right: usize, f: &mut fmt::Formatter<'_>) -> fmt::Result {
    let columns = rows.iter().map(Vec::len).max().unwrap_or(0);
    let widths: Vec<usize> = (0..columns)
        .map(|column| {
            let fields = rows.iter().filter_map(|row| row.get(column));
            fields.map(|field| field.chars().count()).max().unwrap_or(0)
        })
        .collect();
    for row in rows {
        let mut line = String::new();
        for (column, (field, &width)) in row.iter().zip(&widths).enumerate() {
            line += GAP;
            line += &match column < right {
                true => format!("{field:>width$}"),
                false => format!("{field:<width$}"),
            };
        }
        writeln!(f, "{}", line.trim_end())?;
    }
    Ok(())
}

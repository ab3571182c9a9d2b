//! The statement as a page: one file that needs no other, and no network.

use std::fmt::{self, Formatter};

use super::{count_values, file_list, Statement, COUNT_NAMES};
use crate::model::Counts;
use crate::numbers::Name;
use crate::tree::{Element, Item, Text};

const STYLE: &str = include_str!("page.css");
const SCRIPT: &str = include_str!("page.js");

impl Statement {
    /// The statement and the model as one page of HTML. In the model each element shows the files that it belongs to; a script
    /// of the page shows the elements of one file alone.
    pub fn to_html(&self) -> String {
        Page(self).to_string()
    }
}

/// A text with the characters replaced that mean something in HTML.
struct Escaped<'a>(&'a str);

impl fmt::Display for Escaped<'_> {
    fn fmt(&self, f: &mut Formatter<'_>) -> fmt::Result {
        for character in self.0.chars() {
            match character {
                '&' => f.write_str("&amp;")?,
                '<' => f.write_str("&lt;")?,
                '>' => f.write_str("&gt;")?,
                '"' => f.write_str("&quot;")?,
                '\'' => f.write_str("&#39;")?,
                _ => write!(f, "{character}")?,
            }
        }
        Ok(())
    }
}

struct Page<'a>(&'a Statement);

impl fmt::Display for Page<'_> {
    fn fmt(&self, f: &mut Formatter<'_>) -> fmt::Result {
        let statement = self.0;
        write_head(statement, f)?;
        write_deliveries(statement, f)?;
        write_totals(statement, f)?;
        write_entries(statement, f)?;
        write_rollbacks(statement, f)?;
        write_model(statement, f)?;
        write!(f, "<script>\n{SCRIPT}</script>\n</body>\n</html>\n")
    }
}

fn write_head(statement: &Statement, f: &mut Formatter<'_>) -> fmt::Result {
    let title = statement.heading();
    let title = Escaped(&title);
    write!(
        f,
        "<!DOCTYPE html>\n<html lang=\"en\">\n<head>\n<meta charset=\"utf-8\">\n\
        <meta name=\"viewport\" content=\"width=device-width, initial-scale=1\">\n\
        <meta http-equiv=\"Content-Security-Policy\" content=\"default-src 'none'; style-src 'unsafe-inline'; script-src 'unsafe-inline'\">\n\
        <title>{title}</title>\n<style>\n{STYLE}</style>\n</head>\n<body>\n<h1>Statement</h1>\n"
    )?;
    if !statement.source.is_empty() {
        let source = Escaped(&statement.source);
        writeln!(f, "<p class=\"quiet\">{source}</p>")?;
    }
    let total = statement.total();
    writeln!(
        f,
        "<p class=\"due\"><strong>{}</strong> is the sum of what stands: {} imported, {} restricted, {} extended.</p>",
        total.total(),
        total.imports,
        total.restrictions,
        total.extensions
    )
}

fn write_count_names(f: &mut Formatter<'_>) -> fmt::Result {
    for name in COUNT_NAMES {
        write!(f, "<th class=\"number\">{name}</th>")?;
    }
    Ok(())
}

fn write_counts(counts: Counts, f: &mut Formatter<'_>) -> fmt::Result {
    for count in count_values(counts) {
        write!(f, "<td class=\"number count\">{count}</td>")?;
    }
    Ok(())
}

fn write_deliveries(statement: &Statement, f: &mut Formatter<'_>) -> fmt::Result {
    write!(
        f,
        "<h2>Deliveries</h2>\n<div class=\"scroll\"><table>\n<thead><tr><th class=\"number\">call</th><th class=\"number\">file</th>"
    )?;
    write_count_names(f)?;
    write!(f, "<th>state</th></tr></thead>\n<tbody>\n")?;
    for delivery in &statement.deliveries {
        write!(
            f,
            "<tr class=\"{}\"><td class=\"number\">{}</td><td class=\"number\">{}</td>",
            delivery.state.word(),
            delivery.call,
            delivery.file
        )?;
        write_counts(delivery.counts, f)?;
        writeln!(
            f,
            "<td class=\"state\">{}</td></tr>",
            Escaped(&delivery.state.to_string())
        )?;
    }
    write!(f, "</tbody>\n</table></div>\n")?;
    let waiting = statement.waiting();
    if !waiting.is_empty() {
        writeln!(
            f,
            "<p class=\"quiet\">Files that still wait: {}</p>",
            file_list(waiting)
        )?;
    }
    Ok(())
}

fn write_totals(statement: &Statement, f: &mut Formatter<'_>) -> fmt::Result {
    write!(
        f,
        "<h2>Totals of what stands</h2>\n<div class=\"scroll\"><table class=\"totals\">\n<thead><tr><th>file</th>"
    )?;
    write_count_names(f)?;
    write!(f, "</tr></thead>\n<tbody>\n")?;
    for file in &statement.delivered {
        write!(f, "<tr><td>{file}</td>")?;
        write_counts(statement.total_of(*file), f)?;
        writeln!(f, "</tr>")?;
    }
    write!(f, "</tbody>\n<tfoot><tr><th>all</th>")?;
    write_counts(statement.total(), f)?;
    write!(f, "</tr></tfoot>\n</table></div>\n")
}

fn write_entries(statement: &Statement, f: &mut Formatter<'_>) -> fmt::Result {
    let mut counted = statement
        .deliveries
        .iter()
        .filter(|delivery| !delivery.entries.is_empty())
        .peekable();
    if counted.peek().is_some() {
        writeln!(f, "<h2>What is counted</h2>")?;
    }
    for delivery in counted {
        write!(
            f,
            "<section class=\"{}\">\n<h3>Call {}, file {} <span class=\"quiet\">{}</span></h3>\n<div class=\"scroll\"><table>\n\
            <thead><tr><th>what</th><th>element</th><th class=\"number\">number</th><th class=\"number\">files</th></tr></thead>\n<tbody>\n",
            delivery.state.word(),
            delivery.call,
            delivery.file,
            Escaped(&delivery.state.to_string())
        )?;
        for entry in &delivery.entries {
            writeln!(
                f,
                "<tr><td class=\"kind\">{}</td><td><code>{}</code></td><td class=\"number\">{}</td><td class=\"number\">{}</td></tr>",
                entry.kind,
                Escaped(&entry.path),
                entry.element,
                file_list(entry.files.iter())
            )?;
        }
        write!(f, "</tbody>\n</table></div>\n</section>\n")?;
    }
    Ok(())
}

fn write_rollbacks(statement: &Statement, f: &mut Formatter<'_>) -> fmt::Result {
    if statement.rollbacks.is_empty() {
        return Ok(());
    }
    writeln!(f, "<h2>Rollbacks</h2>")?;
    for rollback in &statement.rollbacks {
        let class = if rollback.answer.is_ok() {
            "made"
        } else {
            "refused"
        };
        writeln!(
            f,
            "<p class=\"{class}\">{}</p>",
            Escaped(&rollback.to_string())
        )?;
    }
    Ok(())
}

fn write_model(statement: &Statement, f: &mut Formatter<'_>) -> fmt::Result {
    let root = statement.model.root();
    write!(
        f,
        "<h2>The model</h2>\n<p class=\"quiet\">Each element, with the files that it belongs to.</p>\n\
        <div id=\"filter\" hidden><label>Show the elements of <select id=\"file\">\n<option value=\"\">all files</option>\n"
    )?;
    for file in root.own_files().iter() {
        writeln!(f, "<option value=\"{file}\">file {file}</option>")?;
    }
    write!(
        f,
        "</select></label><output id=\"shown\"></output></div>\n<ul class=\"tree\">\n"
    )?;
    write_element(root, f)?;
    writeln!(f, "</ul>")
}

/// An element in one line, and its content below it. A text that is all of the content stands in the element's line.
fn write_element(element: Element<'_>, f: &mut Formatter<'_>) -> fmt::Result {
    let files = element.effective_files();
    write!(f, "<li data-files=\"{}\"><p>", file_list(files.iter()))?;
    let name = element_name(element.name());
    match element.item_name() {
        Some(item_name) => write!(
            f,
            "<b>{}</b> <small>{name}, element {}</small>",
            Escaped(item_name),
            element.id()
        )?,
        None => write!(f, "{name} <small>element {}</small>", element.id())?,
    }
    if let Some(text) = element.text() {
        write!(f, " ")?;
        write_text(text, f)?;
    }
    write!(f, " <span class=\"files\">")?;
    for file in files.iter() {
        write!(f, "<span class=\"file\">{file}</span>")?;
    }
    write!(f, "</span></p>")?;
    if element.text().is_none() && element.items().len() > 0 {
        writeln!(f, "<ul>")?;
        for item in element.items() {
            match item {
                Item::Element(child) => write_element(child, f)?,
                Item::Text(text) => {
                    write!(f, "<li><p>")?;
                    write_text(text, f)?;
                    writeln!(f, "</p></li>")?;
                }
            }
        }
        write!(f, "</ul>")?;
    }
    writeln!(f, "</li>")
}

fn element_name(name: Name) -> String {
    match name {
        Name::ROOT => "root".into(),
        Name::SHORT_NAME => "SHORT-NAME".into(),
        Name::DEFINITION_REF => "DEFINITION-REF".into(),
        _ => format!("name {name}"),
    }
}

fn write_text(text: Text<'_>, f: &mut Formatter<'_>) -> fmt::Result {
    match text {
        Text::Enum(number) => write!(f, "<code>enum {number}</code>"),
        Text::String(string) => write!(f, "<code>&quot;{}&quot;</code>", Escaped(string)),
        Text::Unsigned(number) => write!(f, "<code>{number}</code>"),
        Text::Float(float) => write!(f, "<code>{float:?}</code>"),
    }
}

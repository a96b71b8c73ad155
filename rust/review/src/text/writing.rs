//! An event written as a text, which is read back as the same event.

use crate::event::{Event, EventRow};
use crate::names::{counted, written};
use crate::row_words::{row_words, verb};

/// The text of an event.
pub fn write(event: &Event) -> String {
    let mut lines = vec![heading(event)];
    lines.extend(
        event
            .name
            .iter()
            .map(|name| format!("event {}", written(name))),
    );
    if !event.variables.is_empty() {
        lines.push(format!("variables {}", all_written(event.variables.iter())));
    }
    if !event.plug_ins.is_empty() {
        lines.push(format!("plug-ins {}", all_written(event.plug_ins.iter())));
    }
    lines.extend(event.rows.iter().map(|row| statement(event, row)));
    if !event.order.is_empty() {
        let names = event.order.iter().map(|request| event.plug_in(*request));
        lines.push(format!("most important first: {}", all_written(names)));
    }
    lines.push(String::new());
    lines.join("\n")
}

/// A comment that tells the sizes, so that no text is empty.
fn heading(event: &Event) -> String {
    format!(
        "# {}, {}, {}",
        counted(event.variables.len(), "variable"),
        counted(event.plug_ins.len(), "plug-in"),
        counted(event.rows.len(), "row")
    )
}

/// Names with commas between them.
fn all_written(names: impl Iterator<Item = impl AsRef<str>>) -> String {
    let names: Vec<String> = names.map(|name| written(name.as_ref())).collect();
    names.join(", ")
}

/// A row as a statement.
fn statement(event: &Event, row: &EventRow) -> String {
    let owner = match row.row.role {
        0 => "host".to_string(),
        request => written(event.plug_in(request)),
    };
    format!("{owner} {} {}", verb(row), row_words(event, row))
}

//! Every row in words, under its owner: what the host allows and requires, and what each plug-in requests.

use crate::event::{Event, EventRow};
use crate::page::document::{paragraph, section};
use crate::page::html::Html;
use crate::page::told::{PlugIn, Told};
use crate::row_words::{row_pieces, verb, Piece};

/// What the host allows and requires.
pub fn host_rows(event: &Event) -> Html {
    let item = |row| {
        let verb = Html::text(verb(row)).say(" ");
        Html::element("li", &[], verb.and(words(event, row)))
    };
    let items: Vec<Html> = rows_of(event, 0).map(item).collect();
    let content = match items.is_empty() {
        true => paragraph(Html::text("The host sets no limits: it allows everything.")),
        false => Html::element("ul", &[("class", "rows")], items.into_iter().collect()),
    };
    section("host", "What the host allows and requires", content)
}

/// What each plug-in requests.
pub fn plug_in_rows(event: &Event, told: &Told) -> Html {
    if told.plug_ins.is_empty() {
        return Html::nothing();
    }
    let requests = told.plug_ins.iter().map(|one| requests_of(event, one));
    let content = Html::element("dl", &[("class", "requests")], requests.collect());
    section("requests", "What each plug-in requests", content)
}

/// A plug-in and its rows.
fn requests_of(event: &Event, plug_in: &PlugIn) -> Html {
    let name = Html::element("dt", &[], plug_in.ranked());
    let rows = rows_of(event, plug_in.request).map(|row| words(event, row));
    let mut rows: Vec<Html> = rows.collect();
    if rows.is_empty() {
        rows.push(Html::text("nothing, so it stands in nobody's way"));
    }
    let rows = rows.into_iter().map(|row| Html::element("dd", &[], row));
    Html::element("div", &[], name.and(rows.collect()))
}

/// The rows of a role.
fn rows_of(event: &Event, role: u16) -> impl Iterator<Item = &EventRow> {
    let own = move |row: &&EventRow| row.row.role == role;
    event.rows.iter().filter(own)
}

/// A row in words.
fn words(event: &Event, row: &EventRow) -> Html {
    let html = |piece| match piece {
        Piece::Words(words) => Html::text(&words),
        Piece::Name(name) => Html::name(&name),
    };
    row_pieces(event, row).into_iter().map(html).collect()
}

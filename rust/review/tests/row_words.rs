//! The words of a row are those of the language of event texts.

mod shapes;

use hainscope::{refuses, wants};
use review::event::Event;
use review::row_words::{row_pieces, row_words, Piece};

/// The words of the last row of an event.
fn last(event: &Event) -> String {
    row_words(event, event.rows.last().expect("a row"))
}

/// An event with names of both sorts, and no rows.
fn event() -> Event {
    shapes::event("", &["gps", "battery pack", "on", "a\"b\\c"], &["Map"])
}

#[test]
fn clauses() {
    assert_eq!(last(&shapes::clause(event(), 1, &[wants(0)])), "gps on");
    assert_eq!(
        last(&shapes::clause(event(), 1, &[wants(0), refuses(1)])),
        "gps on or \"battery pack\" off"
    );
    assert_eq!(last(&shapes::clause(event(), 0, &[])), "the impossible");
    assert_eq!(last(&shapes::clause(event(), 0, &[wants(2)])), "\"on\" on");
    assert_eq!(
        last(&shapes::clause(event(), 0, &[wants(3)])),
        "\"a\\\"b\\\\c\" on"
    );
}

#[test]
fn budgets() {
    let terms = [(0, 1500), (1, -1400)];
    assert_eq!(
        last(&shapes::budget(event(), 0, "bib map rows", 4000, &terms)),
        "at most 4000 of \"bib map rows\": gps takes 1500, \"battery pack\" takes -1400"
    );
    assert_eq!(
        last(&shapes::budget(event(), 0, "", 4000, &terms[..1])),
        "at most 4000: gps takes 1500"
    );
    assert_eq!(
        last(&shapes::budget(event(), 0, "", 5, &[])),
        "at most 5: nothing"
    );
}

#[test]
fn names_are_apart_from_words() {
    let event = shapes::clause(event(), 1, &[refuses(1)]);
    let name = Piece::Name("\"battery pack\"".to_string());
    assert_eq!(
        row_pieces(&event, &event.rows[0]),
        [name, Piece::Words(" off".to_string())]
    );
}

//! What a row asks, in the words of an event's text. Names are kept apart from the words around them,
//! so that a page can set them apart as well.

use crate::event::{Event, EventRow};
use crate::names::written;
use hainscope::{variable_of, Condition};

/// A stretch of a row's words.
#[derive(Clone, Debug, PartialEq, Eq)]
pub enum Piece {
    /// Words of the language.
    Words(String),
    /// A name that somebody wrote, as it stands in a text.
    Name(String),
}

/// What its owner does with a row: the host allows budgets and requires clauses, a plug-in requests both.
pub fn verb(EventRow { row, .. }: &EventRow) -> &'static str {
    match (row.role, &row.condition) {
        (0, Condition::Clause(_)) => "requires",
        (0, Condition::Linear { .. }) => "allows",
        _ => "requests",
    }
}

/// What a row asks.
pub fn row_words(event: &Event, row: &EventRow) -> String {
    let text = |piece| match piece {
        Piece::Words(text) | Piece::Name(text) => text,
    };
    row_pieces(event, row).into_iter().map(text).collect()
}

/// What a row asks, names apart.
pub fn row_pieces(event: &Event, row: &EventRow) -> Vec<Piece> {
    match &row.row.condition {
        Condition::Clause(literals) => clause(event, literals),
        Condition::Linear { bound, terms } => budget(event, row.budget.as_deref(), *bound, terms),
    }
}

/// A variable's state in words.
pub fn on_or_off(on: bool) -> &'static str {
    match on {
        true => "on",
        false => "off",
    }
}

/// "gps on or wifi off"; without literals "the impossible".
fn clause(event: &Event, literals: &[u16]) -> Vec<Piece> {
    if literals.is_empty() {
        return vec![Piece::Words("the impossible".to_string())];
    }
    let mut pieces = Vec::new();
    for (place, literal) in literals.iter().enumerate() {
        if place > 0 {
            pieces.push(Piece::Words(" or ".to_string()));
        }
        let (variable, on) = variable_of(*literal);
        pieces.push(name(event.variable(variable)));
        pieces.push(Piece::Words(format!(" {}", on_or_off(on))));
    }
    pieces
}

/// "at most 4000 of rows: tracking takes 1500, splits takes 1400"; without terms "at most 5: nothing".
fn budget(event: &Event, of: Option<&str>, bound: i32, terms: &[(u16, i32)]) -> Vec<Piece> {
    let mut pieces = vec![Piece::Words(format!("at most {bound}"))];
    if let Some(of) = of {
        pieces.push(Piece::Words(" of ".to_string()));
        pieces.push(name(of));
    }
    pieces.push(Piece::Words(": ".to_string()));
    if terms.is_empty() {
        pieces.push(Piece::Words("nothing".to_string()));
    }
    for (place, (variable, weight)) in terms.iter().enumerate() {
        if place > 0 {
            pieces.push(Piece::Words(", ".to_string()));
        }
        pieces.push(name(event.variable(*variable)));
        pieces.push(Piece::Words(format!(" takes {weight}")));
    }
    pieces
}

/// A name as it stands in a text.
fn name(name: &str) -> Piece {
    Piece::Name(written(name))
}

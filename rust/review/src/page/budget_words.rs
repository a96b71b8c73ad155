//! What is said of a budget's claims in words.

use crate::event::{Budget, Event};
use crate::page::claims::{takings, Claims, Taking};
use crate::page::document::paragraph;
use crate::page::html::Html;
use crate::row_words::on_or_off;

/// Where there are no claims.
pub const NOBODY: &str = "Nobody requests any of it outright.";

/// How much is claimed of how much: "2900 claimed of 4000: 1100 left".
pub fn sum(claims: &Claims) -> String {
    let (total, room) = (claims.total(), claims.room);
    let rest = match room - total {
        0 => "nothing left".to_string(),
        left if left > 0 => format!("{left} left"),
        beyond => format!("{} beyond the limit", beyond.abs()),
    };
    format!("{total} claimed of {room}: {rest}")
}

/// What takes something and is requested by nobody outright.
pub fn unclaimed(event: &Event, claims: &Claims) -> Html {
    let them = match claims.unclaimed.len() {
        0 => return Html::nothing(),
        1 => "it",
        _ => "them",
    };
    let part = |taking: &Taking| {
        let state = on_or_off(taking.state.on);
        let takes = format!(" {state} takes {}", taking.amount);
        Html::name(event.variable(taking.state.variable)).say(&takes)
    };
    let parts = Html::listed(claims.unclaimed.iter().map(part).collect());
    let words = format!("Not counted, since nobody requests {them} outright: ");
    paragraph(Html::text(&words).and(parts).say("."))
}

/// What gives something to the budget, and how that is counted.
pub fn given(event: &Event, budget: &Budget, claims: &Claims) -> Html {
    let takings = takings(budget.terms);
    let gives = takings.iter().filter(|taking| !taking.state.on);
    let part = |taking: &Taking| {
        let name = Html::name(event.variable(taking.state.variable));
        name.say(&format!(" gives {}", taking.amount))
    };
    let parts: Vec<Html> = gives.map(part).collect();
    let where_on = match parts.len() {
        0 => return Html::nothing(),
        1 => " where it is on.",
        _ => ", each where it is on.",
    };
    let counted = " The bars count this as room, and as taken where off is requested.";
    let limit = format!(
        " So the host's limit of {} stands at {}.",
        budget.bound, claims.room
    );
    let sentences = Html::listed(parts).say(where_on).say(counted).say(&limit);
    paragraph(sentences)
}

/// Words with a capital at their start.
pub fn capitalised(words: &str) -> String {
    let mut letters = words.chars();
    match letters.next() {
        Some(first) => first.to_uppercase().chain(letters).collect(),
        None => String::new(),
    }
}

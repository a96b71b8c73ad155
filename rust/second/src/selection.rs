//! Selections: "lent as a u64, request r at bit r-1" (document 01, "Meaning"),
//! and the two ways to say which of two selections comes first.

/// Some requests of a table.
pub type Selection = u64;

/// No request.
pub const NONE: Selection = 0;

/// The selection of one request.
pub fn only(request: u16) -> Selection {
    1 << (request - 1)
}

/// The selection of the requests of a list.
pub fn selection_of(list: &[u16]) -> Selection {
    list.iter()
        .fold(NONE, |selection, request| selection | only(*request))
}

/// Whether a request is in a selection.
pub fn holds(selection: Selection, request: u16) -> bool {
    selection & only(request) != 0
}

/// The requests of a selection in a list's order.
pub fn listed(selection: Selection, order: &[u16]) -> Vec<u16> {
    let held = |request: &u16| holds(selection, *request);
    order.iter().copied().filter(held).collect()
}

/// Whether a selection names a request above N.
pub fn names_above(selection: Selection, requests: u16) -> bool {
    (requests + 1..=Selection::BITS as u16).any(|request| holds(selection, request))
}

/// Definition 6: "look at the least important request where two selections differ; the one
/// without it comes first".
pub fn before_in_definition_6(x: Selection, y: Selection, order: &[u16]) -> bool {
    let differs = |request: &&u16| holds(x, **request) != holds(y, **request);
    let least_important = order.iter().rev().find(differs);
    least_important.is_some_and(|request| !holds(x, *request))
}

/// Definition 3: "look at the most important difference; the one with it comes first".
pub fn before_in_definition_3(x: Selection, y: Selection, order: &[u16]) -> bool {
    let differs = |request: &&u16| holds(x, **request) != holds(y, **request);
    let most_important = order.iter().find(differs);
    most_important.is_some_and(|request| holds(x, *request))
}

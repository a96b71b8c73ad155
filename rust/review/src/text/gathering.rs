//! The event of a text's statements: names become numbers, and all is held to the limits of a table.
//! A statement may use what a later one declares.

use super::declared::{Declared, Known};
use super::mistake::Mistakes;
use super::ordering::order;
use super::places::{Name, Place};
use super::rows::rows;
use super::statement::Statement;
use crate::event::Event;
use crate::names::ordinal;
use hainscope::{MOST_REQUESTS, MOST_TABLE_BYTES, MOST_VARIABLES};

/// The event of some statements.
pub(super) fn event(statements: &[Statement]) -> Result<Event, Mistakes> {
    let mut mistakes = Mistakes::default();
    let variables = statements.iter().flat_map(|statement| match statement {
        Statement::Variables(names) => names.as_slice(),
        _ => &[],
    });
    let plug_ins = statements.iter().flat_map(|statement| match statement {
        Statement::PlugIns(names) => names.as_slice(),
        _ => &[],
    });
    let variables = Declared::of("variable", MOST_VARIABLES, variables, &mut mistakes);
    let plug_ins = Declared::of("plug-in", MOST_REQUESTS, plug_ins, &mut mistakes);
    let known = Known {
        variables,
        plug_ins,
    };
    mistakes.unless_none()?;
    let name = event_name(statements, &mut mistakes);
    let (rows, places) = rows(statements, &known, &mut mistakes);
    let order = order(statements, &known, &mut mistakes);
    mistakes.unless_none()?;
    let event = Event {
        name,
        variables: known.variables.names(),
        plug_ins: known.plug_ins.names(),
        rows,
        order,
    };
    short_enough(&event, &places)?;
    Ok(event)
}

/// The event's name, which may be given once.
fn event_name(statements: &[Statement], mistakes: &mut Mistakes) -> Option<String> {
    let mut given: Option<&Name> = None;
    for statement in statements {
        let Statement::Event(name) = statement else {
            continue;
        };
        if let Some(first) = given {
            let line = first.place.line;
            let words = format!("the event is named twice, first on line {line}");
            mistakes.add(name.place.mistake(words));
        }
        given = given.or(Some(name));
    }
    given.map(|name| name.name.clone())
}

/// Whether the event's table has no more bytes than a table may have; the mistake is at the row that
/// passes them.
fn short_enough(event: &Event, places: &[Place]) -> Result<(), Mistakes> {
    let length = |rows: usize| {
        let rows = event.rows[..rows].to_vec();
        Event {
            rows,
            ..event.clone()
        }
        .table()
        .len()
    };
    let all = length(places.len());
    if all <= MOST_TABLE_BYTES {
        return Ok(());
    }
    let passing = (1..places.len()).find(|rows| length(*rows) > MOST_TABLE_BYTES);
    let passing = passing.unwrap_or(places.len());
    let place = places[passing - 1];
    let words = format!(
        "the {} row takes the event to {} bytes as a table, at most {MOST_TABLE_BYTES}",
        ordinal(passing),
        length(passing)
    );
    Err(Mistakes::from(place.mistake(words)))
}

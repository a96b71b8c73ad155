//! The rows of an event, from statements with names to numbers within the limits of a table.

use super::declared::Known;
use super::mistake::{Mistake, Mistakes};
use super::places::{shown, Name, Number, Place};
use super::statement::{StatedCondition, StatedRow, Statement};
use crate::event::EventRow;
use crate::names::{ordinal, written};
use hainscope::{
    refuses, wants, Condition, Row, MOST_LITERALS, MOST_ROWS, MOST_TERMS, MOST_WEIGHT,
};
use std::ops::RangeInclusive;

/// The rows, each with the place of its statement.
pub(super) fn rows(
    statements: &[Statement],
    known: &Known,
    mistakes: &mut Mistakes,
) -> (Vec<EventRow>, Vec<Place>) {
    let (mut rows, mut places) = (Vec::new(), Vec::new());
    for statement in statements {
        let Statement::Row(stated) = statement else {
            continue;
        };
        if mistakes.are_enough() {
            break;
        }
        places.push(stated.place);
        if places.len() == MOST_ROWS + 1 {
            let words = format!("the {} row, at most {MOST_ROWS}", ordinal(places.len()));
            mistakes.add(stated.place.mistake(words));
        }
        match row(stated, known) {
            Ok(row) => rows.push(row),
            Err(mistake) => mistakes.add(mistake),
        }
    }
    (rows, places)
}

/// A row with numbers for its names.
fn row(stated: &StatedRow, known: &Known) -> Result<EventRow, Mistake> {
    let (role, owner) = match &stated.plug_in {
        None => (0, "the host".to_string()),
        Some(name) => (1 + known.plug_in(name)?, written(&name.name)),
    };
    let (condition, budget) = match &stated.condition {
        StatedCondition::Clause(literals) => (clause(literals, &owner, known)?, None),
        StatedCondition::Budget { bound, name, terms } => {
            let name = name.as_ref().map(|name| name.name.clone());
            (linear(bound, terms, &owner, known)?, name)
        }
    };
    let row = Row { role, condition };
    Ok(EventRow { row, budget })
}

/// A clause of a plug-in or the host.
fn clause(literals: &[(Name, bool)], owner: &str, known: &Known) -> Result<Condition, Mistake> {
    if let Some((beyond, _)) = literals.get(MOST_LITERALS) {
        return Err(beyond_the_most(beyond, "literal", MOST_LITERALS, owner));
    }
    let literal = |(name, on): &(Name, bool)| {
        let variable = known.variable(name)?;
        Ok(if *on {
            wants(variable)
        } else {
            refuses(variable)
        })
    };
    let literals = literals.iter().map(literal).collect::<Result<_, _>>()?;
    Ok(Condition::Clause(literals))
}

/// A budget of a plug-in or the host.
fn linear(
    bound: &Number,
    terms: &[(Name, Number)],
    owner: &str,
    known: &Known,
) -> Result<Condition, Mistake> {
    if let Some((beyond, _)) = terms.get(MOST_TERMS) {
        return Err(beyond_the_most(beyond, "term", MOST_TERMS, owner));
    }
    let bound = within(bound, i32::MIN..=i32::MAX, "the number of a budget")?;
    let term = |(name, weight): &(Name, Number)| {
        let variable = known.variable(name)?;
        let weight = within(weight, -MOST_WEIGHT..=MOST_WEIGHT, "what a variable takes")?;
        Ok((variable, weight))
    };
    let terms = terms.iter().map(term).collect::<Result<_, _>>()?;
    Ok(Condition::Linear { bound, terms })
}

/// The mistake that a row has too many literals or terms.
fn beyond_the_most(beyond: &Name, sort: &str, most: usize, owner: &str) -> Mistake {
    let number = ordinal(most + 1);
    let words = format!("the {number} {sort} of {owner}, at most {most} in a row");
    beyond.place.mistake(words)
}

/// A number that is within its limits.
fn within(number: &Number, limits: RangeInclusive<i32>, what: &str) -> Result<i32, Mistake> {
    let value = i32::try_from(number.value).ok();
    value.filter(|value| limits.contains(value)).ok_or_else(|| {
        let (least, most) = (limits.start(), limits.end());
        let written = shown("number", &number.written, number.written.clone());
        let words = format!("{written} is out of range: {what} is {least} to {most}");
        number.place.mistake(words)
    })
}

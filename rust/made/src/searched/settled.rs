//! Rows that every setting meets and rows that none meets, first, last and in the middle of the
//! rows, of the host and of requests that are chosen or not. They are aimed at what is put aside
//! before anything is decided, and at a branch that ends before it has begun.

use super::around::{any_variables, ends_of, Around};
use crate::events::terms;
use crate::plan::{refuses, wants, Plan, Row};
use crate::random::Random;

/// Whom a settled row is met by.
#[derive(Clone, Copy, Debug, PartialEq, Eq)]
pub enum Met {
    /// By every setting.
    ByAll,
    /// By no setting.
    ByNone,
}

/// Where the settled rows stand among the others.
#[derive(Clone, Copy, Debug, PartialEq, Eq)]
pub enum Place {
    /// Before all others.
    First,
    /// With others on both sides.
    Middle,
    /// After all others.
    Last,
}

/// A plan around a setting with one to three settled rows at a place. Rows met by none mostly
/// belong to a request.
pub fn settled(random: &mut Random, met: Met, place: Place) -> Plan {
    let variables = any_variables(random);
    let requests = random.word(1, 4);
    let rows = 2 + random.below(10) + usize::from(variables);
    let mut plan = Around::any(random, variables).plan(random, requests, rows);
    let at = match place {
        Place::First => 0,
        Place::Middle => 1 + random.below(rows - 1),
        Place::Last => rows,
    };
    for _ in 0..1 + random.below(3) {
        let host = met == Met::ByAll || random.chance(1, 12);
        let role = random.word(u16::from(!host), requests);
        let row = match met {
            Met::ByAll => met_by_all(random, role, variables),
            Met::ByNone => met_by_none(random, role, variables),
        };
        plan.rows.insert(at, row);
    }
    plan
}

/// A clause with both literals of a variable, or a linear row with its bound at the most sum or
/// above it.
pub(crate) fn met_by_all(random: &mut Random, role: u16, variables: u16) -> Row {
    if random.chance(1, 2) {
        let variable = random.word(0, variables - 1);
        let mut literals = vec![wants(variable), refuses(variable)];
        let more = random.pick(&[0, 1, 2, 6, 62]);
        literals.extend((0..more).map(|_| random.word(0, 2 * variables - 1)));
        random.shuffle(&mut literals);
        return Row::Clause(role, literals);
    }
    let terms = terms_or_none(random, variables);
    let (_, most) = ends_of(&terms);
    let bound = random.pick(&[most, most, most, most + 1, i32::MAX]);
    Row::Linear(role, bound, terms)
}

/// A clause without literals, or a linear row with its bound below the least sum.
fn met_by_none(random: &mut Random, role: u16, variables: u16) -> Row {
    if random.chance(1, 2) {
        return Row::Clause(role, Vec::new());
    }
    let terms = terms_or_none(random, variables);
    let (least, _) = ends_of(&terms);
    let bound = random.pick(&[least - 1, least - 1, least - 1, least - 2, i32::MIN]);
    Row::Linear(role, bound, terms)
}

/// Terms, or none.
fn terms_or_none(random: &mut Random, variables: u16) -> Vec<(u16, i32)> {
    match random.chance(1, 4) {
        true => Vec::new(),
        false => terms(random, variables),
    }
}

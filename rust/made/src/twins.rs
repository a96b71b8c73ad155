//! A twin: a different table with the same standing selections, number of requests and order,
//! made by changes that keep what every row means.

use crate::plan::{Plan, Row};
use crate::random::Random;

/// A plan that says the same in other rows.
pub fn twin(random: &mut Random, plan: &Plan) -> Plan {
    let mut twin = plan.clone();
    if twin.variables < 20 && random.chance(1, 2) {
        twin.variables += 1;
    }
    let mut names: Vec<u16> = (0..twin.variables).collect();
    random.shuffle(&mut names);
    twin.rows = twin.rows.iter().map(|row| renamed(row, &names)).collect();
    twin.rows = twin.rows.iter().map(|row| reworded(random, row)).collect();
    if !twin.rows.is_empty() && random.chance(1, 2) {
        let row = twin.rows[random.below(twin.rows.len())].clone();
        twin.rows.push(row);
    }
    if twin.requests > 0 && random.chance(1, 2) {
        let role = random.word(1, twin.requests);
        twin.rows.push(Row::Linear(role, 0, Vec::new()));
    }
    random.shuffle(&mut twin.rows);
    twin
}

/// A row with its variables renamed.
pub(crate) fn renamed(row: &Row, names: &[u16]) -> Row {
    let name = |variable: u16| names[usize::from(variable)];
    match row {
        Row::Clause(role, literals) => {
            let literal = |literal: &u16| 2 * name(literal / 2) + literal % 2;
            Row::Clause(*role, literals.iter().map(literal).collect())
        }
        Row::Linear(role, bound, terms) => {
            let term = |(variable, weight): &(u16, i32)| (name(*variable), *weight);
            Row::Linear(*role, *bound, terms.iter().map(term).collect())
        }
    }
}

/// A row that the same settings meet.
fn reworded(random: &mut Random, row: &Row) -> Row {
    match row {
        Row::Clause(role, literals) if random.chance(1, 2) => as_linear(*role, literals),
        Row::Clause(role, literals) => {
            let mut literals = literals.clone();
            if let (Some(first), true) = (literals.first().copied(), literals.len() < 64) {
                literals.push(first);
            }
            random.shuffle(&mut literals);
            Row::Clause(*role, literals)
        }
        Row::Linear(role, bound, terms) => {
            let mut terms = terms.clone();
            if !terms.is_empty() && terms.len() < 20 {
                split(random, &mut terms);
            }
            random.shuffle(&mut terms);
            Row::Linear(*role, *bound, terms)
        }
    }
}

/// A clause as a linear row, where its literals fit the 20 terms: the true literals are at least
/// one exactly if wants and refusals taken with -1 and 1 sum to at most the refusals less one.
pub(crate) fn as_linear(role: u16, literals: &[u16]) -> Row {
    let mut different = literals.to_vec();
    different.sort_unstable();
    different.dedup();
    if different.len() > 20 {
        return Row::Clause(role, different);
    }
    let refusals = different.iter().filter(|literal| *literal % 2 == 1).count();
    let term = |literal: &u16| (literal / 2, if literal % 2 == 1 { 1 } else { -1 });
    Row::Linear(
        role,
        refusals as i32 - 1,
        different.iter().map(term).collect(),
    )
}

/// Names one variable twice, its weight in two parts.
fn split(random: &mut Random, terms: &mut Vec<(u16, i32)>) {
    let place = random.below(terms.len());
    let (variable, weight) = terms[place];
    let part = weight / 3;
    terms[place] = (variable, weight - part);
    terms.push((variable, part));
}

/// A plan made anew from the minimal conflicts alone: request r wants variable r-1, and the host
/// shuts out each minimal conflict. N is at most 20.
pub fn from_conflicts(requests: u16, order: &[u16], minimal: &[u64]) -> Plan {
    let mut plan = Plan::empty(requests, requests).ordered(order);
    for request in 1..=requests {
        plan = plan.clause(request, &[2 * (request - 1)]);
    }
    for conflict in minimal {
        let member = |request: &u16| conflict >> (request - 1) & 1 == 1;
        let refused = |request: u16| 2 * (request - 1) + 1;
        let literals: Vec<u16> = (1..=requests).filter(member).map(refused).collect();
        plan = plan.clause(0, &literals);
    }
    plan
}

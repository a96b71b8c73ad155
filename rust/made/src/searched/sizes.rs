//! Every number of variables, and every number of them that the rows name. They are aimed at the
//! step where few named variables are left and all their values are tried without a look at the
//! rows: eight of them, one fewer, one more, none at all, and variables that nobody names.

use super::around::Around;
use crate::events::sum_at;
use crate::plan::{Plan, Row};
use crate::random::Random;
use crate::twins::renamed;
use std::collections::BTreeSet;

/// With more variables than this the plan has few rows.
const MANY: u16 = 14;

/// A plan of V variables whose rows name so many of them, which stand anywhere among the V.
pub fn sized(random: &mut Random, variables: u16, named: u16) -> Plan {
    let mut around = Around::any(random, named);
    around.missed = random.pick(&[0, 0, 1, 3]);
    let most_rows = match variables > MANY {
        true => 3,
        false => usize::from(named) + 6,
    };
    let requests = random.word(0, 3);
    let rows = random.below(most_rows + 1);
    let mut plan = around.plan(random, requests, rows);
    plan.rows.extend(naming_all(random, &around, requests));
    random.shuffle(&mut plan.rows);
    let mut names: Vec<u16> = (0..variables).collect();
    random.shuffle(&mut names);
    plan.rows = plan.rows.iter().map(|row| renamed(row, &names)).collect();
    plan.variables = variables;
    plan
}

/// A linear row that names all variables, with its bound at the setting's sum or one below; in most
/// plans a second row that keeps the sum from being less than the setting's, so that the two
/// together are met by few settings, or by none.
fn naming_all(random: &mut Random, around: &Around, requests: u16) -> Vec<Row> {
    let reach = random.pick(&[1, 3, 1_000]);
    let weight = |_| random.between(1, reach) as i32 * random.pick(&[-1, 1]);
    let weights: Vec<i32> = (0..around.variables).map(weight).collect();
    let terms: Vec<(u16, i32)> = (0..).zip(weights).collect();
    let sum = sum_at(&terms, around.setting);
    let bound = sum - random.pick(&[0, 0, 1]);
    let opposite = |(variable, weight): &(u16, i32)| (*variable, -weight);
    let opposites = terms.iter().map(opposite).collect();
    let (most, least) = (random.word(0, requests / 2), random.word(0, requests));
    let mut rows = vec![Row::Linear(most, bound, terms)];
    if random.chance(3, 4) {
        rows.push(Row::Linear(least, -sum, opposites));
    }
    rows
}

/// How many different variables the rows of a plan name.
pub fn named_by(plan: &Plan) -> usize {
    let mut named = BTreeSet::new();
    for row in &plan.rows {
        match row {
            Row::Clause(_, literals) => named.extend(literals.iter().map(|literal| literal / 2)),
            Row::Linear(_, _, terms) => named.extend(terms.iter().map(|(variable, _)| *variable)),
        }
    }
    named.len()
}

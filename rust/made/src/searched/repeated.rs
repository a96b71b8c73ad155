//! Rows that repeat a variable with both signs. A linear row of them can be met by all or by none
//! although the ends of its terms, each taken by itself, lie on both sides of the bound: they are
//! aimed at a row that stays open until all its variables are decided.

use super::around::{any_variables, beside, true_literal};
use crate::events::sum_at;
use crate::plan::{Plan, Row};
use crate::random::Random;

/// A plan of such rows: clauses with both literals of a variable and with repeated ones, up
/// to 64 of them, and linear rows that name each variable several times.
pub fn repeated(random: &mut Random) -> Plan {
    let mut plan = Plan::empty(any_variables(random), random.word(0, 4));
    random.shuffle(&mut plan.order);
    let setting = random.bits();
    let missed_of_24 = random.pick(&[0, 1, 3, 8]);
    let clauses_of_4 = random.pick(&[0, 1, 2]);
    for _ in 0..1 + random.below(16) {
        let role = random.word(0, plan.requests);
        let missed = random.chance(missed_of_24, 24);
        let row = match (random.chance(clauses_of_4, 4), random.chance(1, 4)) {
            (true, true) => long_clause(random, role, plan.variables, setting, missed),
            (true, false) => clause(random, role, plan.variables, setting, missed),
            _ => linear(random, role, plan.variables, setting, missed),
        };
        plan.rows.push(row);
    }
    plan
}

/// A clause of repeated literals: of true and false ones of the same variable, or, where the
/// setting misses it, of false ones alone.
fn clause(random: &mut Random, role: u16, variables: u16, setting: u64, missed: bool) -> Row {
    let mut literals = Vec::new();
    for place in 0..1 + random.below(3) {
        let literal = true_literal(random.word(0, variables - 1), setting);
        let has_true = !missed && (place == 0 || random.chance(1, 4));
        if has_true && random.chance(1, 2) {
            literals.push(literal);
        }
        for _ in 0..1 + random.below(3) {
            let is_false = !has_true || random.chance(1, 2);
            literals.push(literal ^ u16::from(is_false));
        }
        if has_true {
            literals.push(literal);
        }
    }
    random.shuffle(&mut literals);
    Row::Clause(role, literals)
}

/// A clause of 64 literals, all of which are false in the setting but, unless it is missed, the
/// last; the others are of one to three variables, and not of the last one's where V is above 1.
fn long_clause(random: &mut Random, role: u16, variables: u16, setting: u64, missed: bool) -> Row {
    let last = random.word(0, variables - 1);
    let other = |_| (last + random.word(variables.min(2) - 1, variables - 1)) % variables;
    let others = [0; 3].map(other);
    let literal = |_| true_literal(random.pick(&others), setting) ^ 1;
    let mut literals: Vec<u16> = (0..63).map(literal).collect();
    literals.push(true_literal(last, setting) ^ u16::from(missed));
    Row::Clause(role, literals)
}

/// A linear row of one to four variables, each named two to five times, with its bound beside the
/// setting's sum, at the most that any setting can have, or, where it is missed, one below the
/// least.
fn linear(random: &mut Random, role: u16, variables: u16, setting: u64, missed: bool) -> Row {
    let mut terms = Vec::new();
    let (mut least, mut most) = (0, 0);
    let mut names: Vec<u16> = (0..variables).collect();
    random.shuffle(&mut names);
    names.truncate(1 + random.below(4));
    for variable in names {
        let together = random.between(0, 3) as i32 * random.pick(&[-1, 1]);
        least += together.min(0);
        most += together.max(0);
        terms.extend(
            parts(random, together)
                .into_iter()
                .map(|part| (variable, part)),
        );
    }
    random.shuffle(&mut terms);
    let bound = match (random.chance(1, 6), missed) {
        (true, true) => least - 1,
        (true, false) => most,
        _ => sum_at(&terms, setting) + beside(random, missed),
    };
    Row::Linear(role, bound, terms)
}

/// Two to five weights, mostly of both signs, that add up to a number.
fn parts(random: &mut Random, together: i32) -> Vec<i32> {
    let reach = random.pick(&[4, 9, 1_000, 249_000]);
    let number = 1 + random.below(4);
    let part = |_| random.between(1, reach) as i32 * random.pick(&[-1, 1]);
    let mut parts: Vec<i32> = (0..number).map(part).collect();
    parts.push(together - parts.iter().sum::<i32>());
    parts
}

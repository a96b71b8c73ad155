//! Linear rows with bounds at, just below and just above a sum that a setting has, and with
//! weights and bounds at both ends. They are aimed at the least and the most sum of a row: a branch
//! that ends one too early loses the setting, a row put aside one too early lets a wrong one pass.

use super::around::{any_variables, ends_of, Around};
use crate::events::sum_at;
use crate::plan::Plan;
use crate::random::Random;

/// The ends of a weight.
const MILLION: i32 = 1_000_000;

/// The weights of one row.
const WEIGHTS: [&[i32]; 5] = [
    &[MILLION],
    &[-MILLION],
    &[-MILLION, MILLION],
    &[-1, 0, 1],
    &[-MILLION, -1, 0, 1, MILLION],
];

/// Many linear rows, in half of the plans among clauses, with bounds at and beside the sums of one
/// setting. With 64 requests there are more rows.
pub fn near_sums(random: &mut Random) -> Plan {
    let variables = any_variables(random);
    let requests = random.pick(&[0, 1, 2, 3, 4, 4, 4, 64]);
    let rows = 2 + random.below(24) + usize::from(requests) / 2;
    Around::any(random, variables).plan(random, requests, rows)
}

/// Linear rows of weights -1,000,000, 1,000,000, 0, 1 and -1, up to 20 terms of them, with bounds
/// at and beside a setting's sum, the least sum, the most sum and both ends of i32. Aimed at sums
/// that are as large as they get, where a number that is too narrow or a sign that is lost shows.
pub fn ends(random: &mut Random) -> Plan {
    let mut plan = Plan::empty(any_variables(random), random.word(1, 4));
    random.shuffle(&mut plan.order);
    let setting = random.bits();
    let missed_of_12 = random.pick(&[0, 1, 1, 4]);
    for _ in 0..1 + random.below(2 * usize::from(plan.variables)) {
        let weights = random.pick(&WEIGHTS);
        let number = random.pick(&[1, 2, 3, 5, 8, 19, 20]);
        let term = |_| (random.word(0, plan.variables - 1), random.pick(weights));
        let terms: Vec<(u16, i32)> = (0..number).map(term).collect();
        let missed = random.chance(missed_of_12, 12);
        let bound = bound_at_an_end(random, &terms, setting, missed);
        let role = random.word(0, plan.requests);
        plan = plan.linear(role, bound, &terms);
    }
    plan
}

/// A bound that a setting mostly meets, or one that it mostly misses.
fn bound_at_an_end(random: &mut Random, terms: &[(u16, i32)], setting: u64, missed: bool) -> i32 {
    let sum = sum_at(terms, setting);
    let (least, most) = ends_of(terms);
    match missed {
        true => random.pick(&[i32::MIN, i32::MIN + 1, least - 1, least, sum - 1, sum - 1]),
        false => random.pick(&[i32::MAX, i32::MAX - 1, most, most - 1, sum, sum, sum + 1]),
    }
}

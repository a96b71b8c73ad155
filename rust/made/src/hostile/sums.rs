//! Sums that no setting has, as two linear rows each: at most, and at least. Both are open until
//! nearly all variables are decided, so that nothing is put aside and no branch ends early.

use super::{repeated, shuffled, VARIABLES};
use crate::plan::{Plan, Row};
use crate::random::Random;

/// The largest half of a weight in a subset sum: twenty weights are far more than the settings.
const HALF_A_WEIGHT: i64 = 500_000;

/// The plans of sums.
pub fn all() -> Vec<(String, Plan)> {
    let plans = [
        ("twice the sum of all is 21, 125 times", twice_is_odd()),
        ("a subset sum, 125 times", subset_sums()),
        ("a subset sum among bounds of the sum", among_bounds()),
    ];
    plans.map(|(name, plan)| (name.into(), plan)).to_vec()
}

/// Twice the sum of all variables is 21, said as often as a table holds. All weights are equal, so
/// that no variable is better than another; an open row costs all its terms wherever it is tested.
pub fn twice_is_odd() -> Plan {
    let rows = repeated(&is(&[2; VARIABLES as usize], 21));
    shuffled(&mut Random::new(1), rows)
}

/// 64 requests: each odd one wants twice the sum of all variables to be at most 21, each even one
/// at least 21. A question about two that differ goes through all levels of a search.
pub fn odd_by_requests() -> Plan {
    let mut plan = Plan::empty(VARIABLES, 64);
    for request in plan.order.clone() {
        let sign = if request % 2 == 1 { 1 } else { -1 };
        let terms: Vec<(u16, i32)> = (0..VARIABLES).map(|v| (v, 2 * sign)).collect();
        plan = plan.linear(request, 21 * sign, &terms);
    }
    plan
}

/// A subset sum with even weights and an odd sum, said as often as a table holds, each time with
/// its terms in another sequence. Weights that are far apart let no bound cut before the end.
pub fn subset_sums() -> Plan {
    let mut random = Random::new(2);
    let mut rows = repeated(&subset_sum(&mut random));
    for row in &mut rows {
        if let Row::Linear(_, _, terms) = row {
            random.shuffle(terms);
        }
    }
    shuffled(&mut random, rows)
}

/// One subset sum, hidden among rows that bound the number of ones between 9 and 11. They fail
/// often, but the subset sum alone fails everywhere.
pub fn among_bounds() -> Plan {
    let mut random = Random::new(3);
    let ones = [1; VARIABLES as usize];
    let mut rows = repeated(&[at_most(&ones, 11), at_least(&ones, 9)]);
    let [first, second, ..] = rows.as_mut_slice() else {
        unreachable!("a table holds more than two rows");
    };
    [*first, *second] = subset_sum(&mut random);
    shuffled(&mut random, rows)
}

/// Two rows that say that a sum of random even weights is odd, near the middle.
pub fn subset_sum(random: &mut Random) -> [Row; 2] {
    let weight = |_| 2 * random.between(1, HALF_A_WEIGHT) as i32;
    let weights: Vec<i32> = (0..VARIABLES).map(weight).collect();
    let middle = weights.iter().sum::<i32>() / 2;
    is(&weights, middle | 1)
}

/// Two rows that say that a sum is what is given.
fn is(weights: &[i32], sum: i32) -> [Row; 2] {
    [at_most(weights, sum), at_least(weights, sum)]
}

/// A row that says that a sum is at most this.
fn at_most(weights: &[i32], sum: i32) -> Row {
    Row::Linear(0, sum, (0..).zip(weights.iter().copied()).collect())
}

/// A row that says that a sum is at least this.
fn at_least(weights: &[i32], sum: i32) -> Row {
    let negated: Vec<i32> = weights.iter().map(|weight| -weight).collect();
    at_most(&negated, -sum)
}

//! Plans of many shapes: a few rows or many, few variables or twenty, budgets like the bib map's.
//! Some can stand, some have a conflict, in some the host rows alone cannot stand.

use crate::plan::{wants, Plan, Row};
use crate::random::Random;

/// The largest sizes of a shape; the least are 0.
#[derive(Clone, Copy, Debug)]
pub struct Sizes {
    /// Most variables.
    pub variables: u16,
    /// Most requests.
    pub requests: u16,
    /// Most rows.
    pub rows: usize,
}

/// Small enough for every selection to be looked at.
pub const SMALL: Sizes = Sizes {
    variables: 5,
    requests: 7,
    rows: 14,
};
/// More settings than selections.
pub const MIDDLE: Sizes = Sizes {
    variables: 12,
    requests: 10,
    rows: 30,
};
/// All requests that there may be.
pub const LARGE: Sizes = Sizes {
    variables: 12,
    requests: 64,
    rows: 90,
};
/// Everything up to document 01's limits, for reading only.
pub const WHOLE: Sizes = Sizes {
    variables: 20,
    requests: 64,
    rows: 200,
};

/// An event of any shape whose reports the second program finds quickly.
pub fn quick(seed: u64) -> Plan {
    let mut random = Random::new(seed);
    match random.below(8) {
        0 => extreme(&mut random),
        1 | 2 => budget(&mut random, 6, 8),
        _ => any(&mut random, SMALL),
    }
}

/// An event with rows of any sort.
pub fn any(random: &mut Random, sizes: Sizes) -> Plan {
    let mut plan = Plan::empty(
        random.word(0, sizes.variables),
        random.word(0, sizes.requests),
    );
    random.shuffle(&mut plan.order);
    let host_share = random.pick(&[0, 1, 2, 6]);
    let light = random.chance(2, 3);
    for _ in 0..random.below(sizes.rows + 1) {
        let host = plan.requests == 0 || random.chance(host_share, 12);
        let role = if host {
            0
        } else {
            random.word(1, plan.requests)
        };
        let row = if random.chance(3, 5) && plan.variables > 0 {
            clause(random, role, plan.variables, light)
        } else {
            linear(random, role, plan.variables)
        };
        plan.rows.push(row);
    }
    plan
}

/// A clause: mostly of a few literals, now and then of none or of 64.
fn clause(random: &mut Random, role: u16, variables: u16, light: bool) -> Row {
    let literals = match random.below(40) {
        0 => 0,
        1 => 64,
        2 => random.below(65),
        3..=15 => 1,
        _ if light => 2,
        _ => 1 + random.below(3),
    };
    let literal = |_| random.word(0, 2 * variables - 1);
    Row::Clause(role, (0..literals).map(literal).collect())
}

/// A linear row whose bound is near a sum that some setting has, or at an end of i32.
fn linear(random: &mut Random, role: u16, variables: u16) -> Row {
    let terms = terms(random, variables);
    let bound = bound(random, &terms);
    Row::Linear(role, bound, terms)
}

/// Terms of any variables: mostly a few, now and then none or 20.
pub(crate) fn terms(random: &mut Random, variables: u16) -> Vec<(u16, i32)> {
    let most = if variables == 0 { 0 } else { 20 };
    let number = match random.below(12) {
        0 => 0,
        1 => most,
        2 => random.below(most + 1),
        _ => (1 + random.below(5)).min(most),
    };
    let reach = random.pick(&[1, 3, 9, 1_000, 1_000_000]);
    let term = |_| {
        let weight = random.between(-reach, reach) as i32;
        let extreme = reach == 1_000_000 && random.chance(1, 2);
        let weight = if extreme {
            random.pick(&[-1_000_000, 1_000_000])
        } else {
            weight
        };
        (random.word(0, variables - 1), weight)
    };
    (0..number).map(term).collect()
}

/// The sum that a setting gives to terms, variable i being at bit i.
pub(crate) fn sum_at(terms: &[(u16, i32)], setting: u64) -> i32 {
    let chosen = |(variable, _): &&(u16, i32)| setting >> *variable & 1 == 1;
    terms.iter().filter(chosen).map(|(_, weight)| weight).sum()
}

/// A bound: the sum of some setting, or beside it, or an end of i32.
fn bound(random: &mut Random, terms: &[(u16, i32)]) -> i32 {
    let sum = sum_at(terms, random.bits());
    match random.below(24) {
        0 => i32::MIN,
        1 => i32::MAX,
        2 => random.between(i64::from(i32::MIN), i64::from(i32::MAX)) as i32,
        3..=6 => sum - 1,
        7..=9 => sum + 1,
        _ => sum,
    }
}

/// An event like the bib map's: host budgets, and requests that want variables.
pub fn budget(random: &mut Random, most_variables: u16, most_requests: u16) -> Plan {
    let variables = random.word(1, most_variables);
    let requests = random.word(1, most_requests);
    let mut plan = Plan::empty(variables, requests);
    random.shuffle(&mut plan.order);
    for _ in 0..1 + random.below(2) {
        let needs: Vec<i32> = (0..variables)
            .map(|_| random.between(0, 30) as i32 * 100)
            .collect();
        let part = random.between(1, 12) as i32;
        let bound = needs.iter().sum::<i32>() / 12 * part;
        let terms: Vec<(u16, i32)> = (0..).zip(needs).collect();
        plan = plan.linear(0, bound, &terms);
    }
    for request in 1..=requests {
        let variable = random.word(0, variables - 1);
        plan = match random.below(6) {
            0 => plan.linear(request, -1, &[(variable, -1)]),
            1 => plan,
            _ => plan.clause(request, &[wants(variable)]),
        };
    }
    plan
}

/// An event of linear rows whose sums and bounds are as large as they get: 20 terms of a million
/// on few variables, bounds at a sum, beside it, and at both ends of i32.
pub fn extreme(random: &mut Random) -> Plan {
    let mut plan = Plan::empty(random.word(1, 6), random.word(1, 6));
    random.shuffle(&mut plan.order);
    for _ in 0..1 + random.below(8) {
        let weights: &[i32] = match random.below(3) {
            0 => &[1_000_000],
            1 => &[-1_000_000],
            _ => &[-1_000_000, 1_000_000],
        };
        let term = |_| (random.word(0, plan.variables - 1), random.pick(weights));
        let terms: Vec<(u16, i32)> = (0..20).map(term).collect();
        let bound = bound(random, &terms);
        let role = random.word(0, plan.requests);
        plan = plan.linear(role, bound, &terms);
    }
    plan
}

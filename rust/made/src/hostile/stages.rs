//! Plans whose rows come in stages. At every setting a row of its own fails, and some stage tells
//! which one it is: a search that decides the variables of that stage last looks for another row at
//! every setting.

use super::stage::{
    rows,
    Stage::{self, Idle, Pattern, Sum},
};
use super::{repeated, shuffled, VARIABLES};
use crate::plan::{Plan, Row};
use crate::random::Random;

/// The plans in stages.
pub fn all() -> Vec<(String, Plan)> {
    let stages: [&[Stage]; 10] = [
        // Where the idle variables are decided first, every pattern is looked for again and again.
        &[Idle(12), Pattern(8)],
        &[Idle(13), Pattern(7)],
        &[Idle(14), Pattern(6)],
        // Here all variables matter, and the weights tell which should be decided first.
        &[Pattern(6), Sum(14)],
        // Here the weights tell wrong: the patterns should be decided first, against their weights.
        &[Sum(13), Pattern(7)],
        &[Sum(15), Pattern(5)],
        // A few rows take turns: too few to be noticed, too many to be quick.
        &[Sum(18), Pattern(2)],
        &[Pattern(3), Sum(14), Pattern(3)],
        &[Sum(12), Pattern(5), Sum(3)],
        // Every sum ends branches, if its variables are decided together.
        &[Sum(3), Sum(3), Sum(3), Sum(3), Sum(3), Sum(3), Sum(2)],
    ];
    let mut plans = stages.map(|stages| (name(stages), staged(stages))).to_vec();
    plans.push(("four sequences of stages".into(), four_sequences()));
    plans.push(("patterns behind 100 loose sums".into(), behind_sums()));
    plans
}

/// The name of a plan in stages.
fn name(stages: &[Stage]) -> String {
    let name = |stage: &Stage| match stage {
        Idle(number) => format!("{number} idle"),
        Sum(number) => format!("sum {number}"),
        Pattern(number) => format!("pattern {number}"),
    };
    stages.iter().map(name).collect::<Vec<_>>().join(", ")
}

/// The variables in their own sequence.
fn in_sequence(_: usize) -> Vec<u16> {
    (0..VARIABLES).collect()
}

/// The rows of these stages, repeated, in any sequence.
fn staged(stages: &[Stage]) -> Plan {
    let rows = repeated(&rows(stages, in_sequence));
    shuffled(&mut Random::new(7), rows)
}

/// A sum and a pattern on variables that stand in another sequence for each pattern of the first
/// two: what a search learns in one part is wrong in the next.
fn four_sequences() -> Plan {
    let sequence = |pattern: usize| {
        let mut variables = in_sequence(pattern);
        Random::new(pattern as u64 % 4).shuffle(&mut variables[2..]);
        variables
    };
    let rows = rows(&[Pattern(2), Sum(14), Pattern(4)], sequence);
    shuffled(&mut Random::new(8), repeated(&rows))
}

/// A row for each pattern of seven variables, behind rows on the others that fail seldom and seem
/// to need their variables more.
fn behind_sums() -> Plan {
    let ones = |weight| (0..13).map(|variable| (variable, weight)).collect();
    let sums = [Row::Linear(0, 7, ones(1)), Row::Linear(0, -5, ones(-1))];
    let mut plan = Plan::empty(VARIABLES, 0);
    plan.rows.extend(sums.into_iter().cycle().take(100));
    plan.rows.extend(rows(&[Idle(13), Pattern(7)], in_sequence));
    plan
}

//! The plans aimed at the search are what their makers say: named variables, settled rows where
//! they are asked for, weights of both signs, rows within the limits.

use made::plan::{Plan, Row};
use made::random::Random;
use made::searched::many::{many, Failing};
use made::searched::repeated::repeated;
use made::searched::settled::{settled, Met, Place};
use made::searched::sizes::{named_by, sized};
use made::searched::sums::{ends, near_sums};
use std::collections::BTreeMap;

#[test]
fn a_seed_makes_one_plan() {
    for seed in 0..200 {
        let plans = || [near_sums, ends, repeated].map(|make| make(&mut Random::new(seed)));
        assert_eq!(plans(), plans());
    }
}

#[test]
fn sized_plans_name_as_many_variables_as_asked_for() {
    for variables in 0..=20 {
        for named in 0..=variables {
            let plan = sized(&mut Random::new(7), variables, named);
            assert_eq!(plan.variables, variables);
            assert_eq!(named_by(&plan), usize::from(named));
        }
    }
}

/// Whether a setting meets a row, variable i being at bit i.
fn meets(setting: u64, row: &Row) -> bool {
    let value = |variable: u16| setting >> variable & 1;
    match row {
        Row::Clause(_, literals) => literals
            .iter()
            .any(|literal| value(literal / 2) != u64::from(literal % 2)),
        Row::Linear(_, bound, terms) => {
            let counts = |(variable, _): &&(u16, i32)| value(*variable) == 1;
            let sum: i32 = terms.iter().filter(counts).map(|(_, weight)| weight).sum();
            sum <= *bound
        }
    }
}

/// Whether a row of a plan is met by all settings, or by none.
fn is_settled(plan: &Plan, row: &Row, met: Met) -> bool {
    (0..1 << plan.variables).all(|setting| meets(setting, row) == (met == Met::ByAll))
}

#[test]
fn settled_rows_stand_where_they_are_asked_for() {
    for met in [Met::ByAll, Met::ByNone] {
        for seed in 0..200 {
            let first = settled(&mut Random::new(seed), met, Place::First);
            assert!(is_settled(&first, &first.rows[0], met), "{first:?}");
            let last = settled(&mut Random::new(seed), met, Place::Last);
            let end = last.rows.len() - 1;
            assert!(is_settled(&last, &last.rows[end], met), "{last:?}");
            let middle = settled(&mut Random::new(seed), met, Place::Middle);
            let mut inner = middle.rows[1..middle.rows.len() - 1].iter();
            assert!(inner.any(|row| is_settled(&middle, row, met)), "{middle:?}");
        }
    }
}

#[test]
fn repeated_weights_of_both_signs_add_to_less_than_0_and_0_and_more() {
    let mut seen: BTreeMap<i32, usize> = BTreeMap::new();
    for seed in 0..500 {
        for row in repeated(&mut Random::new(seed)).rows {
            let Row::Linear(_, _, terms) = row else {
                continue;
            };
            let of_first = terms.iter().filter(|(variable, _)| *variable == terms[0].0);
            let weights: Vec<i32> = of_first.map(|(_, weight)| *weight).collect();
            let is_there = |sign| weights.iter().any(|weight| weight.signum() == sign);
            if is_there(-1) && is_there(1) {
                *seen
                    .entry(weights.iter().sum::<i32>().signum())
                    .or_default() += 1;
            }
        }
    }
    let counts: Vec<usize> = seen.values().copied().collect();
    assert!(
        counts.len() == 3 && counts.iter().all(|count| *count > 200),
        "{seen:?}"
    );
}

#[test]
fn many_rows_stay_within_the_limits() {
    for seed in 0..100 {
        for failing in [Failing::Nowhere, Failing::First, Failing::Last] {
            let plan = many(&mut Random::new(seed), failing);
            assert!([60, 200, 400, 512].contains(&plan.rows.len()));
            assert!(plan.table().len() <= 32_768);
        }
    }
}

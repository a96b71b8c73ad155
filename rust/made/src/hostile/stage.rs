//! Rows whose terms come in stages, the weights of a stage outdoing those of all later ones.

use crate::plan::Row;
use crate::planted::shuts_out;

/// A stage has as many variables as its number says; they follow those of the stage before.
#[derive(Clone, Copy, Debug, PartialEq, Eq)]
pub enum Stage {
    /// Variables that do not matter: weight 0.
    Idle(u16),
    /// Half of the rows are missed above the middle of the stage's sum, half below it; beside the
    /// middle the next stage tells.
    Sum(u16),
    /// There are rows for each pattern of the stage's variables. A row is met by the other patterns;
    /// with its own the next stage tells.
    Pattern(u16),
}

use Stage::{Idle, Pattern, Sum};

/// The most linear rows of 20 terms, with room for some clauses.
const MOST_LINEAR: usize = 248;

/// A linear row for each pattern and each side of every sum, while they fit into a table; the
/// patterns that are left are shut out by clauses. The sequence of the variables may depend on the
/// pattern, but not which of them have patterns.
pub fn rows(stages: &[Stage], sequence: impl Fn(usize) -> Vec<u16>) -> Vec<Row> {
    let sums = stages
        .iter()
        .filter(|stage| matches!(stage, Sum(_)))
        .count();
    let linear = MOST_LINEAR >> sums;
    let watched = watched(stages);
    let mut rows = Vec::new();
    for pattern in 0..1 << watched.len() {
        let row = |sides| row(stages, &sequence(pattern), pattern, sides);
        match pattern < linear {
            true => rows.extend((0..1 << sums).map(row)),
            false => rows.push(shuts_out(0, pattern, &watched)),
        }
    }
    rows
}

/// The variables that have patterns, where all stand in their own sequence.
fn watched(stages: &[Stage]) -> Vec<u16> {
    let mut watched = Vec::new();
    let mut next = 0;
    for stage in stages {
        let (Idle(number) | Sum(number) | Pattern(number)) = stage;
        if matches!(stage, Pattern(_)) {
            watched.extend(next..next + number);
        }
        next += number;
    }
    watched
}

/// The row of a pattern and of a side of every sum, both read from their lowest bit on.
fn row(stages: &[Stage], variables: &[u16], mut pattern: usize, mut sides: usize) -> Row {
    let mut terms = Vec::new();
    let mut least_missed = 0;
    let mut next = variables.iter();
    for (at, stage) in stages.iter().enumerate() {
        let weight = weight(&stages[at..]);
        match *stage {
            Idle(number) => terms.extend(next.by_ref().take(number.into()).map(|v| (*v, 0))),
            Sum(number) => {
                let (sign, beside) = [(-1, number / 2), (1, number / 2 + 1)][sides % 2];
                sides /= 2;
                least_missed += sign * weight * i32::from(beside);
                terms.extend(
                    next.by_ref()
                        .take(number.into())
                        .map(|v| (*v, sign * weight)),
                );
            }
            Pattern(number) => {
                for variable in next.by_ref().take(number.into()) {
                    least_missed += [0, weight][pattern % 2];
                    terms.push((*variable, [-weight, weight][pattern % 2]));
                    pattern /= 2;
                }
            }
        }
    }
    Row::Linear(0, least_missed - 1, terms)
}

/// The weight of the first of these stages: more than all later ones have together.
fn weight(stages: &[Stage]) -> i32 {
    let all = |at: usize, stage: &Stage| match stage {
        Idle(_) => 0,
        Sum(number) | Pattern(number) => i32::from(*number) * weight(&stages[at..]),
    };
    let later = stages.iter().enumerate().skip(1);
    1 + later.map(|(at, stage)| all(at, stage)).sum::<i32>()
}

//! Hostile plans: 20 variables, few requests or none, and rows on which a search takes long. What
//! each maker is hard for stands beside it. Hardly any of them can stand, so that no lucky branch
//! ends a search early.
//!
//! `sums` has rows that are open nearly to the end, `stages` rows of which a different one fails at
//! every setting, `words` rows around the words of a code, `clauses` the classics.

pub mod clauses;
mod stage;
pub mod stages;
pub mod sums;
pub mod words;

use crate::plan::{Plan, Row};
use crate::random::Random;

/// The variables of every hostile plan.
const VARIABLES: u16 = 20;
/// The most rows and the most bytes of a table, and the bytes that are no row's: HEAD, ORDER, CHECK.
const MOST_ROWS: usize = 512;
const MOST_BYTES: usize = 32_768;
const OTHER_BYTES: usize = 18;

/// All hostile plans, each with a name.
pub fn all() -> Vec<(String, Plan)> {
    let mut plans = sums::all();
    plans.extend(stages::all());
    plans.extend(words::all());
    plans.extend(clauses::all());
    plans
}

/// A plan of these rows, in any sequence.
fn shuffled(random: &mut Random, mut rows: Vec<Row>) -> Plan {
    random.shuffle(&mut rows);
    let plan = Plan::empty(VARIABLES, 0);
    Plan { rows, ..plan }
}

/// These rows again and again, as many as a table holds.
fn repeated(rows: &[Row]) -> Vec<Row> {
    let mut left = MOST_BYTES - OTHER_BYTES;
    let fits = |row: &&Row| {
        let fits = bytes(row) <= left;
        left -= if fits { bytes(row) } else { 0 };
        fits
    };
    let rows = rows.iter().cycle().take(MOST_ROWS);
    rows.take_while(fits).cloned().collect()
}

/// The bytes of a row's record.
fn bytes(row: &Row) -> usize {
    match row {
        Row::Clause(_, literals) => 6 + 2 * literals.len(),
        Row::Linear(_, _, terms) => 10 + 6 * terms.len(),
    }
}

#[cfg(test)]
mod tests {
    use super::*;

    #[test]
    fn every_table_is_within_the_limits() {
        for (name, plan) in all() {
            assert!(plan.rows.len() <= MOST_ROWS, "{name}");
            assert!(plan.table().len() <= MOST_BYTES, "{name}");
        }
    }
}

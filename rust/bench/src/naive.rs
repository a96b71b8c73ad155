//! The naive search in plain Rust, over rows that are decoded once: one variable after the other
//! from V-1 to 0, value 0 before 1, a branch left at the first row that it can no longer meet.

use second::rows::{Event, Row};
use second::selection::{holds, Selection};

/// Whether a selection can stand; nothing where that takes more than so many row tests.
pub fn can_stand(event: &Event, selection: Selection, most_tests: u64) -> Option<bool> {
    let asked = |row: &&Row| row.role() == 0 || holds(selection, row.role());
    let rows: Vec<&Row> = event.rows.iter().filter(asked).collect();
    branch(&rows, event.variables, 0, &mut { most_tests })
}

/// Whether some values of the variables below `free`, with those that `setting` has for the others,
/// meet all rows.
fn branch(rows: &[&Row], free: u16, setting: u32, tests_left: &mut u64) -> Option<bool> {
    for row in rows {
        *tests_left = tests_left.checked_sub(1)?;
        if !may_be_met(row, free, setting) {
            return Some(false);
        }
    }
    if free == 0 {
        return Some(true);
    }
    let next = free - 1;
    match branch(rows, next, setting, tests_left)? {
        true => Some(true),
        false => branch(rows, next, setting | 1 << next, tests_left),
    }
}

/// Whether the free variables can still be set so that the row, taken alone, is met.
fn may_be_met(row: &Row, free: u16, setting: u32) -> bool {
    let value = |variable: u16| setting >> variable & 1;
    match row {
        Row::Clause { literals, .. } => literals.iter().any(|literal| {
            let (variable, negated) = (literal / 2, u32::from(literal % 2));
            variable < free || value(variable) != negated
        }),
        Row::Linear { bound, terms, .. } => {
            let least = |(variable, weight): &(u16, i32)| match *variable < free {
                true => i64::from(*weight).min(0),
                false => i64::from(*weight) * i64::from(value(*variable)),
            };
            terms.iter().map(least).sum::<i64>() <= i64::from(*bound)
        }
    }
}

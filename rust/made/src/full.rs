//! Valid tables of an exact length in bytes or an exact number of rows, or both,
//! for the limits of 32,768 bytes and 512 rows.

use crate::plan::{Plan, Row};
use crate::random::Random;

/// The bytes of the longest row of either kind: 4 of heading, 130 and 126 of body.
const LONGEST_CLAUSE: usize = 134;
const LONGEST_LINEAR: usize = 130;
/// The bytes of a clause without literals.
const SHORTEST_CLAUSE: usize = 6;
/// The most literals of a clause.
const MOST_LITERALS: usize = 64;

/// A plan whose table has exactly this even number of bytes, with 20 variables and 64 requests.
pub fn of_bytes(random: &mut Random, bytes: usize) -> Plan {
    let mut plan = Plan::empty(20, 64);
    random.shuffle(&mut plan.order);
    let mut left = bytes - plan.table().len();
    while left > LONGEST_CLAUSE + LONGEST_LINEAR {
        let terms = 17 + random.below(4);
        let term = |_| (random.word(0, 19), random.between(-9, 9) as i32);
        let terms: Vec<(u16, i32)> = (0..terms).map(term).collect();
        left -= 10 + 6 * terms.len();
        plan.rows.push(Row::Linear(random.word(0, 64), 90, terms));
    }
    while left > 0 {
        let bytes = match left {
            0..=LONGEST_CLAUSE => left,
            _ => LONGEST_CLAUSE.min(left - SHORTEST_CLAUSE),
        };
        let literals = (bytes - SHORTEST_CLAUSE) / 2;
        let literal = |_| random.word(0, 39);
        let literals = (0..literals).map(literal).collect();
        plan.rows.push(Row::Clause(random.word(0, 64), literals));
        left -= bytes;
    }
    random.shuffle(&mut plan.rows);
    plan
}

/// A plan of exactly this many short rows.
pub fn of_rows(random: &mut Random, rows: usize) -> Plan {
    let mut plan = Plan::empty(random.word(1, 20), random.word(0, 64));
    random.shuffle(&mut plan.order);
    for _ in 0..rows {
        let role = random.word(0, plan.requests);
        let variable = random.word(0, plan.variables - 1);
        plan.rows.push(match random.below(3) {
            0 => Row::Linear(role, 0, Vec::new()),
            1 => Row::Linear(role, 1, vec![(variable, 1)]),
            _ => Row::Clause(role, vec![2 * variable, 2 * variable + 1]),
        });
    }
    plan
}

/// A plan that says the same in exactly this many rows and this even number of bytes: its rows are
/// repeated, then the literals of its clauses, which must be able to take so many bytes.
pub fn filled(random: &mut Random, plan: &Plan, rows: usize, bytes: usize) -> Plan {
    let mut filled = plan.clone();
    filled.rows = plan.rows.iter().cycle().take(rows).cloned().collect();
    random.shuffle(&mut filled.rows);
    let mut left = (bytes - filled.table().len()) / 2;
    for row in &mut filled.rows {
        if let Row::Clause(_, literals) = row {
            while left > 0 && (1..MOST_LITERALS).contains(&literals.len()) {
                literals.push(random.pick(literals));
                left -= 1;
            }
        }
    }
    filled
}

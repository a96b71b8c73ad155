//! Rows made around one setting, which meets most of them with nothing to spare.

use crate::events::{sum_at, terms};
use crate::plan::{refuses, wants, Plan, Row};
use crate::random::Random;

/// What the rows are made around.
pub(crate) struct Around {
    /// The rows name variables below this number.
    pub variables: u16,
    /// The setting, variable i at bit i.
    pub setting: u64,
    /// How many of 4 rows are clauses.
    pub clauses: usize,
    /// How many of 24 rows the setting misses, by 1 where they are linear.
    pub missed: usize,
}

impl Around {
    /// Any setting of so many variables, with any share of clauses and of rows that it misses.
    pub fn any(random: &mut Random, variables: u16) -> Around {
        Around {
            variables,
            setting: random.bits() & ((1 << variables) - 1),
            clauses: random.pick(&[0, 0, 1, 2]),
            missed: random.pick(&[0, 1, 2, 8]),
        }
    }

    /// A plan of so many rows, each of the host or of any request.
    pub fn plan(&self, random: &mut Random, requests: u16, rows: usize) -> Plan {
        let mut plan = Plan::empty(self.variables, requests);
        random.shuffle(&mut plan.order);
        for _ in 0..rows {
            let role = random.word(0, requests);
            plan.rows.push(self.row(random, role));
        }
        plan
    }

    /// A clause or a linear row. Without variables only a clause that is missed can be made.
    pub fn row(&self, random: &mut Random, role: u16) -> Row {
        let missed = random.chance(self.missed, 24);
        if random.chance(self.clauses, 4) && (missed || self.variables > 0) {
            return self.clause(random, role, missed);
        }
        let terms = terms(random, self.variables);
        let bound = sum_at(&terms, self.setting) + beside(random, missed);
        Row::Linear(role, bound, terms)
    }

    /// A clause with one true literal or none, and up to three others.
    fn clause(&self, random: &mut Random, role: u16, missed: bool) -> Row {
        let mut literals = Vec::new();
        let number = match self.variables {
            0 => 0,
            _ => 1 + random.below(4),
        };
        for place in 0..number {
            let literal = true_literal(random.word(0, self.variables - 1), self.setting);
            let is_false = missed || place > 0 && random.chance(3, 4);
            literals.push(literal ^ u16::from(is_false));
        }
        random.shuffle(&mut literals);
        Row::Clause(role, literals)
    }
}

/// One to twelve variables. Where eight or fewer are named, a search may try all their values
/// without a look at the rows; half of the plans have more than that.
pub(crate) fn any_variables(random: &mut Random) -> u16 {
    match random.chance(1, 2) {
        true => random.word(1, 8),
        false => random.word(9, 12),
    }
}

/// How far a bound is from the sum: one below where it is missed, else mostly at it.
pub(crate) fn beside(random: &mut Random, missed: bool) -> i32 {
    match missed {
        true => -1,
        false => random.pick(&[0, 0, 0, 1]),
    }
}

/// The literal of a variable that is true in a setting; the other one is this with its last bit
/// changed.
pub(crate) fn true_literal(variable: u16, setting: u64) -> u16 {
    match setting >> variable & 1 {
        1 => wants(variable),
        _ => refuses(variable),
    }
}

/// The least and the most that terms can add up to, each taken by itself.
pub(crate) fn ends_of(terms: &[(u16, i32)]) -> (i32, i32) {
    let weights = || terms.iter().map(|(_, weight)| *weight);
    let least = weights().filter(|weight| *weight < 0).sum();
    let most = weights().filter(|weight| *weight > 0).sum();
    (least, most)
}

//! Up to 512 rows, most of which are put aside as soon as one variable is decided, and all of which
//! count again where it is decided the other way. They are aimed at rows lost while others are put
//! aside, at the rows that a branch hands to the next, and at a failing row at either end.

use super::around::true_literal;
use super::settled::met_by_all;
use crate::events::sum_at;
use crate::plan::{Plan, Row};
use crate::random::Random;
use crate::twins::as_linear;

/// Where the failing row stands, if there is one.
#[derive(Clone, Copy, Debug, PartialEq, Eq)]
pub enum Failing {
    /// There is none.
    Nowhere,
    /// Before all others.
    First,
    /// After all others.
    Last,
}

/// The weight of the deciding variable, above what the others of its row add up to.
const DECIDING: i32 = 1_000;

/// What a plan is made around: the setting, and the variable whose other value settles most rows.
struct Far {
    variables: u16,
    setting: u64,
    deciding: u16,
}

/// A plan around a setting that lies on the far side of the deciding variable: on the near side
/// most rows are put aside, and in two of three plans a few others fail there. The failing row,
/// which the setting misses, belongs to request N or to the host.
pub fn many(random: &mut Random, failing: Failing) -> Plan {
    let variables = random.pick(&[4, 8, 9, 10, 11, 12]);
    let far = Far {
        variables,
        setting: random.bits(),
        deciding: random.word(0, variables - 1),
    };
    let mut plan = Plan::empty(variables, random.word(1, 3));
    random.shuffle(&mut plan.order);
    let mut rows = random.pick(&[60, 200, 400, 512, 512]);
    if random.chance(2, 3) {
        plan.rows = far.near_side_fails(random);
    }
    rows -= usize::from(failing != Failing::Nowhere);
    while plan.rows.len() < rows {
        let role = random.word(0, plan.requests - 1);
        let row = match random.below(8) {
            0 => met_by_all(random, role, variables),
            1..=4 => far.clause(random, role),
            _ => far.linear(random, role),
        };
        plan.rows.push(row);
    }
    random.shuffle(&mut plan.rows);
    let role = random.pick(&[0, plan.requests, plan.requests, plan.requests]);
    match failing {
        Failing::Nowhere => (),
        Failing::First => plan.rows.insert(0, far.failing(random, role)),
        Failing::Last => plan.rows.push(far.failing(random, role)),
    }
    plan
}

impl Far {
    /// The literal of the deciding variable that is true on the near side.
    fn near(&self) -> u16 {
        true_literal(self.deciding, self.setting) ^ 1
    }

    /// A variable other than the deciding one.
    fn other(&self, random: &mut Random) -> u16 {
        (self.deciding + random.word(1, self.variables - 1)) % self.variables
    }

    /// A clause that is met on the near side, and on the far side by the setting.
    fn clause(&self, random: &mut Random, role: u16) -> Row {
        let mut literals = vec![self.near(), true_literal(self.other(random), self.setting)];
        for _ in 0..random.below(4) {
            literals.push(true_literal(self.other(random), self.setting) ^ 1);
        }
        random.shuffle(&mut literals);
        Row::Clause(role, literals)
    }

    /// A linear row that is met on the near side, and on the far side by the setting with nothing
    /// to spare.
    fn linear(&self, random: &mut Random, role: u16) -> Row {
        let sign = if self.near() % 2 == 1 { 1 } else { -1 };
        let mut terms = vec![(self.deciding, sign * DECIDING)];
        for _ in 0..1 + random.below(4) {
            terms.push((self.other(random), random.between(-9, 9) as i32));
        }
        random.shuffle(&mut terms);
        Row::Linear(role, sum_at(&terms, self.setting), terms)
    }

    /// Host clauses that shut out all values of two variables on the near side.
    fn near_side_fails(&self, random: &mut Random) -> Vec<Row> {
        let (one, other) = (self.other(random), self.other(random));
        let far = self.near() ^ 1;
        let clause = |signs: u16| vec![far, 2 * one + signs / 2, 2 * other + signs % 2];
        (0..4).map(|signs| Row::Clause(0, clause(signs))).collect()
    }

    /// A clause that is missed by the setting alone, or a linear row that says the same: its most
    /// sum is one above the bound.
    fn failing(&self, random: &mut Random, role: u16) -> Row {
        let literal = |variable| true_literal(variable, self.setting) ^ 1;
        let literals: Vec<u16> = (0..self.variables).map(literal).collect();
        match random.chance(1, 2) {
            true => as_linear(role, &literals),
            false => Row::Clause(role, literals),
        }
    }
}

//! The plans on whose tables the library goes deepest: 20 variables, 64 requests or as many rows as
//! a table holds. Conflicts of many sizes and places nest to the last level of halving, and hostile
//! rows leave a question open until all variables are decided.

use made::full;
use made::hostile::{clauses, sums};
use made::plan::{Plan, Row};
use made::planted::planted;
use made::random::Random;

/// So many plans are made for each size of a conflict, each with its requests in another order.
const EVENTS: u64 = 20;

/// All plans.
pub fn plans() -> Vec<Plan> {
    let mut random = Random::new(1);
    let mut plans = vec![
        full::of_bytes(&mut random, 32_768),
        full::of_rows(&mut random, 512),
        sums::twice_is_odd(),
    ];
    for k in [1, 2, 3, 8, 40, 63, 64] {
        let made = (0..EVENTS).map(|_| planted(&mut random, 20, 64, k).0);
        plans.extend(made);
    }
    for (_, plan) in clauses::all() {
        plans.push(shared_out(&plan));
        plans.push(plan);
    }
    plans
}

/// The rows of a plan, shared out among 64 requests.
fn shared_out(plan: &Plan) -> Plan {
    let empty = Plan::empty(plan.variables, 64);
    let given = |(role, row): (u16, &Row)| match row {
        Row::Clause(_, literals) => Row::Clause(role, literals.clone()),
        Row::Linear(_, bound, terms) => Row::Linear(role, *bound, terms.clone()),
    };
    let roles = empty.order.iter().copied().cycle();
    let rows = roles.zip(&plan.rows).map(given).collect();
    Plan { rows, ..empty }
}

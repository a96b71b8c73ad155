//! Plans whose only minimal conflict is known: k requests that together shut out every setting,
//! each of them a different one, among requests that stand in nobody's way.

use crate::plan::{refuses, wants, Plan, Row};
use crate::random::Random;

/// An event of N requests and V variables with one minimal conflict, of k requests, and those
/// requests in the plan's order. k is 1 to N and at most 2^V. The variables that the conflict is
/// about stand anywhere among the V, so that no search meets them first by its direction.
pub fn planted(random: &mut Random, variables: u16, requests: u16, k: usize) -> (Plan, Vec<u16>) {
    let mut plan = Plan::empty(variables, requests);
    random.shuffle(&mut plan.order);
    let mut members = plan.order.clone();
    random.shuffle(&mut members);
    members.truncate(k);
    let mut watched: Vec<u16> = (0..variables).collect();
    random.shuffle(&mut watched);
    let free = watched.split_off(k.next_power_of_two().ilog2() as usize);
    for shut in 0..1usize << watched.len() {
        let role = members.get(shut).copied().unwrap_or(0);
        plan.rows.push(shuts_out(role, shut, &watched));
    }
    for request in plan.order.clone() {
        if !members.contains(&request) && !free.is_empty() {
            plan.rows.push(harmless(random, request, &free, variables));
        }
    }
    random.shuffle(&mut plan.rows);
    let in_order = |request: &u16| members.contains(request);
    let conflict = plan.order.iter().copied().filter(in_order).collect();
    (plan, conflict)
}

/// A clause that is missed by one setting of the watched variables only.
pub(crate) fn shuts_out(role: u16, setting: usize, watched: &[u16]) -> Row {
    let literal = |(bit, variable): (usize, &u16)| match setting >> bit & 1 {
        1 => refuses(*variable),
        _ => wants(*variable),
    };
    Row::Clause(role, watched.iter().enumerate().map(literal).collect())
}

/// A clause that is met where all free variables are 1.
fn harmless(random: &mut Random, role: u16, free: &[u16], variables: u16) -> Row {
    let mut literals = vec![wants(random.pick(free))];
    for _ in 0..random.below(4) {
        literals.push(random.word(0, 2 * variables - 1));
    }
    random.shuffle(&mut literals);
    Row::Clause(role, literals)
}

//! Both sides of the limits of fields: V, N, roles, variables, weights, bounds, order numbers,
//! the CHECK word (refusals 6, 8 and 9).

use super::{passes, refused, Edge};
use crate::draft::Draft;
use crate::plan::Plan;

const MILLION: i32 = 1_000_000;

/// All edges of fields.
pub fn all() -> Vec<Edge> {
    [sizes(), roles(), variables(), weights(), orders(), words()].concat()
}

/// The draft of a plan.
fn draft(plan: Plan) -> Draft {
    plan.draft()
}

fn sizes() -> Vec<Edge> {
    let both = Plan::empty(21, 65).draft();
    vec![
        passes("V 0 and N 0", &draft(Plan::empty(0, 0))),
        passes("V 20", &draft(Plan::empty(20, 1))),
        refused("V 21", &draft(Plan::empty(21, 1)), 6, 0),
        refused("V 65,535", &draft(Plan::empty(65_535, 1)), 6, 0),
        passes("N 64", &draft(Plan::empty(1, 64))),
        refused("N 65", &draft(Plan::empty(1, 65)), 6, 0),
        refused("V 21 and N 65", &both, 6, 0),
    ]
}

fn roles() -> Vec<Edge> {
    let clause = |role| Plan::empty(1, 3).clause(role, &[0]).draft();
    let linear = |role| Plan::empty(1, 3).linear(role, 0, &[(0, 1)]).draft();
    vec![
        passes("clause of role N", &clause(3)),
        refused("clause of role N + 1", &clause(4), 6, 1),
        refused("clause of role 65,535", &clause(65_535), 6, 1),
        passes("linear row of role N", &linear(3)),
        refused("linear row of role N + 1", &linear(4), 6, 1),
        passes(
            "role 0 with N 0",
            &Plan::empty(1, 0).clause(0, &[0]).draft(),
        ),
        refused(
            "role 1 with N 0",
            &Plan::empty(1, 0).clause(1, &[0]).draft(),
            6,
            1,
        ),
    ]
}

fn variables() -> Vec<Edge> {
    let clause = |literal| Plan::empty(3, 1).clause(1, &[0, literal]).draft();
    let linear = |variable| Plan::empty(3, 1).linear(1, 0, &[(0, 1), (variable, 1)]);
    vec![
        passes("literal of variable V - 1", &clause(4)),
        passes("negated literal of variable V - 1", &clause(5)),
        refused("literal of variable V", &clause(6), 6, 1),
        refused("negated literal of variable V", &clause(7), 6, 1),
        refused("literal 65,535", &clause(65_535), 6, 1),
        passes("term of variable V - 1", &linear(2).draft()),
        refused("term of variable V", &linear(3).draft(), 6, 1),
        refused(
            "a literal with V 0",
            &Plan::empty(0, 1).clause(1, &[0]).draft(),
            6,
            1,
        ),
        refused(
            "a term with V 0",
            &Plan::empty(0, 1).linear(1, 0, &[(0, 0)]).draft(),
            6,
            1,
        ),
    ]
}

fn weights() -> Vec<Edge> {
    let weight = |weight| {
        Plan::empty(2, 1)
            .linear(1, 0, &[(0, 1), (1, weight)])
            .draft()
    };
    let bound = |bound| Plan::empty(2, 1).linear(1, bound, &[(1, 1)]).draft();
    vec![
        passes("weight a million", &weight(MILLION)),
        refused("weight a million and one", &weight(MILLION + 1), 6, 1),
        passes("weight less a million", &weight(-MILLION)),
        refused("weight less a million and one", &weight(-MILLION - 1), 6, 1),
        refused("the greatest i32 as weight", &weight(i32::MAX), 6, 1),
        refused("the least i32 as weight", &weight(i32::MIN), 6, 1),
        passes("the greatest i32 as bound", &bound(i32::MAX)),
        passes("the least i32 as bound", &bound(i32::MIN)),
    ]
}

fn orders() -> Vec<Edge> {
    let order = |order: &[u16]| Plan::empty(0, 3).ordered(order).draft();
    vec![
        passes("order of all", &order(&[2, 3, 1])),
        refused("order with 0", &order(&[2, 0, 1]), 6, 1),
        refused("order with N + 1", &order(&[2, 4, 1]), 6, 1),
        refused("order with 65,535", &order(&[2, 65_535, 1]), 6, 1),
        refused("order names first and last alike", &order(&[2, 1, 2]), 8, 1),
        refused("order names neighbours alike", &order(&[3, 1, 1]), 8, 1),
        refused("a repeat, then a number past N", &order(&[2, 2, 4]), 6, 1),
        refused("a repeat of 0", &order(&[0, 0, 1]), 6, 1),
    ]
}

fn words() -> Vec<Edge> {
    let right = Plan::empty(3, 2).clause(1, &[0]).draft();
    let mut list = vec![passes("words that add to zero", &right)];
    for (name, byte, more) in [
        ("CHECK word one more", 2, 1),
        ("CHECK word one fewer", 2, 255),
        ("CHECK word 256 more", 1, 1),
    ] {
        let mut edge = refused(name, &right, 9, 3);
        let place = edge.table.len() - byte;
        edge.table[place] = edge.table[place].wrapping_add(more);
        list.push(edge);
    }
    list
}

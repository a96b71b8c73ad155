//! The preferred conflict and the preferred relaxation by definition: among all selections,
//! the one with none before it (document 01, "Meaning"; Definitions 7 and 4 of document 004).

use crate::selection::{
    before_in_definition_3, before_in_definition_6, holds, only, selection_of, Selection, NONE,
};

/// A way to say that one selection comes before another in an order.
type Before = fn(Selection, Selection, &[u16]) -> bool;

/// The conflict that has no conflict before it in Definition 6, if there is a conflict.
pub fn preferred_conflict(
    order: &[u16],
    can_stand: &dyn Fn(Selection) -> bool,
) -> Option<Selection> {
    let conflicts: Vec<Selection> = selections(order).filter(|x| !can_stand(*x)).collect();
    with_none_before(&conflicts, before_in_definition_6, order)
}

/// The relaxation that has no relaxation before it in Definition 3, if there is a relaxation.
pub fn preferred_relaxation(
    order: &[u16],
    can_stand: &dyn Fn(Selection) -> bool,
) -> Option<Selection> {
    let relaxations: Vec<Selection> = selections(order).filter(|x| can_stand(*x)).collect();
    with_none_before(&relaxations, before_in_definition_3, order)
}

/// The conflicts that stop being one when any request is taken away.
pub fn minimal_conflicts(order: &[u16], can_stand: &dyn Fn(Selection) -> bool) -> Vec<Selection> {
    let needs = |x: Selection, request: &u16| !holds(x, *request) || can_stand(x & !only(*request));
    let minimal = |x: &Selection| !can_stand(*x) && order.iter().all(|request| needs(*x, request));
    selections(order).filter(minimal).collect()
}

/// All selections of the requests of a list.
fn selections(order: &[u16]) -> impl Iterator<Item = Selection> {
    let all = selection_of(order);
    let next = move |selection: &Selection| match *selection {
        NONE => None,
        some => Some((some - 1) & all),
    };
    std::iter::successors(Some(all), next)
}

/// The one of some selections with none of them before it.
fn with_none_before(some: &[Selection], before: Before, order: &[u16]) -> Option<Selection> {
    let first = |x: Selection, y: Selection| if before(y, x, order) { y } else { x };
    let found = some.iter().copied().reduce(first)?;
    assert!(some.iter().all(|other| !before(*other, found, order)));
    Some(found)
}

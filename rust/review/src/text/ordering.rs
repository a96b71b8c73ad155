//! The order of importance that a text states: begun once, gone on with by "then", and whole.

use super::declared::{some_of, Known};
use super::mistake::Mistakes;
use super::places::{Name, Place};
use super::statement::Statement;
use crate::names::written;

/// The requests, most important first. Where nothing is said of it, the order is that in which the
/// plug-ins are declared.
pub(super) fn order(statements: &[Statement], known: &Known, mistakes: &mut Mistakes) -> Vec<u16> {
    let plug_ins = known.plug_ins.names();
    let Some((place, names)) = stated(statements, mistakes) else {
        return (1..).take(plug_ins.len()).collect();
    };
    let mut order = Vec::new();
    for name in names {
        if mistakes.are_enough() {
            break;
        }
        match known.plug_in(name) {
            Err(mistake) => mistakes.add(mistake),
            Ok(number) if order.contains(&(number + 1)) => {
                let words = format!("{} stands twice in the order", written(&name.name));
                mistakes.add(name.place.mistake(words));
            }
            Ok(number) => order.push(number + 1),
        }
    }
    let left_out: Vec<String> = (1..)
        .zip(plug_ins)
        .filter(|(request, _)| !order.contains(request))
        .map(|(_, name)| name)
        .collect();
    if !left_out.is_empty() {
        let words = format!("the order leaves out {}", some_of(&left_out));
        mistakes.add(place.mistake(words));
    }
    order
}

/// The names of the order, and where it begins, if it is stated.
fn stated<'a>(
    statements: &'a [Statement],
    mistakes: &mut Mistakes,
) -> Option<(Place, Vec<&'a Name>)> {
    let mut order: Option<(Place, Vec<&Name>)> = None;
    for statement in statements {
        match (statement, &mut order) {
            (Statement::Order(place, names), None) => {
                order = Some((*place, names.iter().collect()))
            }
            (Statement::Order(place, _), Some((first, _))) => {
                let words = format!(
                    "the order is begun twice, first on line {}; \"then:\" goes on with it",
                    first.line
                );
                mistakes.add(place.mistake(words));
            }
            (Statement::Then(place, _), None) => {
                let words = "expected \"most important first:\" before \"then:\"".to_string();
                mistakes.add(place.mistake(words));
            }
            (Statement::Then(_, names), Some((_, order))) => order.extend(names),
            _ => {}
        }
    }
    order
}

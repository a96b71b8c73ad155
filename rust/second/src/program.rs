//! What the program prints for a table (document 01, "Sample sheet"): two lines of
//! "name, status, halving count, k, then the k numbers", or one line for a refused table.

use crate::meaning::Granted;
use crate::methods::{work, Answer, Method, Sought};
use crate::rows::Event;

/// The program's lines, each ended by a line feed.
pub fn output(table: &[u8]) -> String {
    match Event::of(table) {
        Ok(event) => {
            let granted = Granted::by(&event);
            let can_stand = |selection| granted.can_stand(selection);
            let answer = |sought| work(sought, Method::Halving, &event.order, &can_stand);
            line("conflict", &answer(Sought::Conflict))
                + &line("relax", &answer(Sought::Relaxation))
        }
        Err(refusal) => format!("refused {} {}\n", refusal.number, refusal.place),
    }
}

/// One line of an answer.
fn line(name: &str, answer: &Answer) -> String {
    let Answer { status, count, set } = answer;
    let numbers: String = set.iter().map(|request| format!(" {request}")).collect();
    format!("{name} {status} {count} {}{numbers}\n", set.len())
}

//! The two methods and their counts (document 01, "The two methods and their counts").
//! They see a list of requests, most important first, and a yes/no question, nothing of tables.

mod halving;
mod one_by_one;

use crate::selection::{listed, selection_of, Selection, NONE};

/// What is asked for.
#[derive(Clone, Copy, Debug, PartialEq, Eq)]
pub enum Sought {
    /// The preferred conflict.
    Conflict,
    /// The preferred relaxation.
    Relaxation,
}

/// The way it is worked.
#[derive(Clone, Copy, Debug, PartialEq, Eq)]
pub enum Method {
    /// N more questions, one a request.
    OneByOne,
    /// Parts cut into halves.
    Halving,
}

/// Both things that can be sought.
pub const SOUGHT: [Sought; 2] = [Sought::Conflict, Sought::Relaxation];
/// Both methods.
pub const METHODS: [Method; 2] = [Method::OneByOne, Method::Halving];

/// What a method finds.
#[derive(Clone, Debug, PartialEq, Eq)]
pub struct Answer {
    /// 0: all can stand. 1: a conflict, or a relaxation that drops something. 2: the host rows
    /// cannot stand.
    pub status: u16,
    /// The number of questions asked.
    pub count: u32,
    /// The request numbers in the order's order.
    pub set: Vec<u16>,
}

/// A question that counts how often it is asked.
pub struct Questions<'a> {
    can_stand: &'a dyn Fn(Selection) -> bool,
    count: u32,
}

impl Questions<'_> {
    /// Asks whether a selection can stand.
    pub fn ask(&mut self, selection: Selection) -> bool {
        self.count += 1;
        (self.can_stand)(selection)
    }
}

/// Works a method over an order and a question, from the common start on.
pub fn work(
    sought: Sought,
    method: Method,
    order: &[u16],
    can_stand: &dyn Fn(Selection) -> bool,
) -> Answer {
    let mut questions = Questions {
        can_stand,
        count: 0,
    };
    let (status, selection) = start(sought, method, order, &mut questions);
    Answer {
        status,
        count: questions.count,
        set: listed(selection, order),
    }
}

/// "ask all requests; if they can stand, stop (1 question). If N = 0, stop (1). Ask the host
/// rows alone, also when there are none; if they cannot stand, stop (2)."
fn start(
    sought: Sought,
    method: Method,
    order: &[u16],
    questions: &mut Questions,
) -> (u16, Selection) {
    let all = selection_of(order);
    if questions.ask(all) {
        return match sought {
            Sought::Conflict => (0, NONE),
            Sought::Relaxation => (0, all),
        };
    }
    if order.is_empty() || !questions.ask(NONE) {
        return (2, NONE);
    }
    let selection = match (method, sought) {
        (Method::OneByOne, Sought::Conflict) => one_by_one::conflict(order, questions),
        (Method::OneByOne, Sought::Relaxation) => one_by_one::relaxation(order, questions),
        (Method::Halving, Sought::Conflict) => halving::conflict(order, questions),
        (Method::Halving, Sought::Relaxation) => halving::relaxation(order, questions),
    };
    (1, selection)
}

/// d: "the least number with 2^d at least N".
pub fn halvings(requests: usize) -> u32 {
    (0..).find(|d| 1 << d >= requests).unwrap_or(0)
}

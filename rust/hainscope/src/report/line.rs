//! A report as one line of words: what stands or does not, and after how many questions.

use crate::report::{Report, Sought, Status};
use std::fmt;

/// ```
/// use hainscope::{Report, Sought, Status};
///
/// let report = Report {
///     sought: Sought::Conflict,
///     status: Status::Conflict,
///     count: 8,
///     requests: vec![2, 4, 3],
/// };
/// assert_eq!(
///     report.to_string(),
///     "requests 2, 4 and 3 cannot stand together (preferred conflict, 8 questions)"
/// );
/// ```
impl fmt::Display for Report {
    fn fmt(&self, out: &mut fmt::Formatter) -> fmt::Result {
        let (finding, preferred) = match (self.status, self.sought) {
            (Status::AllCanStand, Sought::Conflict) => (no_conflict(), ""),
            (Status::AllCanStand, Sought::Relaxation) => (whole(&self.requests), ""),
            (Status::Conflict, Sought::Conflict) => {
                (conflict(&self.requests), "preferred conflict, ")
            }
            (Status::Conflict, Sought::Relaxation) => {
                (relaxation(&self.requests), "preferred relaxation, ")
            }
            (Status::HostCannotStand, _) => (host_cannot_stand(), ""),
        };
        let questions = match self.count {
            1 => "1 question".to_string(),
            count => format!("{count} questions"),
        };
        write!(out, "{finding} ({preferred}{questions})")
    }
}

/// There is no conflict. How many requests there are, such a report does not tell.
fn no_conflict() -> String {
    "all requests can stand together".to_string()
}

/// The relaxation is all requests.
fn whole(requests: &[u16]) -> String {
    match requests.len() {
        0 => "there are no requests, and the host's rows can stand".to_string(),
        1 => "the only request can stand".to_string(),
        number => format!("all {number} requests can stand together"),
    }
}

/// These requests are a conflict. Where none is needed for it, it is the host's own.
fn conflict(requests: &[u16]) -> String {
    let named = named(requests);
    match requests.len() {
        0 => host_cannot_stand(),
        1 => format!("{named} cannot stand beside the host's rows"),
        _ => format!("{named} cannot stand together"),
    }
}

/// These requests are a relaxation that drops something.
fn relaxation(requests: &[u16]) -> String {
    let named = named(requests);
    match requests.len() {
        0 => format!("{named} can stand beside the host's rows"),
        1 => format!("{named} can stand, and no better set can"),
        _ => format!("{named} can stand together, and no better set can"),
    }
}

/// No selection can stand, not even that of no request.
fn host_cannot_stand() -> String {
    "the host's own rows cannot stand".to_string()
}

/// Some requests by their numbers: "no request", "request 2", "requests 2, 4 and 3".
fn named(requests: &[u16]) -> String {
    let numbers: Vec<String> = requests.iter().map(u16::to_string).collect();
    match numbers.split_last() {
        None => "no request".to_string(),
        Some((only, [])) => format!("request {only}"),
        Some((last, others)) => format!("requests {} and {last}", others.join(", ")),
    }
}

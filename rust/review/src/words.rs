//! The answer to an event in words, and in words too why there is none.

use crate::answer::Answer;
use crate::event::Event;
use crate::input::NoEvent;
use crate::names::{listed, written};
use crate::sentences::{all_can_stand, needed, HOST_CANNOT_STAND};
use hainscope::{Reason, Refusal, Status};

/// The answer, a few lines.
pub fn explain(event: &Event, answer: &Answer) -> String {
    let mut lines = Vec::new();
    lines.extend(
        event
            .name
            .iter()
            .map(|name| format!("Event: {}.", written(name))),
    );
    if !event.order.is_empty() {
        let names = listed(&names(event, &event.order));
        lines.push(format!("In order of importance: {names}."));
    }
    lines.extend(match answer.status() {
        Status::AllCanStand => vec![all_can_stand(event.plug_ins.len())],
        Status::HostCannotStand => vec![HOST_CANNOT_STAND.to_string()],
        Status::Conflict => conflict(event, answer),
    });
    lines.push(format!(
        "Questions asked: {} for the conflict, {} for the best set.",
        answer.conflict.count, answer.relaxation.count
    ));
    lines.push(String::new());
    lines.join("\n")
}

/// The names of some requests' plug-ins, as a text writes them.
fn names(event: &Event, requests: &[u16]) -> Vec<String> {
    let name = |request: &u16| written(event.plug_in(*request));
    requests.iter().map(name).collect()
}

/// Some plug-ins by name: "no plug-in", "plug-in a", "plug-ins a and b".
fn named(event: &Event, requests: &[u16]) -> String {
    let names = listed(&names(event, requests));
    match requests.len() {
        0 => "no plug-in".to_string(),
        1 => format!("plug-in {names}"),
        _ => format!("plug-ins {names}"),
    }
}

/// What cannot stand, and the best set that can.
fn conflict(event: &Event, answer: &Answer) -> Vec<String> {
    let conflict = &answer.conflict.requests;
    let cannot = match conflict.len() {
        1 => "Cannot stand, even alone",
        _ => "Cannot stand together",
    };
    vec![
        format!(
            "{cannot} (the preferred conflict): {}.",
            named(event, conflict)
        ),
        needed(conflict.len()).to_string(),
        format!(
            "The best set (the preferred relaxation): {}.",
            named(event, &answer.relaxation.requests)
        ),
        format!("It leaves out {}.", named(event, &answer.left_out)),
    ]
}

/// Why there is no event, a line for each thing that is wrong.
pub fn no_event(source: &str, wrong: &NoEvent) -> Vec<String> {
    match wrong {
        NoEvent::Refused(refusal, record) => {
            vec![format!("{source}: {}", refused(refusal, *record))]
        }
        NoEvent::Mistaken(mistakes) => {
            let mut lines: Vec<String> = mistakes
                .told()
                .iter()
                .map(|mistake| format!("{source}: {mistake}"))
                .collect();
            if mistakes.are_enough() {
                lines.push(format!("{source}: there may be more mistakes after these"));
            }
            lines
        }
    }
}

/// A refusal, with the number of its record.
fn refused(refusal: &Refusal, record: usize) -> String {
    let Refusal { number, place } = refusal;
    let reason = refusal.reason();
    match reason {
        Reason::TableTooLong => format!("table refused (number {number}): {reason}"),
        _ => format!("table refused (number {number}) at byte {place}, record {record} (the first is 0): {reason}"),
    }
}

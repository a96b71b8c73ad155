//! The answer to an event as JSON, for programs; docs/EVENT.md names its fields.

use crate::answer::Answer;
use crate::event::Event;
use crate::input::NoEvent;
use hainscope::Report;
use std::fmt::Write;

/// The answer as one object.
pub fn explain(event: &Event, answer: &Answer) -> String {
    let name = event
        .name
        .as_ref()
        .map_or("null".to_string(), |name| string(name));
    let mut relaxation = report(event, &answer.relaxation);
    relaxation.push(("left_out", plug_ins(event, &answer.left_out)));
    object(&[
        ("event", name),
        ("answered", "true".to_string()),
        ("order", plug_ins(event, &event.order)),
        ("conflict", object(&report(event, &answer.conflict))),
        ("relaxation", object(&relaxation)),
    ]) + "\n"
}

/// Why there is no answer, as one object.
pub fn no_event(wrong: &NoEvent) -> String {
    let mut fields = vec![("answered", "false".to_string())];
    match wrong {
        NoEvent::Refused(refusal, record) => {
            let refusal = [
                ("number", refusal.number.to_string()),
                ("place", refusal.place.to_string()),
                ("record", record.to_string()),
                ("reason", string(&refusal.reason().to_string())),
            ];
            fields.push(("refusal", object(&refusal)));
        }
        NoEvent::Mistaken(mistakes) => {
            let told = mistakes.told().iter().map(|mistake| {
                object(&[
                    ("line", mistake.line.to_string()),
                    ("column", mistake.column.to_string()),
                    ("words", string(&mistake.words)),
                ])
            });
            fields.push(("mistakes", list(told)));
            fields.push(("more", mistakes.are_enough().to_string()));
        }
    }
    object(&fields) + "\n"
}

/// The fields of a report.
fn report(event: &Event, report: &Report) -> Vec<(&'static str, String)> {
    vec![
        ("status", report.status.number().to_string()),
        ("questions", report.count.to_string()),
        ("plug_ins", plug_ins(event, &report.requests)),
    ]
}

/// Some requests, each with the name of its plug-in.
fn plug_ins(event: &Event, requests: &[u16]) -> String {
    list(requests.iter().map(|request| {
        object(&[
            ("request", request.to_string()),
            ("name", string(event.plug_in(*request))),
        ])
    }))
}

fn object(fields: &[(&str, String)]) -> String {
    let field = |(name, value): &(&str, String)| format!("{}: {value}", string(name));
    let fields: Vec<String> = fields.iter().map(field).collect();
    format!("{{{}}}", fields.join(", "))
}

fn list(values: impl Iterator<Item = String>) -> String {
    let values: Vec<String> = values.collect();
    format!("[{}]", values.join(", "))
}

/// A text in quotes, with what may not stand in them escaped.
fn string(text: &str) -> String {
    let mut quoted = String::from('"');
    for letter in text.chars() {
        match letter {
            '"' | '\\' => quoted.extend(['\\', letter]),
            _ if letter.is_control() => {
                let _ = write!(quoted, "\\u{:04x}", u32::from(letter));
            }
            _ => quoted.push(letter),
        }
    }
    quoted.push('"');
    quoted
}

//! The report: one record in a lent buffer from a given start
//! (document 01, "The report" and refusal 12).

use crate::meaning::Granted;
use crate::methods::{work, Answer, Method, Sought};
use crate::records::{CONFLICT, HEADING, RELAXATION};
use crate::refusal::Refusal;
use crate::rows::Event;

/// The body's bytes before the request numbers: u16 status, u32 count, u16 k.
const BEFORE_NUMBERS: usize = 8;

/// Writes the report and returns the place after it. A refused call changes nothing.
pub fn report(
    table: &[u8],
    sought: Sought,
    method: Method,
    buffer: &mut [u8],
    start: usize,
) -> Result<usize, Refusal> {
    let event = Event::of(table)?;
    has_room(buffer.len(), start, event.requests)?;
    let record = record(sought, &answer(&event, sought, method));
    let end = start + record.len();
    buffer[start..end].copy_from_slice(&record);
    Ok(end)
}

/// What a method finds on an event.
pub fn answer(event: &Event, sought: Sought, method: Method) -> Answer {
    let granted = Granted::by(event);
    work(sought, method, &event.order, &|selection| {
        granted.can_stand(selection)
    })
}

/// 12: "start past the buffer's end, or fewer than 12 + 2N bytes from it".
pub fn has_room(length: usize, start: usize, requests: u16) -> Result<(), Refusal> {
    let needed = HEADING + BEFORE_NUMBERS + 2 * usize::from(requests);
    match length.checked_sub(start) {
        Some(room) if room >= needed => Ok(()),
        _ => Err(Refusal::new(12, 0)),
    }
}

/// The record: L = 8 + 2k, kind 16 or 17, u16 status, u32 count, u16 k, k request numbers.
pub fn record(sought: Sought, answer: &Answer) -> Vec<u8> {
    let kind = match sought {
        Sought::Conflict => CONFLICT,
        Sought::Relaxation => RELAXATION,
    };
    let k = answer.set.len() as u16;
    let mut bytes = Vec::new();
    bytes.extend((BEFORE_NUMBERS as u16 + 2 * k).to_le_bytes());
    bytes.extend(kind.to_le_bytes());
    bytes.extend(answer.status.to_le_bytes());
    bytes.extend(answer.count.to_le_bytes());
    bytes.extend(k.to_le_bytes());
    bytes.extend(answer.set.iter().flat_map(|request| request.to_le_bytes()));
    bytes
}

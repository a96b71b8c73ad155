//! The answer to an event: both reports of the proved library. Nothing is found here; what the
//! reports say of each plug-in is looked up in their sets.

use crate::event::Event;
use crate::progress::Progress;
use hainscope::{Refusal, Report, Sought, Status, Table};

/// The reports on an event.
#[derive(Clone, Debug, PartialEq, Eq)]
pub struct Answer {
    /// The preferred conflict.
    pub conflict: Report,
    /// The preferred relaxation: the best set.
    pub relaxation: Report,
    /// The requests that the best set leaves out, most important first.
    pub left_out: Vec<u16>,
}

impl Answer {
    /// Asks the library for both reports, by halving.
    ///
    /// # Errors
    ///
    /// The library's refusal; an event that was read from a text or a table is not refused.
    pub fn to(event: &Event, progress: &Progress) -> Result<Answer, Refusal> {
        let bytes = event.table();
        let table = Table::read(&bytes)?;
        let find = |words: &str, sought| progress.during(words, || table.report(sought));
        let conflict = find("looking for what cannot stand", Sought::Conflict)?;
        let relaxation = find("looking for the best set", Sought::Relaxation)?;
        let is_left_out = |request: &u16| !relaxation.requests.contains(request);
        let left_out = event.order.iter().copied().filter(is_left_out);
        let left_out = left_out.collect();
        Ok(Answer {
            conflict,
            relaxation,
            left_out,
        })
    }

    /// How it stands with the event. Both reports have the same status.
    pub fn status(&self) -> Status {
        self.conflict.status
    }
}

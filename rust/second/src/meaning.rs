//! What a table means: settings, what meets a row, and what can stand
//! (document 01, "Meaning"), by exhaustion of all 2^V settings.

use crate::refusal::Refusal;
use crate::rows::{Event, Row};
use crate::selection::{holds, names_above, only, Selection};

/// 0 or 1 for each variable: variable i at bit i.
pub type Setting = u32;

/// All settings of V variables: one with V = 0.
pub fn settings(variables: u16) -> std::ops::Range<Setting> {
    0..1 << variables
}

/// The value of a variable, 0 or 1.
pub fn value(setting: Setting, variable: u16) -> i64 {
    i64::from(setting >> variable & 1)
}

/// "A literal is twice the variable, plus 1 where it is negated."
pub fn is_true(setting: Setting, literal: u16) -> bool {
    let negated = literal % 2 == 1;
    (value(setting, literal / 2) == 1) != negated
}

/// Whether a setting meets a row.
pub fn meets(setting: Setting, row: &Row) -> bool {
    match row {
        Row::Clause { literals, .. } => literals.iter().any(|literal| is_true(setting, *literal)),
        Row::Linear { bound, terms, .. } => {
            let term =
                |(variable, weight): &(u16, i32)| i64::from(*weight) * value(setting, *variable);
            terms.iter().map(term).sum::<i64>() <= i64::from(*bound)
        }
    }
}

/// Whether "some setting meets all host rows and all rows of the selected requests".
pub fn can_stand(event: &Event, selection: Selection) -> bool {
    let asked = |row: &&Row| row.role() == 0 || holds(selection, row.role());
    let meets_all = |setting| {
        event
            .rows
            .iter()
            .filter(asked)
            .all(|row| meets(setting, row))
    };
    settings(event.variables).any(meets_all)
}

/// The question as a call: the table's refusals, then 11, then the answer.
pub fn question(table: &[u8], selection: Selection) -> Result<bool, Refusal> {
    let event = Event::of(table)?;
    if names_above(selection, event.requests) {
        return Err(Refusal::new(11, 0));
    }
    Ok(can_stand(&event, selection))
}

/// For each setting that meets all host rows: the requests it meets. It answers many questions
/// on one event from one walk over the settings.
pub struct Granted {
    selections: Vec<Selection>,
}

impl Granted {
    /// Walks all settings of an event.
    pub fn by(event: &Event) -> Granted {
        let granted = |setting| met_requests(event, setting);
        let mut selections: Vec<Selection> =
            settings(event.variables).filter_map(granted).collect();
        selections.sort_unstable();
        selections.dedup();
        Granted { selections }
    }

    /// Whether some setting meets all host rows and at least the selected requests.
    pub fn can_stand(&self, selection: Selection) -> bool {
        let within = |granted: &Selection| selection & !granted == 0;
        self.selections.iter().any(within)
    }
}

/// The requests all of whose rows a setting meets, or none where it misses a host row.
fn met_requests(event: &Event, setting: Setting) -> Option<Selection> {
    let all = (1..=event.requests).fold(0, |selection, request| selection | only(request));
    let mut met = all;
    for row in &event.rows {
        if !meets(setting, row) {
            match row.role() {
                0 => return None,
                request => met &= !only(request),
            }
        }
    }
    Some(met)
}

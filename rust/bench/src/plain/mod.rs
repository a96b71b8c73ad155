//! The library's search written again in plain Rust, over rows that are decoded once. It tests the
//! same rows in the same sequence, so that the ratio of the times is what it costs to read each row
//! from the table's bytes, in the proved code.
//!
//! `state` says what a half-made setting leaves of a row, `notes` which variable the open rows need
//! most, `choice` what is decided next.

mod choice;
mod notes;
mod state;

use choice::{choose, Choice};
use notes::Notes;
use second::rows::{Event, Row};
use second::selection::{holds, Selection};
use state::{state, Range, State};

/// Whether a selection can stand.
pub fn can_stand(event: &Event, selection: Selection) -> bool {
    let asked = |row: &&Row| row.role() == 0 || holds(selection, row.role());
    let mut rows: Vec<&Row> = event.rows.iter().filter(asked).collect();
    let variables = event.variables.into();
    let mut search = Search {
        setting: vec![Range::UNDECIDED; variables],
        notes: Notes::of(variables),
    };
    search.complete(&mut rows, 0)
}

/// A search in progress.
struct Search {
    setting: Vec<Range>,
    notes: Notes,
}

impl Search {
    /// Whether some setting with the decided values meets the rows. So many levels more are decided
    /// blindly, that is without a look at the rows.
    fn complete(&mut self, rows: &mut [&Row], blind: usize) -> bool {
        let open = match blind {
            0 => self.narrow(rows),
            _ => Ok(rows.len()),
        };
        let rows = match open {
            Ok(0) => return true,
            Ok(open) => &mut rows[..open],
            Err(tested) => {
                self.notes.blame(&self.setting, tested);
                return false;
            }
        };
        match choose(&mut self.notes, rows, &self.setting, blind) {
            Some(choice) => self.decide(rows, choice),
            None => self.narrow(rows).is_ok(),
        }
    }

    /// Whether some setting with either value of the chosen variable meets the rows.
    fn decide(&mut self, rows: &mut [&Row], choice: Choice) -> bool {
        let mut met_with = |value| {
            self.setting[choice.variable] = Range::decided(value);
            self.complete(rows, choice.blind)
        };
        let answer = met_with(choice.first) || met_with(!choice.first);
        self.setting[choice.variable] = Range::UNDECIDED;
        answer
    }

    /// Moves the open rows to the front and tells how many they are; or, where no completion meets
    /// some row, puts that one first and tells how many were tested.
    fn narrow(&self, rows: &mut [&Row]) -> Result<usize, usize> {
        let mut open = 0;
        for next in 0..rows.len() {
            let state = state(rows[next], &self.setting);
            if state == State::Missed {
                rows.swap(0, next);
                return Err(next + 1);
            }
            rows.swap(open, next);
            open += usize::from(state == State::Open);
        }
        Ok(open)
    }
}

//! What is decided next: a variable, the value that is tried first, and how many levels below are
//! decided blindly.

use super::notes::Notes;
use super::state::Range;
use second::rows::Row;

/// So many variables are tried blindly at most, and so many settings of them for each open row.
const MOST_BLIND: usize = 12;
const MOST_SETTINGS: usize = 8;

/// The choice for one level of the search.
pub struct Choice {
    /// The variable that is decided.
    pub variable: usize,
    /// The value that is tried first.
    pub first: bool,
    /// How many levels below are decided blindly.
    pub blind: usize,
}

/// The choice at a level where these rows are open and so many levels more are decided blindly;
/// none where every variable is decided. Among equals the lowest number is taken, as the last.
pub fn choose(notes: &mut Notes, rows: &[&Row], setting: &[Range], blind: usize) -> Option<Choice> {
    if blind == 0 {
        notes.score(rows, setting);
    }
    let variables = (0..setting.len()).rev();
    let undecided = variables.filter(|variable| setting[*variable].is_undecided());
    let variable = undecided
        .clone()
        .max_by_key(|variable| notes.rank_of(*variable))?;
    let named = undecided.filter(|variable| notes.score_of(*variable) > 0);
    let below = match blind {
        0 => blind_below(named.count(), rows.len()),
        _ => blind - 1,
    };
    Some(Choice {
        variable,
        first: notes.better_value(variable),
        blind: below,
    })
}

/// How many levels are decided blindly below one where so many variables are named by the open
/// rows: where these variables are few beside the rows, all their settings are tried, and the rows
/// are tested once they are all decided.
fn blind_below(named: usize, rows: usize) -> usize {
    match named {
        1..=MOST_BLIND if 1 << named <= MOST_SETTINGS * rows => named - 1,
        _ => 0,
    }
}

//! What the choice notes for itself while a search goes on: the score of each literal, and how dear
//! each variable has been.

use super::state::{ends, Range};
use second::rows::Row;

/// What a row adds to the score of a literal that it needs.
const NEEDED: u32 = 1 << 19;
/// With fewer row tests before one failed, nobody is blamed.
const MANY_TESTS: usize = 16;

/// The notes.
pub struct Notes {
    scores: Vec<u32>,
    dearness: Vec<u32>,
}

impl Notes {
    /// The notes of so many variables, before anything is noted.
    pub fn of(variables: usize) -> Notes {
        Notes {
            scores: vec![0; 2 * variables],
            dearness: vec![0; variables],
        }
    }

    /// Scores all literals anew, by the open rows.
    pub fn score(&mut self, rows: &[&Row], setting: &[Range]) {
        self.scores.fill(0);
        for row in rows {
            match row {
                Row::Clause { literals, .. } => self.score_clause(literals, setting),
                Row::Linear { bound, terms, .. } => {
                    let room = i64::from(*bound) - ends(terms, setting).0;
                    self.score_terms(terms, room, setting);
                }
            }
        }
    }

    /// Adds the shares of a clause: any undecided literal can stand in for the others.
    fn score_clause(&mut self, literals: &[u16], setting: &[Range]) {
        let is_undecided = |literal: &&u16| setting[usize::from(*literal / 2)].is_undecided();
        let undecided = literals.iter().filter(is_undecided).count();
        for literal in literals {
            self.add(*literal, share(undecided.saturating_sub(1)));
        }
    }

    /// Adds the shares of a linear row: others can stand in for a term as often as its weight goes
    /// into the room, which the least sum leaves below the bound.
    fn score_terms(&mut self, terms: &[(u16, i32)], room: i64, setting: &[Range]) {
        for (variable, weight) in terms {
            if *weight != 0 && setting[usize::from(*variable)].is_undecided() {
                let others = room.max(0) / i64::from(weight.abs());
                let helping = 2 * variable + u16::from(*weight > 0);
                self.add(helping, share(others as usize));
            }
        }
    }

    /// Adds to the score of a literal.
    fn add(&mut self, literal: u16, more: u32) {
        let score = &mut self.scores[usize::from(literal)];
        *score = score.wrapping_add(more);
    }

    /// The score of a variable: what its two literals have together.
    pub fn score_of(&self, variable: usize) -> u32 {
        self.scores[2 * variable].wrapping_add(self.scores[2 * variable + 1])
    }

    /// What variables are compared by: dearness first, then score; 0 without a score.
    pub fn rank_of(&self, variable: usize) -> u64 {
        match self.score_of(variable) {
            0 => 0,
            score => u64::from(self.dearness[variable]) << 32 | u64::from(score),
        }
    }

    /// The value that helps the literal with the higher score; 1 where both have one score.
    pub fn better_value(&self, variable: usize) -> bool {
        self.scores[2 * variable] >= self.scores[2 * variable + 1]
    }

    /// Makes the variables that were decided since the rows were scored dearer, where a row failed
    /// only after many were tested.
    pub fn blame(&mut self, setting: &[Range], tested: usize) {
        let more = (tested / MANY_TESTS) as u32;
        if more == 0 {
            return;
        }
        for (variable, range) in setting.iter().enumerate() {
            if !range.is_undecided() && self.score_of(variable) > 0 {
                self.dearness[variable] += more;
            }
        }
    }
}

/// What a row adds to the score of a literal that so many others can stand in for: half as much for
/// each of them.
fn share(others: usize) -> u32 {
    (NEEDED >> others.min(19)).max(1)
}

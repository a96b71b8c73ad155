//! What a half-made setting leaves of a row.

use second::rows::Row;

/// What a variable may still be: both ends are its value once it is decided.
#[derive(Clone, Copy, Debug, PartialEq, Eq)]
pub struct Range {
    least: i64,
    most: i64,
}

impl Range {
    /// The range of a variable that is not decided.
    pub const UNDECIDED: Range = Range { least: 0, most: 1 };

    /// The range of a decided variable.
    pub fn decided(value: bool) -> Range {
        let value = i64::from(value);
        Range {
            least: value,
            most: value,
        }
    }

    /// Whether the variable is not decided.
    pub fn is_undecided(self) -> bool {
        self.least < self.most
    }
}

/// The state of a row.
#[derive(Clone, Copy, Debug, PartialEq, Eq)]
pub enum State {
    /// Every completion meets it.
    Met,
    /// Some may meet it, and some may not.
    Open,
    /// No completion meets it.
    Missed,
}

/// The state of a row under a half-made setting.
pub fn state(row: &Row, setting: &[Range]) -> State {
    match row {
        Row::Clause { literals, .. } => clause_state(literals, setting),
        Row::Linear { bound, terms, .. } => {
            let (least, most) = ends(terms, setting);
            match i64::from(*bound) {
                bound if most <= bound => State::Met,
                bound if least <= bound => State::Open,
                _ => State::Missed,
            }
        }
    }
}

/// The state of a clause.
fn clause_state(literals: &[u16], setting: &[Range]) -> State {
    let mut state = State::Missed;
    for literal in literals {
        let range = setting[usize::from(literal / 2)];
        let helping = i64::from(literal % 2 == 0);
        if range.is_undecided() {
            state = State::Open;
        } else if range.least == helping {
            return State::Met;
        }
    }
    state
}

/// The least and the most that some terms can add up to.
pub fn ends(terms: &[(u16, i32)], setting: &[Range]) -> (i64, i64) {
    let (mut least, mut most) = (0, 0);
    for (variable, weight) in terms {
        let range = setting[usize::from(*variable)];
        let weight = i64::from(*weight);
        let (low, high) = match weight < 0 {
            true => (range.most, range.least),
            false => (range.least, range.most),
        };
        least += weight * low;
        most += weight * high;
    }
    (least, most)
}

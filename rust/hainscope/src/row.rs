//! The rows of a table: whose they are, and what they ask of a setting.
//! They are decoded from bytes that the library has accepted, so that nothing is tested again.

use crate::kind::Kind;
use crate::records::Record;
use crate::table::Table;
use crate::words::{word, words};

/// A row of the host, or of a request.
#[derive(Clone, Debug, PartialEq, Eq, Hash)]
pub struct Row {
    /// Whose it is: 0 is the host, r is request r.
    pub role: u16,
    /// What it asks of a setting.
    pub condition: Condition,
}

/// What a row asks of a setting.
#[derive(Clone, Debug, PartialEq, Eq, Hash)]
pub enum Condition {
    /// At least one of these literals is true. Where there are none, no setting meets it.
    Clause(Vec<u16>),
    /// The weights of the variables that are 1 add up to at most the bound.
    Linear {
        /// The bound.
        bound: i32,
        /// Variables, each with its weight; one may be named twice.
        terms: Vec<(u16, i32)>,
    },
}

impl<'a> Table<'a> {
    /// The rows, in the sequence of their records.
    ///
    /// ```
    /// use hainscope::{wants, Condition, Row, Table, TableBuilder};
    ///
    /// let rows = [
    ///     Row { role: 0, condition: Condition::Linear { bound: -1, terms: vec![(1, -3)] } },
    ///     Row { role: 1, condition: Condition::Clause(vec![wants(0), wants(1)]) },
    /// ];
    /// let bytes = TableBuilder::new(2, 1).row(&rows[0]).row(&rows[1]).table();
    /// assert_eq!(Table::read(&bytes)?.rows().collect::<Vec<Row>>(), rows);
    /// # Ok::<(), hainscope::Refusal>(())
    /// ```
    pub fn rows(&self) -> impl Iterator<Item = Row> + 'a {
        self.records().filter_map(row)
    }
}

/// The row of a record, if its kind is one of a row.
fn row(Record { kind, body, .. }: Record) -> Option<Row> {
    let condition = match kind {
        Kind::Clause => Condition::Clause(words(&body[2..]).collect()),
        Kind::Linear => Condition::Linear {
            bound: number(body, 2),
            terms: body[6..].chunks_exact(6).map(term).collect(),
        },
        Kind::Head | Kind::Order | Kind::Check => return None,
    };
    let role = word(body, 0);
    Some(Row { role, condition })
}

/// A term of a linear row: its variable and its weight.
fn term(bytes: &[u8]) -> (u16, i32) {
    (word(bytes, 0), number(bytes, 2))
}

/// The i32 at a place of some bytes.
fn number(bytes: &[u8], place: usize) -> i32 {
    let [low, high] = [word(bytes, place), word(bytes, place + 2)].map(u32::from);
    (low | high << 16) as i32
}

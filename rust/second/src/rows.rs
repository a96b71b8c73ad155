//! The rows of an accepted table, decoded, with its sizes and its order
//! (document 01, "Table bytes").

use crate::body::records;
use crate::reading::read;
use crate::records::{signed, word, words, Record, CLAUSE, ORDER};
use crate::refusal::Refusal;

/// One row.
#[derive(Clone, Debug, PartialEq, Eq)]
pub enum Row {
    /// Met where at least one literal is true.
    Clause {
        /// 0 for a host row, r for a row of request r.
        role: u16,
        /// Twice the variable, plus 1 where it is negated.
        literals: Vec<u16>,
    },
    /// Met where the sum of weight times value is at most the bound.
    Linear {
        /// 0 for a host row, r for a row of request r.
        role: u16,
        /// The bound, any i32.
        bound: i32,
        /// Variable and weight.
        terms: Vec<(u16, i32)>,
    },
}

/// What an accepted table says.
#[derive(Clone, Debug, PartialEq, Eq)]
pub struct Event {
    /// V, the number of variables.
    pub variables: u16,
    /// N, the number of requests.
    pub requests: u16,
    /// The rows as they stand in the table.
    pub rows: Vec<Row>,
    /// c1 .. cN, most important first.
    pub order: Vec<u16>,
}

impl Row {
    /// 0 for a host row, r for a row of request r.
    pub fn role(&self) -> u16 {
        match self {
            Row::Clause { role, .. } | Row::Linear { role, .. } => *role,
        }
    }

    /// The row that a record of kind 2 or 3 holds.
    fn of(record: &Record) -> Row {
        let role = word(record.body, 0);
        if record.kind == CLAUSE {
            let literals = words(&record.body[2..]).collect();
            Row::Clause { role, literals }
        } else {
            let bound = signed(record.body, 2);
            let term = |six: &[u8]| (word(six, 0), signed(six, 2));
            let terms = record.body[6..].chunks_exact(6).map(term).collect();
            Row::Linear { role, bound, terms }
        }
    }
}

impl Event {
    /// Reads a table and decodes it.
    pub fn of(table: &[u8]) -> Result<Event, Refusal> {
        let frame = read(table)?;
        let rows = records(table).filter(Record::is_row);
        let order = records(table).find(|record| record.kind == ORDER);
        Ok(Event {
            variables: frame.variables,
            requests: frame.requests,
            rows: rows.map(|record| Row::of(&record)).collect(),
            order: order.map_or(Vec::new(), |record| words(record.body).collect()),
        })
    }
}

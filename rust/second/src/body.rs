//! The body of a record, asked for by its number; the first is 0
//! (document 01, "What the reviewer gets" and refusal 13).

use crate::reading::read;
use crate::records::Record;
use crate::refusal::Refusal;

/// A stretch of the caller's own table.
#[derive(Clone, Copy, Debug, PartialEq, Eq)]
pub struct Stretch {
    /// The place of the body's first byte.
    pub place: usize,
    /// The number of its bytes; it may be 0.
    pub length: usize,
}

/// The body of the record of this number, or 13 at the table's length where there is none.
pub fn body(table: &[u8], number: usize) -> Result<Stretch, Refusal> {
    read(table)?;
    match records(table).nth(number) {
        Some(record) => Ok(Stretch {
            place: record.body_place(),
            length: record.body.len(),
        }),
        None => Err(Refusal::new(13, table.len())),
    }
}

/// The records of an accepted table, from the first on.
pub fn records(table: &[u8]) -> impl Iterator<Item = Record<'_>> {
    let first = Record::at(table, 0);
    std::iter::successors(first, |record| Record::at(table, record.end()))
}

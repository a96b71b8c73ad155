//! Both sides of every limit of document 01, each table with the number and the place that
//! reading must give it; number 0, with place 0, is an accepted table.

mod fields;
mod records;

use crate::draft::Draft;

/// A table beside a limit.
#[derive(Clone, Debug)]
pub struct Edge {
    /// What it is.
    pub name: String,
    /// Its bytes.
    pub table: Vec<u8>,
    /// The refusal number that it must give; 0: accepted.
    pub number: u32,
    /// The place that it must give.
    pub place: usize,
}

/// All of them.
pub fn edges() -> Vec<Edge> {
    [fields::all(), records::all()].concat()
}

/// An accepted table.
fn passes(name: &str, draft: &Draft) -> Edge {
    Edge {
        name: name.to_string(),
        table: draft.mended(),
        number: 0,
        place: 0,
    }
}

/// A table refused at the record of an index, its CHECK word mended.
fn refused(name: &str, draft: &Draft, number: u32, record: usize) -> Edge {
    Edge {
        name: name.to_string(),
        table: draft.mended(),
        number,
        place: draft.place_of(record),
    }
}

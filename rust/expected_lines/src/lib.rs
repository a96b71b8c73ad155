//! Made tables for the program, in groups. The second program says which lines the program must
//! print for each; `main` writes both to a folder, and tests/made.sh of the top folder compares.
//!
//! `whole` has the tables at all limits at once, `seeds` those that are made from a seed.
#![forbid(unsafe_code)]

mod seeds;
mod whole;

use made::edges::{edges, Edge};

/// A table with the name by which it is found again.
#[derive(Clone)]
pub struct Named {
    /// What it is, or its seed; no two of a group are named alike.
    pub name: String,
    /// Its bytes.
    pub table: Vec<u8>,
}

/// Tables of one sort.
pub struct Group {
    /// What they are.
    pub name: &'static str,
    /// The tables.
    pub tables: Vec<Named>,
}

/// All groups.
pub fn groups() -> Vec<Group> {
    let group = |name, tables| Group { name, tables };
    vec![
        group("both sides of every limit", both_sides()),
        group("all limits at once", whole::all()),
        group("made events", seeds::events()),
        group("large events", seeds::large_events()),
        group("valid and damaged tables", seeds::mixed()),
    ]
}

/// Both sides of every limit.
fn both_sides() -> Vec<Named> {
    let named = |Edge { name, table, .. }| Named { name, table };
    edges().into_iter().map(named).collect()
}

//! The limits of a table, each at one place. The library holds every table to them; whoever writes a
//! table may use them to say beforehand, in words of his own, what would be refused.

/// The most bytes of a table.
pub const MOST_TABLE_BYTES: usize = 32_768;

/// The most variables that a table may have.
pub const MOST_VARIABLES: u16 = 20;

/// The most requests that a table may have.
pub const MOST_REQUESTS: u16 = 64;

/// The most rows of a table, clauses and linear rows together.
pub const MOST_ROWS: usize = 512;

/// The most literals of a clause.
pub const MOST_LITERALS: usize = 64;

/// The most terms of a linear row.
pub const MOST_TERMS: usize = 20;

/// The greatest weight of a term; the least is as far below 0.
pub const MOST_WEIGHT: i32 = 1_000_000;

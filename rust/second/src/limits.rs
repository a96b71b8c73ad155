//! The limits of document 01 ("Table bytes"), each written once.
//! Every test of a size in this crate names one of these.

/// "A table has at most 32,768 bytes."
pub const MOST_BYTES: usize = 32_768;
/// "u16 V, variables, 0 to 20"
pub const MOST_VARIABLES: u16 = 20;
/// "u16 N, requests, 0 to 64"
pub const MOST_REQUESTS: u16 = 64;
/// "rows (kinds 2 and 3, at most 512 together)"
pub const MOST_ROWS: usize = 512;
/// "then 0 to 64 literals of u16"
pub const MOST_LITERALS: usize = 64;
/// "then 0 to 20 terms of u16 variable and i32 weight"
pub const MOST_TERMS: usize = 20;
/// "Weights are -1,000,000 to 1,000,000"
pub const MOST_WEIGHT: i32 = 1_000_000;

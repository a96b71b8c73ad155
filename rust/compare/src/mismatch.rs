//! What is printed where the library and the second program differ: what was asked, the seed,
//! the table in hex and both answers.

use std::fmt::Debug;

/// What was asked: enough to ask it again.
pub struct Asked<'a> {
    /// The call and its numbers.
    pub call: &'a str,
    /// The seed of the table, or its number in a list.
    pub seed: u64,
    /// The table.
    pub table: &'a [u8],
}

/// Fails where the answers differ.
pub fn same<T: PartialEq + Debug>(asked: &Asked, library: T, second: T) {
    if library != second {
        panic!(
            "{} differs\nseed: {}\ntable: {}\nlibrary: {library:?}\nsecond:  {second:?}",
            asked.call,
            asked.seed,
            hex(asked.table)
        );
    }
}

/// Bytes as hex digits.
pub fn hex(bytes: &[u8]) -> String {
    let digits: Vec<String> = bytes.iter().map(|byte| format!("{byte:02X}")).collect();
    digits.join(" ")
}

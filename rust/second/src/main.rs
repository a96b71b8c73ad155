//! The second program as a program: reads a table from standard input and prints document 01's
//! lines, to be laid beside what the proved program prints.
#![forbid(unsafe_code)]

use std::io::{self, Read, Write};

fn main() -> io::Result<()> {
    let mut table = Vec::new();
    io::stdin().lock().read_to_end(&mut table)?;
    io::stdout().write_all(second::program::output(&table).as_bytes())
}

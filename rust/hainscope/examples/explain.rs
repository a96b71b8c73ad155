//! Reads a table from a file, or from standard input, and prints the preferred conflict and the
//! preferred relaxation in words:
//! `cargo run --release --offline -p hainscope --example explain -- TABLE`.

use hainscope::{Sought, Table};
use std::error::Error;
use std::io::{self, Read, Write};
use std::{env, fs};

fn main() -> Result<(), Box<dyn Error>> {
    let bytes = match env::args_os().nth(1) {
        Some(file) => fs::read(file)?,
        None => {
            let mut bytes = Vec::new();
            io::stdin().read_to_end(&mut bytes)?;
            bytes
        }
    };
    let table = Table::read(&bytes)?;
    let conflict = table.report(Sought::Conflict)?;
    let relaxation = table.report(Sought::Relaxation)?;
    writeln!(io::stdout(), "{conflict}\n{relaxation}")?;
    Ok(())
}

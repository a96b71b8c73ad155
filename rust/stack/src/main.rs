//! Prints how much stack each exported function of an archive uses at most, with the deepest chain
//! of calls by its compiled code: `cargo run --release --offline -p stack [ARCHIVE]`. Without an
//! archive it is the one that the crate `hainscope` links, and what was measured stands beside it.
//! It fails where something is above the limit or cannot be followed.
#![forbid(unsafe_code)]

use stack::archive::{disassembled, linked};
use stack::chain::chains;
use stack::exported::EXPORTED;
use stack::MOST_STACK;
use std::env;
use std::error::Error;
use std::path::PathBuf;
use std::process::ExitCode;

fn main() -> ExitCode {
    match print() {
        Ok(true) => ExitCode::SUCCESS,
        Ok(false) => {
            eprintln!("more than {MOST_STACK} bytes");
            ExitCode::FAILURE
        }
        Err(error) => {
            eprintln!("{error}");
            ExitCode::FAILURE
        }
    }
}

/// Prints all exported functions, and tells whether all are within the limit.
fn print() -> Result<bool, Box<dyn Error>> {
    let named = env::args_os().nth(1).map(PathBuf::from);
    let is_linked = named.is_none();
    let disassembly = disassembled(&named.unwrap_or_else(linked))?;
    println!("stack below the caller, at most {MOST_STACK} bytes:");
    let mut within = true;
    for (name, chain) in chains(&disassembly)? {
        let total = chain.total();
        println!("{name}: {total} bytes by its code");
        print!("{chain}");
        let function = EXPORTED.iter().find(|function| function.name == name);
        if let Some(function) = function.filter(|_| is_linked) {
            let painted = function.painted();
            println!("  measured: {painted} bytes");
            within &= painted <= MOST_STACK;
        }
        within &= total <= MOST_STACK;
    }
    Ok(within)
}

//! Writes the made tables to a folder, `cargo run --release --offline -p expected_lines FOLDER`: a folder for
//! each group, in it NAME.table and beside it NAME.expected, the lines that the second program
//! prints for it, as samples/ has them.
#![forbid(unsafe_code)]

use expected_lines::{groups, Group};
use second::program::output;
use std::path::Path;
use std::thread::{self, ScopedJoinHandle};
use std::{env, fs, io, process};

fn main() -> io::Result<()> {
    let Some(folder) = env::args_os().nth(1) else {
        eprintln!("usage: expected_lines FOLDER");
        process::exit(2);
    };
    write_all(Path::new(&folder), &groups())
}

/// Writes all groups at the same time: a table at all limits takes the second program seconds.
fn write_all(folder: &Path, groups: &[Group]) -> io::Result<()> {
    thread::scope(|scope| {
        let start = |group| scope.spawn(move || write(folder, group));
        let writers: Vec<_> = groups.iter().map(start).collect();
        let end = |writer: ScopedJoinHandle<_>| writer.join().expect("no writer panics");
        writers.into_iter().try_for_each(end)
    })
}

/// Writes the tables of a group, each with its lines, to the group's own folder.
fn write(folder: &Path, group: &Group) -> io::Result<()> {
    let folder = folder.join(group.name);
    fs::create_dir_all(&folder)?;
    for made in &group.tables {
        fs::write(folder.join(format!("{}.table", made.name)), &made.table)?;
        let lines = output(&made.table);
        fs::write(folder.join(format!("{}.expected", made.name)), lines)?;
    }
    Ok(())
}

//! The archive whose code is bounded, and its disassembly by binutils' objdump.

use crate::disassembly::Disassembly;
use std::env;
use std::error::Error;
use std::path::{Path, PathBuf};
use std::process::Command;

/// The archive that the crate `hainscope` links.
pub fn linked() -> PathBuf {
    PathBuf::from(env!("HAINSCOPE_ARCHIVE"))
}

/// The disassembly of an archive, by `objdump` or by the program that OBJDUMP names.
pub fn disassembled(archive: &Path) -> Result<Disassembly, Box<dyn Error>> {
    let program = env::var_os("OBJDUMP").unwrap_or("objdump".into());
    let mut command = Command::new(&program);
    command
        .args(["-d", "-r", "--no-show-raw-insn"])
        .arg(archive);
    let printed = command.output().map_err(|error| {
        let program = program.to_string_lossy();
        format!("{program} cannot be run: {error}")
    })?;
    if !printed.status.success() {
        let complaint = String::from_utf8_lossy(&printed.stderr);
        return Err(complaint.trim().into());
    }
    Ok(Disassembly::read(&String::from_utf8(printed.stdout)?)?)
}

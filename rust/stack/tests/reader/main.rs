//! Small made disassemblies, of which the stack is known or which must be refused: the bound by the
//! code of the archive is worth what these are.

mod aarch64;
mod refused;
mod x86_64;

use stack::chain::chains;
use stack::disassembly::Disassembly;
use stack::unfollowed::Unfollowed;

/// A function's name, and its instructions and relocations line by line.
type Code<'a> = (&'a str, &'a [&'a str]);

/// What objdump prints of functions, each in a section of its own. Instructions have four bytes; a
/// line that begins with R_ is the relocation of the one before it.
fn printed(format: &str, functions: &[Code]) -> String {
    let mut text = format!("In archive made.a:\n\nmade.o:     file format {format}\n\n");
    for (name, lines) in functions {
        text += &format!("\nDisassembly of section .text.{name}:\n\n0000000000000000 <{name}>:\n");
        let mut next = 0;
        for line in *lines {
            if line.starts_with("R_") {
                text += &format!("\t\t\t{:x}: {line}\n", next - 4);
            } else {
                text += &format!("{next:4x}:\t{line}\n");
                next += 4;
            }
        }
    }
    text
}

/// The total of the one exported function, `hainscope_made`.
fn total(format: &str, functions: &[Code]) -> Result<usize, Unfollowed> {
    let found = chains(&Disassembly::read(&printed(format, functions))?)?;
    Ok(found["hainscope_made"].total())
}

/// Why functions are refused.
fn why(format: &str, functions: &[Code]) -> String {
    match total(format, functions) {
        Ok(total) => format!("not refused: {total} bytes"),
        Err(unfollowed) => unfollowed.why.into(),
    }
}

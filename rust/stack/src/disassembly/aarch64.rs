//! The instructions of aarch64 that move the stack pointer or lead elsewhere, as objdump prints them:
//! what is written stands first, and an address that is written back has `!` or a number behind it.
//! Any other instruction that has the stack pointer in such a place is refused.

use super::step::{number, operands, target, Movement, Next, Step};
use super::Instruction;

/// A call keeps the address to return to in a register.
pub const RETURN_ADDRESS: usize = 0;
/// Nothing below the stack pointer is a function's own.
pub const RED_ZONE: usize = 0;

/// The frame pointer and its half.
const FRAME_POINTER: [&str; 2] = ["x29", "w29"];
/// Relocations of calls and jumps.
const RELOCATIONS: [&str; 4] = [
    "R_AARCH64_CALL26",
    "R_AARCH64_JUMP26",
    "R_AARCH64_CONDBR19",
    "R_AARCH64_TSTBR14",
];
/// Beginnings of instructions that lead elsewhere; those that are known are taken out before.
const REFUSED: [&str; 9] = [
    "bl", "bra", "ret", "eret", "drps", "svc", "hvc", "smc", ".inst",
];
/// Instructions that name a place without going there.
const ONLY_NAMES: [&str; 5] = ["adr", "adrp", "ldr", "ldrsw", "prfm"];

/// What an instruction does, or why it is not known.
pub fn step(instruction: &Instruction) -> Result<Step, &'static str> {
    let (name, rest) = parted(&instruction.text);
    let operands = operands(rest);
    if let Some(next) = next(instruction, name, &operands)? {
        return Ok(Step::goes(next));
    }
    if REFUSED.iter().any(|start| name.starts_with(start))
        || rest.contains('<') && !ONLY_NAMES.contains(&name)
    {
        return Err("an instruction that is not known");
    }
    let movement = match operands.as_slice() {
        ["sp" | "wsp", ..] => written(name, &operands)
            .ok_or("the stack pointer is written in a way that is not known")?,
        ["x29", "sp"] if name == "mov" => Movement::SetFrame(0),
        ["x29", "sp", by] if name == "add" => {
            Movement::SetFrame(immediate(by).ok_or("a number that is not read")?)
        }
        _ => written_back(&operands)?,
    };
    let sets_frame = matches!(movement, Movement::SetFrame(_));
    let loses_frame = !sets_frame && may_write_frame_pointer(name, &operands);
    Ok(Step::moves(movement).losing_frame(loses_frame))
}

/// Whether an instruction only fills up the code to the next multiple of something.
pub fn is_padding(instruction: &Instruction) -> bool {
    parted(&instruction.text).0 == "nop"
}

/// The name and the operands of an instruction, without the comment.
fn parted(text: &str) -> (&str, &str) {
    let text = text.split("//").next().unwrap_or(text).trim();
    let (name, rest) = text.split_once(char::is_whitespace).unwrap_or((text, ""));
    (name, rest.trim())
}

/// Where a call, a jump, a return or a stop leads; nothing for other instructions.
fn next(
    instruction: &Instruction,
    name: &str,
    operands: &[&str],
) -> Result<Option<Next>, &'static str> {
    let named = |printed: &str| target(instruction, printed, &RELOCATIONS, 0);
    Ok(Some(match (name, operands) {
        ("ret", []) => Next::Return,
        ("brk" | "udf" | "hlt", _) => Next::Nowhere,
        ("bl", [to]) => Next::Call(named(to)?),
        ("br", [_]) => Next::Table,
        ("b", [to]) => Next::Jump(named(to)?),
        ("cbz" | "cbnz", [_, to]) | ("tbz" | "tbnz", [_, _, to]) => Next::Branch(named(to)?),
        (_, [to]) if name.starts_with("b.") || name.starts_with("bc.") => Next::Branch(named(to)?),
        _ if name.starts_with("blr") => return Err("a call that cannot be followed"),
        _ => return Ok(None),
    }))
}

/// What an instruction writes to the stack pointer, where that is known.
fn written(name: &str, operands: &[&str]) -> Option<Movement> {
    match (name, operands) {
        ("mov", ["sp", "x29"]) => Some(Movement::FromFrame(0)),
        ("sub", ["sp", "x29", by]) => Some(Movement::FromFrame(-immediate(by)?)),
        ("add", ["sp", "x29", by]) => Some(Movement::FromFrame(immediate(by)?)),
        ("sub", ["sp", "sp", by]) => Some(Movement::Grow(immediate(by)?)),
        ("sub", ["sp", "sp", by, "lsl #12"]) => Some(Movement::Grow(immediate(by)? << 12)),
        ("add", ["sp", "sp", by]) => Some(Movement::Grow(-immediate(by)?)),
        ("add", ["sp", "sp", by, "lsl #12"]) => Some(Movement::Grow(-immediate(by)? << 12)),
        _ => None,
    }
}

/// What an address that begins with the stack pointer does to it: `[sp, #-n]!` before the access and
/// `[sp], #n` after it write it back. Below the stack pointer nothing may be read or written.
fn written_back(operands: &[&str]) -> Result<Movement, &'static str> {
    let Some(at) = operands.iter().position(|text| text.starts_with("[sp")) else {
        return Ok(Movement::None);
    };
    let unknown = Err("the stack pointer is written back in a way that is not known");
    let offset = operands[at].strip_prefix("[sp, ");
    let by = match (offset, operands.get(at + 1)) {
        (Some(offset), None) => match offset.strip_suffix("]!") {
            Some(by) => immediate(by),
            None if offset.starts_with("#-") => return Err("an access below the stack pointer"),
            None if offset.ends_with(']') => return Ok(Movement::None),
            None => return unknown,
        },
        (None, None) if operands[at] == "[sp]" => return Ok(Movement::None),
        (None, Some(by)) if operands[at] == "[sp]" => immediate(by),
        _ => return unknown,
    };
    match by {
        Some(by) => Ok(Movement::Grow(-by)),
        None => unknown,
    }
}

/// Whether an instruction may write the frame pointer: it names it, unless it only stores it, or
/// writes it back as an address.
fn may_write_frame_pointer(name: &str, operands: &[&str]) -> bool {
    let names = operands.iter().any(|text| FRAME_POINTER.contains(text));
    let only_stores = ["str", "stp", "stur"].contains(&name);
    let at = operands.iter().position(|text| text.starts_with("[x29"));
    let writes_back = at.is_some_and(|at| operands[at].ends_with('!') || at + 1 < operands.len());
    names && !only_stores || writes_back
}

/// The number behind `#`.
fn immediate(text: &str) -> Option<i64> {
    text.strip_prefix('#').and_then(number)
}

//! The instructions of x86-64 that move the stack pointer or lead elsewhere, as objdump prints them:
//! sources first, registers after `%`, numbers after `$`. Any other instruction that names the stack
//! pointer outside of a memory address, or that writes it unnamed, is refused.

use super::step::{number, operands, target, Movement, Next, Step};
use super::Instruction;

/// A call pushes the address to return to.
pub const RETURN_ADDRESS: usize = 8;
/// So many bytes below the stack pointer are a function's own without any instruction that says so.
pub const RED_ZONE: usize = 128;

/// Words before an instruction that change nothing here.
const PREFIXES: [&str; 14] = [
    "notrack", "bnd", "data16", "addr32", "rex.W", "lock", "rep", "repz", "repnz", "cs", "ds",
    "es", "fs", "gs",
];
/// The stack pointer and its parts.
const STACK_POINTER: [&str; 4] = ["%rsp", "%esp", "%sp", "%spl"];
/// The frame pointer and its parts.
const FRAME_POINTER: [&str; 4] = ["%rbp", "%ebp", "%bp", "%bpl"];
/// Relocations of calls and jumps: they count from the four bytes before the next instruction.
const RELOCATIONS: [&str; 2] = ["R_X86_64_PLT32", "R_X86_64_PC32"];
/// Beginnings of instructions that use the stack or lead elsewhere; those that are known are taken
/// out before.
const REFUSED: [&str; 17] = [
    "push", "pop", "enter", "leave", "ret", "lret", "iret", "uiret", "eret", "int", "sys", "call",
    "lcall", "ljmp", "xbegin", "xabort", "(bad)",
];

/// What an instruction does, or why it is not known.
pub fn step(instruction: &Instruction) -> Result<Step, &'static str> {
    let (name, rest) = parted(&instruction.text);
    let operands = operands(rest);
    let names = |registers: &[&str]| operands.iter().any(|operand| registers.contains(operand));
    let loses_frame = names(&FRAME_POINTER);
    if let Some(next) = next(instruction, name, &operands)? {
        return Ok(Step::goes(next));
    }
    match (name, operands.as_slice()) {
        ("push" | "pushq", [_]) => Ok(Step::moves(Movement::Grow(8))),
        ("pop" | "popq", [to]) if !STACK_POINTER.contains(to) => {
            Ok(Step::moves(Movement::Grow(-8)).losing_frame(loses_frame))
        }
        ("leave" | "leaveq", []) => Ok(Step::moves(Movement::FromFrame(8)).losing_frame(true)),
        ("popcnt", _) if !names(&STACK_POINTER) => Ok(Step::nothing().losing_frame(loses_frame)),
        _ if REFUSED.iter().any(|start| name.starts_with(start)) || rest.contains('<') => {
            Err("an instruction that is not known")
        }
        (_, [from, to]) => match movement(name, from, to) {
            Some(movement) => Ok(Step::moves(movement)),
            None if names(&STACK_POINTER) && !only_reads(name, to) => {
                Err("the stack pointer is written in a way that is not known")
            }
            None => Ok(Step::nothing().losing_frame(loses_frame)),
        },
        _ if names(&STACK_POINTER) => Err("the stack pointer is used in a way that is not known"),
        _ => Ok(Step::nothing().losing_frame(loses_frame)),
    }
}

/// Whether an instruction only fills up the code to the next multiple of something.
pub fn is_padding(instruction: &Instruction) -> bool {
    let (name, operands) = parted(&instruction.text);
    name.starts_with("nop") || (name, operands) == ("xchg", "%ax,%ax")
}

/// The name and the operands of an instruction, without prefixes and comment.
fn parted(text: &str) -> (&str, &str) {
    let text = text.split('#').next().unwrap_or(text).trim();
    let (name, rest) = text.split_once(char::is_whitespace).unwrap_or((text, ""));
    match PREFIXES.contains(&name) && !rest.is_empty() {
        true => parted(rest),
        false => (name, rest.trim()),
    }
}

/// Where a call, a jump, a return or a stop leads; nothing for other instructions.
fn next(
    instruction: &Instruction,
    name: &str,
    operands: &[&str],
) -> Result<Option<Next>, &'static str> {
    let named = |printed: &str| target(instruction, printed, &RELOCATIONS, 4);
    Ok(Some(match (name, operands) {
        ("ret" | "retq", []) => Next::Return,
        ("ud2" | "hlt" | "int3", []) => Next::Nowhere,
        ("call" | "callq", [to]) if to.starts_with('*') => {
            return Err("a call that cannot be followed")
        }
        ("call" | "callq", [to]) => Next::Call(named(to)?),
        ("jmp" | "jmpq", [to]) if to.starts_with("*%") && !to.contains('(') => Next::Table,
        ("jmp" | "jmpq", [to]) if to.starts_with('*') => {
            return Err("a jump that cannot be followed")
        }
        ("jmp" | "jmpq", [to]) => Next::Jump(named(to)?),
        ("loop" | "loope" | "loopne", [to]) => Next::Branch(named(to)?),
        (_, [to]) if name.starts_with('j') => Next::Branch(named(to)?),
        _ => return Ok(None),
    }))
}

/// What an instruction does to the stack pointer or takes from it for the frame pointer, where that
/// is known.
fn movement(name: &str, from: &str, to: &str) -> Option<Movement> {
    let immediate = || from.strip_prefix('$').and_then(number);
    match (name, from, to) {
        ("mov", "%rsp", "%rbp") => Some(Movement::SetFrame(0)),
        ("mov", "%rbp", "%rsp") => Some(Movement::FromFrame(0)),
        ("lea", _, "%rbp") => Some(Movement::SetFrame(displacement(from, "(%rsp)")?)),
        ("lea", _, "%rsp") => match displacement(from, "(%rsp)") {
            Some(bytes) => Some(Movement::Grow(-bytes)),
            None => Some(Movement::FromFrame(displacement(from, "(%rbp)")?)),
        },
        ("sub" | "subq", _, "%rsp") => Some(Movement::Grow(immediate()?)),
        ("add" | "addq", _, "%rsp") => Some(Movement::Grow(-immediate()?)),
        ("and" | "andq", _, "%rsp") => {
            let alignment = -immediate()?;
            let is_power = alignment > 8 && alignment & (alignment - 1) == 0;
            is_power.then_some(Movement::Align(alignment))
        }
        _ => None,
    }
}

/// The number before a base register: of `0x10(%rsp)` it is 16.
fn displacement(address: &str, base: &str) -> Option<i64> {
    match address.strip_suffix(base)? {
        "" => Some(0),
        digits => number(digits),
    }
}

/// Whether an instruction that names the stack pointer does not write it: it writes its second
/// operand or none.
fn only_reads(name: &str, to: &str) -> bool {
    let reads_both = ["cmp", "test"].contains(&name);
    let reads_first = ["mov", "add", "sub"].contains(&name);
    reads_both || reads_first && !STACK_POINTER.contains(&to)
}

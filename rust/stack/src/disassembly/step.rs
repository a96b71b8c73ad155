//! What an instruction does to the stack pointer, and where the code goes on after it. Each
//! processor's file says this of its own instructions.

use super::Instruction;

/// What an instruction does.
#[derive(Clone, Debug, PartialEq, Eq)]
pub struct Step {
    /// To the stack pointer.
    pub movement: Movement,
    /// Whether it may give the frame pointer another value, after the movement.
    pub loses_frame: bool,
    /// Where the code goes on.
    pub next: Next,
}

/// What becomes of the stack pointer or of the frame pointer that is taken from it.
#[derive(Clone, Copy, Debug, PartialEq, Eq)]
pub enum Movement {
    /// Nothing.
    None,
    /// The stack grows by so many bytes, or gives them back where this is negative.
    Grow(i64),
    /// The stack pointer is rounded down to a multiple of so many bytes.
    Align(i64),
    /// The frame pointer becomes the stack pointer plus so many bytes.
    SetFrame(i64),
    /// The stack pointer becomes the frame pointer plus so many bytes.
    FromFrame(i64),
}

/// Where the code goes on.
#[derive(Clone, Debug, PartialEq, Eq)]
pub enum Next {
    /// At the next instruction.
    Following,
    /// At a place, and not at the next instruction.
    Jump(Target),
    /// At a place or at the next instruction.
    Branch(Target),
    /// In a function, and then at the next instruction.
    Call(Target),
    /// At an address from a register: a jump table's.
    Table,
    /// In the caller.
    Return,
    /// Nowhere: the program is stopped.
    Nowhere,
}

/// The place that a call or a jump names.
#[derive(Clone, Debug, PartialEq, Eq)]
pub enum Target {
    /// An address in the instruction's own section.
    Here(i64),
    /// So many bytes after a function, or after the start of a section.
    Symbol(String, i64),
}

impl Step {
    /// The step of an instruction that only moves the stack pointer.
    pub fn moves(movement: Movement) -> Step {
        Step {
            movement,
            loses_frame: false,
            next: Next::Following,
        }
    }

    /// The step of an instruction that only says where the code goes on.
    pub fn goes(next: Next) -> Step {
        Step {
            movement: Movement::None,
            loses_frame: false,
            next,
        }
    }

    /// The step of an instruction that does neither.
    pub fn nothing() -> Step {
        Step::moves(Movement::None)
    }

    /// The step, and the frame pointer may have another value after it.
    pub fn losing_frame(self, loses_frame: bool) -> Step {
        Step {
            loses_frame,
            ..self
        }
    }
}

/// The place that a call or a jump names: by its relocation, which must be of one of these kinds and
/// counts from so many bytes before the place, or else by the printed address.
pub fn target(
    instruction: &Instruction,
    printed: &str,
    kinds: &[&str],
    before: i64,
) -> Result<Target, &'static str> {
    if let Some(relocation) = &instruction.relocation {
        return match kinds.contains(&relocation.kind.as_str()) {
            true => Ok(Target::Symbol(
                relocation.symbol.clone(),
                relocation.addend + before,
            )),
            false => Err("a relocation that is not known for a call or a jump"),
        };
    }
    let address = printed.split_once(' ').map(|(address, _)| address);
    let address = address.and_then(|address| i64::from_str_radix(address, 16).ok());
    address.map(Target::Here).ok_or("a target that is not read")
}

/// The number in decimal or, after 0x, in hexadecimal digits, with or without a minus. Digits for a
/// number above 2^63 are those of a negative one, as objdump prints it.
pub fn number(text: &str) -> Option<i64> {
    let (sign, digits) = match text.strip_prefix('-') {
        Some(digits) => (-1, digits),
        None => (1, text),
    };
    let value = match digits.strip_prefix("0x") {
        Some(digits) => u64::from_str_radix(digits, 16),
        None => digits.parse(),
    };
    value.ok().map(|value| (value as i64).wrapping_mul(sign))
}

/// The operands of an instruction: what commas part that do not stand in brackets.
pub fn operands(text: &str) -> Vec<&str> {
    let mut depth = 0;
    let parted = text.split(move |letter| {
        depth += match letter {
            '(' | '[' | '{' => 1,
            ')' | ']' | '}' => -1,
            _ => 0,
        };
        letter == ',' && depth == 0
    });
    let trimmed = parted.map(str::trim);
    trimmed.filter(|operand| !operand.is_empty()).collect()
}

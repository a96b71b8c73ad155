//! The stack of one function: its stack pointer is followed through all its instructions, from the
//! entry with depth 0. Where two ways meet they must agree on the depth, and a return or a jump into
//! another function must find it 0 again.

mod walk;

use crate::disassembly::{Disassembly, Function};
use crate::unfollowed::Unfollowed;

/// What a function needs below its own return address.
#[derive(Clone, Debug, PartialEq, Eq)]
pub struct Frame {
    /// The most bytes of its own.
    pub deepest: usize,
    /// Its calls of functions, itself among them.
    pub calls: Vec<Call>,
}

/// A call.
#[derive(Clone, Debug, PartialEq, Eq)]
pub struct Call {
    /// The name of the called function.
    pub callee: String,
    /// How many bytes lie below the caller's return address at the call.
    pub depth: usize,
    /// Whether the call is a jump: the caller is done, and has left it its return address.
    pub is_jump: bool,
    /// The call's instruction, as objdump prints it.
    pub instruction: String,
}

impl Frame {
    /// The frame of a function.
    pub fn of(disassembly: &Disassembly, function: &Function) -> Result<Frame, Unfollowed> {
        let walk = walk::Walk::through(disassembly, function)?;
        walk.frame()
    }
}

//! Code whose stack cannot be bounded: no bound is printed where this comes up.

use std::error::Error;
use std::fmt;

/// An instruction that cannot be followed, and why.
#[derive(Clone, Debug, PartialEq, Eq)]
pub struct Unfollowed {
    /// The function that has it.
    pub function: String,
    /// The instruction, or the line of the disassembly, as objdump prints it.
    pub instruction: String,
    /// What is wrong with it.
    pub why: &'static str,
}

impl Unfollowed {
    /// The refusal of an instruction.
    pub fn new(function: &str, instruction: &str, why: &'static str) -> Unfollowed {
        Unfollowed {
            function: function.into(),
            instruction: instruction.replace('\t', " "),
            why,
        }
    }
}

impl fmt::Display for Unfollowed {
    fn fmt(&self, to: &mut fmt::Formatter) -> fmt::Result {
        write!(to, "{}: {}: {}", self.function, self.why, self.instruction)
    }
}

impl Error for Unfollowed {}

//! How much stack the exported functions of libhainscope.a use below their caller, in two ways that
//! hold each other to account. It is measured: `painted` makes a call over painted stack, and
//! `exported` does so for each exported function on the tables that go deepest, which `deepest`
//! makes. And it is bounded by the compiled code, whatever the table is: `disassembly` reads what
//! objdump prints of the archive that `archive` finds, `frame` follows the stack pointer through each
//! function, and `chain` adds up the deepest chain of calls. What cannot be followed is an error,
//! `unfollowed`.

pub mod archive;
pub mod chain;
mod deepest;
pub mod disassembly;
pub mod exported;
pub mod frame;
pub mod painted;
pub mod unfollowed;

/// Every exported function uses at most so many bytes of stack below its caller, with up to 64
/// requests; so that 8,192 hold when there are 256.
pub const MOST_STACK: usize = 6656;

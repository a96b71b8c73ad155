//! The proved library, through its C functions, compared with the second program on made tables.
//! The comparisons are in `tests/`, one file a subject; here is what they share.
#![forbid(unsafe_code)]

mod mismatch;
mod question;
mod reports;
mod tally;

pub use mismatch::{hex, same, Asked};
pub use question::{ask_library, Outcome};
pub use reports::{Left, ReportCall, REPORT_CALLS};
pub use tally::Tally;

//! The C functions of libhainscope.a, each under a safe function of the same shape: it returns the
//! refusal number, 0 for an accepted call, and sets what it is lent. The rest of the crate is over these.

mod body;
mod can_stand;
mod read;
mod reports;

pub use body::body;
pub use can_stand::can_stand;
pub use read::read;
pub use reports::{conflict, conflict_one_by_one, relaxation, relaxation_one_by_one};

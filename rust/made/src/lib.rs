//! Made tables for the comparisons: valid, damaged, and on both sides of every limit.
//! Everything is made from a seed, so that a table is the same at every run.
//!
//! `random` is the source of chance, `draft` a table as records that may be wrong, `plan` an event
//! that is right, `events` plans of many shapes, `planted` plans with a known conflict, `twins`
//! another table with the same standing selections, `damage` wrong tables, `edges` both sides of
//! every limit with the number each must give, `sheet` the sample sheet, `stream` all of them mixed.
//! `searched` has plans aimed at the search behind the question, each maker at one thing in it.
#![forbid(unsafe_code)]

pub mod damage;
pub mod draft;
pub mod edges;
pub mod events;
pub mod full;
pub mod hostile;
pub mod plan;
pub mod planted;
pub mod random;
pub mod searched;
pub mod sheet;
pub mod stream;
pub mod twins;

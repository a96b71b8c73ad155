//! The independent second program: document 01 written again from the paper.
//! It shares no code with the proved library, and answers questions by exhaustion.
//!
//! Read the modules in this order, each beside the section of document 01 that it names:
//! `limits`, `records` and `reading` (Table bytes, Refusal numbers), `body`, `rows` and
//! `meaning` (Meaning), `selection` and `preferred` (Definitions 3 and 6), `methods` (The two
//! methods and their counts), `report` (The report), `program` (the two lines).
#![forbid(unsafe_code)]

pub mod body;
pub mod limits;
pub mod meaning;
pub mod methods;
pub mod preferred;
pub mod program;
pub mod reading;
pub mod records;
pub mod refusal;
pub mod report;
pub mod rows;
pub mod selection;

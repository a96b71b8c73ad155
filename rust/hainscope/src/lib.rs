//! Safe calls over the proved library libhainscope.a, for the store's server.
//! A table goes in as bytes; what comes out is an answer, or a [`Refusal`] with number and place. No
//! answer is found in Rust, which decodes only what the library has accepted or written.
//!
//! * State the event: [`TableBuilder`] writes a table, with its CHECK word set right; [`wants`] and
//!   [`refuses`] are the literals of its clauses.
//! * Read it: [`Table::read`] accepts or refuses it.
//! * Look into it: [`Table::variables`], [`Table::requests`] and [`Table::order`] are its sizes and
//!   its order, [`Table::rows`] its rows; [`Table::records`] goes through its records, each a
//!   [`Record`] of a [`Kind`], and [`Table::body`] asks the library for the body of one.
//! * Ask it: [`Table::can_stand`] says whether a [`Selection`] of requests can stand.
//! * Explain it: [`Table::report`] finds the preferred conflict or relaxation; shown, a [`Report`] is
//!   one line of words. [`Table::report_by`] takes the [`Method`] as well, and
//!   [`Table::write_report`] writes the report as a record into a lent buffer.
//! * Say what was wrong: a [`Refusal`] has a [`Reason`]; shown or debugged, it is one line of words.
//!   [`MOST_REQUESTS`] and the other limits say it beforehand.
//!
//! [`calls`] has the C functions as they are, with their numbers.
//!
//! ```
//! use hainscope::{wants, Refusal, Selection, Sought, Table, TableBuilder};
//!
//! fn main() -> Result<(), Refusal> {
//!     // Two plug-ins want 1200 and 900 rows of a bib map of 2000; the second is more important.
//!     let bytes = TableBuilder::new(2, 2)
//!         .linear(0, 2000, &[(0, 1200), (1, 900)])
//!         .clause(1, &[wants(0)])
//!         .clause(2, &[wants(1)])
//!         .order(&[2, 1])
//!         .table();
//!     let table = Table::read(&bytes)?;
//!     assert_eq!((table.requests(), table.order()), (2, vec![2, 1]));
//!
//!     let first: Selection = [1].into_iter().collect();
//!     assert!(table.can_stand(first)?);
//!     assert!(!table.can_stand(Selection::all(&table))?);
//!
//!     let conflict = table.report(Sought::Conflict)?;
//!     assert_eq!(conflict.requests, [2, 1]);
//!     assert_eq!(
//!         conflict.to_string(),
//!         "requests 2 and 1 cannot stand together (preferred conflict, 4 questions)"
//!     );
//!     let relaxation = table.report(Sought::Relaxation)?;
//!     assert_eq!(
//!         relaxation.to_string(),
//!         "request 2 can stand, and no better set can (preferred relaxation, 3 questions)"
//!     );
//!     Ok(())
//! }
//! ```
//!
//! # Threads
//!
//! The library has no state: any number of threads may call it at once, and a [`Table`] may be shared
//! among them. A call of the library uses at most 6,656 bytes of stack below its caller. A question or
//! a report may take long on a hostile table (the project's README says how long), and no call can be
//! stopped before its end: ask on threads of their own, apart from those that answer people.
//!
//! ```
//! use hainscope::{Sought, Table, TableBuilder};
//! use std::thread;
//!
//! let bytes = TableBuilder::new(0, 2).clause(1, &[]).table();
//! let table = Table::read(&bytes)?;
//! let (conflict, relaxation) = thread::scope(|scope| {
//!     let conflict = scope.spawn(|| table.report(Sought::Conflict));
//!     let relaxation = scope.spawn(|| table.report(Sought::Relaxation));
//!     (conflict.join().unwrap(), relaxation.join().unwrap())
//! });
//! assert_eq!((conflict?.requests, relaxation?.requests), (vec![1], vec![2]));
//! # Ok::<(), hainscope::Refusal>(())
//! ```

mod builder;
pub mod calls;
mod kind;
mod limits;
mod literal;
mod question;
mod reason;
mod records;
mod refusal;
mod report;
mod row;
mod selection;
mod table;
mod words;

pub use builder::TableBuilder;
pub use kind::Kind;
pub use limits::{
    MOST_LITERALS, MOST_REQUESTS, MOST_ROWS, MOST_TABLE_BYTES, MOST_TERMS, MOST_VARIABLES,
    MOST_WEIGHT,
};
pub use literal::{refuses, variable_of, wants};
pub use reason::Reason;
pub use records::{Record, Records};
pub use refusal::Refusal;
pub use report::{Method, Report, Sought, Status, MOST_REPORT_BYTES};
pub use row::{Condition, Row};
pub use selection::Selection;
pub use table::Table;

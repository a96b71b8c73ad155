//! Plans aimed at a search that decides one variable after the other, puts aside the rows that
//! every completion of a half-made setting meets, and ends a branch at a row that none meets.
//! Most are made around one setting that all rows know: few others meet them all, so that a lost
//! branch, a lost row or a row put aside too early shows in the answer.
//!
//! `sums` has bounds at and beside a sum and numbers at both ends, `sizes` every number of
//! variables, named and not, `settled` rows met by all or by none, `repeated` variables named with
//! both signs, `lone` exactly one setting that meets everything, `many` up to 512 rows.

mod around;
pub mod lone;
pub mod many;
pub mod repeated;
pub mod settled;
pub mod sizes;
pub mod sums;

//! The times of the proved library beside plain Rust on the same made events and hostile tables, in
//! one run: `cargo run --release --offline -p bench`. A ratio above 1 says that the library took
//! longer.
#![forbid(unsafe_code)]

mod measure;
mod naive;
mod plain;
mod questions;
mod reports;

fn main() {
    reports::print();
    questions::print_made();
    questions::print_hostile();
    reports::print_hostile();
}

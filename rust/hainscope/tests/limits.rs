//! The crate's limits are the library's: what is at one is accepted, and what is past it refused.

use hainscope::{
    wants, Table, TableBuilder, MOST_LITERALS, MOST_REQUESTS, MOST_ROWS, MOST_TABLE_BYTES,
    MOST_TERMS, MOST_VARIABLES, MOST_WEIGHT,
};

/// The number that a table is refused with, 0 where it is accepted.
fn number(builder: &TableBuilder) -> u32 {
    Table::read(&builder.table()).map_or_else(|refusal| refusal.number, |_| 0)
}

/// At a limit a table is accepted, and past it refused with a number.
fn held(limit: &str, at: &TableBuilder, past: &TableBuilder, refused: u32) {
    assert_eq!((number(at), number(past)), (0, refused), "{limit}");
}

#[test]
fn variables_and_requests() {
    let table = TableBuilder::new;
    held(
        "variables",
        &table(MOST_VARIABLES, 0),
        &table(MOST_VARIABLES + 1, 0),
        6,
    );
    held(
        "requests",
        &table(0, MOST_REQUESTS),
        &table(0, MOST_REQUESTS + 1),
        6,
    );
}

#[test]
fn literals_and_terms() {
    let clause = |literals| TableBuilder::new(1, 0).clause(0, &vec![wants(0); literals]);
    held(
        "literals",
        &clause(MOST_LITERALS),
        &clause(MOST_LITERALS + 1),
        5,
    );
    let linear = |terms| TableBuilder::new(1, 0).linear(0, 0, &vec![(0, 1); terms]);
    held("terms", &linear(MOST_TERMS), &linear(MOST_TERMS + 1), 5);
}

#[test]
fn weights() {
    let weight = |weight| TableBuilder::new(1, 0).linear(0, 0, &[(0, weight)]);
    held("weights", &weight(MOST_WEIGHT), &weight(MOST_WEIGHT + 1), 6);
    held(
        "weights",
        &weight(-MOST_WEIGHT),
        &weight(-MOST_WEIGHT - 1),
        6,
    );
}

#[test]
fn rows() {
    let empty = |builder: TableBuilder, _| builder.clause(0, &[]);
    let rows = |rows| (0..rows).fold(TableBuilder::new(0, 0), empty);
    held("rows", &rows(MOST_ROWS), &rows(MOST_ROWS + 1), 10);
}

#[test]
fn bytes() {
    // 18 bytes of HEAD, ORDER and CHECK, and clauses of 6 bytes and 2 for each literal
    let clause = |builder: TableBuilder, literals| builder.clause(0, &vec![wants(0); literals]);
    let table = |literals| {
        let rows = [&[57; 272][..], &[literals]].concat();
        rows.into_iter().fold(TableBuilder::new(1, 0), clause)
    };
    let last = (MOST_TABLE_BYTES - table(0).table().len()) / 2;
    assert_eq!(table(last).table().len(), MOST_TABLE_BYTES);
    held("bytes", &table(last), &table(last + 1), 1);
}

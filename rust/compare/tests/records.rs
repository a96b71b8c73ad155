//! The crate's own decoding of accepted tables: records, sizes and order against what the library
//! and the second program say of the same bytes.

use compare::{same, Asked, Tally};
use hainscope::{calls, Kind, Table};
use made::edges::edges;
use made::full;
use made::random::Random;
use made::sheet::sheet;
use made::stream::made;
use second::body::records;
use second::rows::Event;

/// The library's refusal where there is no record of a number.
const NO_SUCH_RECORD: u32 = 13;

/// Place and length of a body by the library, or its refusal number.
fn body_by_library(table: &[u8], number: usize) -> Result<(usize, usize), u32> {
    let (mut length, mut place) = (0xDEAD, 0xBEEF);
    match calls::body(table, number, &mut length, &mut place) {
        0 => Ok((place, length)),
        refusal => Err(refusal),
    }
}

/// Compares the records of a table one by one, and counts their kinds.
fn compare_records(seed: u64, table: &[u8], accepted: &Table, tally: &mut Tally) {
    let mut of_second = records(table);
    let mut after_last = 0;
    for (number, record) in accepted.records().enumerate() {
        let call = &format!("record {number}");
        let asked = Asked { call, seed, table };
        let second = of_second.next().expect("as many records by the second");
        same(&asked, record.number, number);
        same(&asked, record.place, second.place);
        same(&asked, record.kind.number(), second.kind);
        let body = (second.body_place(), record.body.len());
        same(&asked, body_by_library(table, number), Ok(body));
        let stretch = second.body.as_ptr_range();
        same(&asked, record.body.as_ptr_range(), stretch);
        tally.add(format!("{:?}", record.kind));
        if record.body.is_empty() {
            tally.add("empty body");
        }
        after_last = number + 1;
    }
    assert!(of_second.next().is_none(), "seed {seed}");
    let refusal = body_by_library(table, after_last);
    assert_eq!(refusal, Err(NO_SUCH_RECORD), "seed {seed}");
}

/// Compares all that is decoded of a table, and counts it under its number of rows.
fn compare(seed: u64, table: &[u8], tally: &mut Tally) {
    let accepted = Table::read(table).expect("an accepted table");
    let event = Event::of(table).expect("the same table");
    let call = "sizes and order";
    let decoded = (accepted.variables(), accepted.requests(), accepted.order());
    let second = (event.variables, event.requests, event.order);
    same(&Asked { call, seed, table }, decoded, second);
    compare_records(seed, table, &accepted, tally);
    tally.add(match event.rows.len() {
        0 => "no row",
        1..=20 => "few rows",
        21..=511 => "many rows",
        _ => "512 rows",
    });
}

#[test]
fn made_tables() {
    let mut tally = Tally::new();
    for seed in 600_000..612_000 {
        let bytes = made(seed).table;
        if Table::read(&bytes).is_ok() {
            compare(seed, &bytes, &mut tally);
        }
    }
    tally.print("records: made tables");
    for kind in [Kind::Head, Kind::Order, Kind::Check] {
        tally.at_least(3_000, &format!("{kind:?}"));
    }
    tally.at_least(30_000, "Clause");
    tally.at_least(30_000, "Linear");
    tally.at_least(100, "no row");
    tally.at_least(1_500, "few rows");
    tally.at_least(500, "many rows");
    tally.at_least(40, "512 rows");
    tally.at_least(200, "empty body");
}

#[test]
fn the_longest_tables_and_the_sample_sheet() {
    let mut tally = Tally::new();
    for seed in 620_000..620_040 {
        let mut random = Random::new(seed);
        let longest = full::of_bytes(&mut random, 32_768).table();
        assert_eq!(longest.len(), 32_768);
        compare(seed, &longest, &mut tally);
        let of_most_rows = full::of_rows(&mut random, 512).table();
        compare(seed, &of_most_rows, &mut tally);
    }
    for row in sheet() {
        compare(0, &row.plan.table(), &mut tally);
    }
    tally.print("records: the longest tables and the sample sheet");
    tally.at_least(40, "512 rows");
    tally.at_least(40, "many rows");
    tally.at_least(1, "no row");
}

#[test]
fn tables_at_every_limit() {
    let mut tally = Tally::new();
    let accepted = edges().into_iter().filter(|edge| edge.number == 0);
    for (seed, edge) in (0..).zip(accepted) {
        compare(seed, &edge.table, &mut tally);
    }
    tally.print("records: tables at every limit");
    tally.at_least(10, "Head");
}

#[test]
fn tables_come_from_bytes_as_reading_says() {
    let mut tally = Tally::new();
    for seed in 0..2_000 {
        let bytes = made(seed).table;
        let read = Table::read(&bytes);
        assert_eq!(Table::try_from(bytes.as_slice()), read, "seed {seed}");
        tally.add(if read.is_ok() { "accepted" } else { "refused" });
    }
    tally.at_least(400, "accepted");
    tally.at_least(1_000, "refused");
}

#[test]
fn a_refusal_tells_the_number_of_its_record() {
    let mut tally = Tally::new();
    for seed in 612_000..620_000 {
        let table = made(seed).table;
        let Err(refusal) = Table::read(&table) else {
            continue;
        };
        let before = records(&table).take_while(|record| record.place < refusal.place);
        let call = "the record of a refusal";
        let asked = Asked {
            call,
            seed,
            table: &table,
        };
        same(&asked, refusal.record(&table), before.count());
        tally.add(match refusal.place {
            0 => "the first record",
            place if place == table.len() => "the end",
            _ => "a later record",
        });
    }
    tally.print("records: of refusals");
    tally.at_least(300, "the first record");
    tally.at_least(20, "the end");
    tally.at_least(2_000, "a later record");
}

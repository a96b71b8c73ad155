//! Bodies of records: place, length, refusal number and place of the library and of the second
//! program, for every record number of made tables and for numbers past the end.

use compare::{same, Asked, Tally};
use hainscope::{calls, Table};
use made::edges::edges;
use made::random::Random;
use made::stream::made;
use second::body::records;
use second::reading::read;

/// Record numbers that no table has.
const HUGE: [usize; 6] = [515, 65_535, u32::MAX as usize, 1 << 32, 1 << 63, usize::MAX];

/// What a call gives: refusal number, place, length.
type Outcome = (u32, usize, usize);

/// By the library, which must set both place and length.
fn library(table: &[u8], number: usize) -> Outcome {
    let (mut length, mut place) = (0xDEAD, 0xBEEF);
    let refusal = calls::body(table, number, &mut length, &mut place);
    (refusal, place, length)
}

/// By the second program.
fn second(table: &[u8], number: usize) -> Outcome {
    match second::body::body(table, number) {
        Ok(stretch) => (0, stretch.place, stretch.length),
        Err(refusal) => (refusal.number, refusal.place, 0),
    }
}

/// Compares one body and counts its outcome.
fn compare(seed: u64, table: &[u8], number: usize, tally: &mut Tally) {
    let call = &format!("body of record {number}");
    let found = library(table, number);
    same(&Asked { call, seed, table }, found, second(table, number));
    match found {
        (0, _, 0) => tally.add("empty body"),
        (refusal, _, _) => tally.add_number(refusal),
    }
}

/// The record numbers to ask a table for: all of a short one, some of a long one, past the end.
fn numbers(random: &mut Random, table: &[u8]) -> Vec<usize> {
    let held = match read(table) {
        Ok(_) => records(table).count(),
        Err(_) => 1,
    };
    let mut numbers: Vec<usize> = if held <= 40 {
        (0..held).collect()
    } else {
        let some = (0..8).map(|_| random.below(held));
        some.chain([0, 1, held - 2, held - 1]).collect()
    };
    numbers.extend([held, held + 1, random.pick(&HUGE), random.bits() as usize]);
    numbers
}

#[test]
fn made_tables() {
    let mut tally = Tally::new();
    for seed in 50_000..72_000 {
        let table = made(seed).table;
        for number in numbers(&mut Random::new(seed), &table) {
            compare(seed, &table, number, &mut tally);
        }
    }
    tally.print("body: made tables");
    tally.at_least(20_000, "accepted");
    tally.at_least(500, "empty body");
    tally.at_least(10_000, "refusal 13");
    tally.numbers_at_least(500, 1..=10);
}

#[test]
fn every_number_on_both_sides_of_every_limit() {
    let mut tally = Tally::new();
    for (seed, edge) in (0..).zip(edges()) {
        for number in (0..520).chain(HUGE) {
            compare(seed, &edge.table, number, &mut tally);
        }
    }
    tally.print("body: every number on both sides of every limit");
    tally.numbers_at_least(500, 0..=10);
    tally.numbers_at_least(500, [13]);
}

#[test]
fn a_body_is_that_stretch_of_the_callers_own_table() {
    let mut bodies = 0;
    for seed in 0..2_000 {
        let bytes = made(seed).table;
        let Ok(table) = Table::read(&bytes) else {
            continue;
        };
        for (number, record) in records(&bytes).enumerate() {
            let body = table.body(number).expect("a record of the table");
            assert_eq!(body.as_ptr_range(), record.body.as_ptr_range());
            bodies += 1;
        }
    }
    assert!(bodies > 2_000, "{bodies}");
}

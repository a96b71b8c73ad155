//! Reading: number and place of the library and of the second program, on made tables,
//! on both sides of every limit, on every cut and every changed byte.

use compare::{same, Asked, Tally};
use hainscope::{calls, Reason, Table};
use made::draft::mended;
use made::edges::{edges, Edge};
use made::events::{any, SMALL};
use made::random::Random;
use made::sheet::h;
use made::stream::made;

/// Number and place by the library. The place is set to something else before, and the table must
/// stay as it was.
fn library(table: &[u8]) -> (u32, usize) {
    let before = table.to_vec();
    let mut place = 0xDEAD_BEEF;
    let number = calls::read(table, &mut place);
    assert_eq!(table, before, "the table was changed");
    (number, place)
}

/// Number and place by the second program.
fn second(table: &[u8]) -> (u32, usize) {
    match second::reading::read(table) {
        Ok(_) => (0, 0),
        Err(refusal) => (refusal.number, refusal.place),
    }
}

/// Compares one reading and returns its number.
fn compare(seed: u64, table: &[u8]) -> u32 {
    let call = "read";
    let found = library(table);
    same(&Asked { call, seed, table }, found, second(table));
    found.0
}

#[test]
fn made_tables() {
    let mut tally = Tally::new();
    for seed in 0..40_000 {
        tally.add_number(compare(seed, &made(seed).table));
    }
    tally.print("read: made tables");
    assert_eq!(tally.all(), 40_000);
    tally.at_least(8_000, "accepted");
    tally.numbers_at_least(300, 1..=10);
}

#[test]
fn both_sides_of_every_limit() {
    let mut tally = Tally::new();
    for (seed, edge) in (0..).zip(edges()) {
        let expected = (edge.number, edge.place);
        assert_eq!(library(&edge.table), expected, "{}", edge.name);
        tally.add_number(compare(seed, &edge.table));
    }
    tally.print("read: both sides of every limit");
    tally.numbers_at_least(1, 0..=10);
}

#[test]
fn every_refusal_of_a_table_says_so_in_words() {
    let mut tally = Tally::new();
    for edge in edges().iter().filter(|edge| edge.number != 0) {
        let refusal = Table::read(&edge.table).expect_err("a table past a limit");
        assert_ne!(refusal.reason(), Reason::Unlisted, "{}", edge.name);
        let Edge { number, place, .. } = edge;
        let start = format!("table refused (number {number}) at byte {place}: ");
        assert!(refusal.to_string().starts_with(&start), "{}", edge.name);
        tally.add_number(refusal.number);
    }
    tally.numbers_at_least(1, 1..=10);
}

#[test]
fn every_cut_and_every_lengthening() {
    let mut tally = Tally::new();
    for seed in 0..200 {
        let mut random = Random::new(seed);
        let mut table = any(&mut random, SMALL).table();
        for length in 0..=table.len() {
            tally.add_number(compare(seed, &table[..length]));
        }
        for _ in 0..40 {
            table.push(random.pick(&[0, 0, 0, 1, 2, 3, 4, 5, 6, 255]));
            tally.add_number(compare(seed, &table));
        }
    }
    tally.print("read: every cut and every lengthening");
    tally.numbers_at_least(200, [0, 2, 3, 4, 7]);
}

#[test]
fn every_byte_of_h_at_every_value() {
    let mut tally = Tally::new();
    for place in 0..h().len() {
        for byte in 0..=255 {
            let mut table = h();
            table[place] = byte;
            tally.add_number(compare(place as u64, &table));
            tally.add_number(compare(place as u64, &mended(table)));
        }
    }
    tally.print("read: every byte of h at every value");
    tally.numbers_at_least(500, [0, 2, 4, 5, 6, 9]);
    tally.numbers_at_least(15, [3, 7, 8]);
}

//! docs/FORMAT.md: the bytes of its worked example are a table and its reports, and its lists of
//! refusals have every number, in the sequence of the tests.

use hainscope::{calls, Reason, Refusal, MOST_REPORT_BYTES};

const PAGE: &str = include_str!("../../../docs/FORMAT.md");

/// The lines of a block of hex, the first being 0, each as bytes.
fn block(number: usize) -> Vec<Vec<u8>> {
    let block = PAGE
        .split("```hex\n")
        .nth(number + 1)
        .expect("a block of hex");
    let lines = block.split("```").next().expect("its end").lines();
    let byte = |hex| u8::from_str_radix(hex, 16).expect("a byte");
    lines
        .map(|line| line.split_whitespace().map(byte).collect())
        .collect()
}

type ReportCall = fn(&[u8], &mut [u8], usize, &mut usize) -> u32;

fn report(call: ReportCall, table: &[u8]) -> Vec<u8> {
    let (mut buffer, mut place) = ([0; MOST_REPORT_BYTES], 0);
    assert_eq!(call(table, &mut buffer, 0, &mut place), 0);
    buffer[..place].to_vec()
}

#[test]
fn the_worked_example_is_row_e_with_its_reports() {
    let table = block(0).concat();
    let sample = include_bytes!("../../../samples/e.table");
    assert_eq!(table, sample);
    let reports = [calls::conflict, calls::relaxation].map(|call| report(call, &table));
    assert_eq!(block(1), reports);
}

#[test]
fn the_worked_example_with_another_last_word_is_refused_as_the_page_says() {
    let mut table = block(0).concat();
    let word = table.len() - 2;
    assert_eq!(table[word..], [0xD6, 0xFF]);
    table[word] = 0xD7;
    let mut place = 0;
    assert_eq!(calls::read(&table, &mut place), 9);
    assert_eq!(place, 32);
    assert!(PAGE.contains("With FFD7 for the last word the table is refused with 9 at byte 32"));
}

#[test]
fn the_lists_of_refusals_have_every_number_in_the_sequence_of_the_tests() {
    let from = PAGE.find("## Refusals").expect("the refusals");
    let to = PAGE.find("## A worked example").expect("what follows them");
    let first_cell = |line: &str| line.split('|').nth(1)?.trim().parse::<u32>().ok();
    let listed: Vec<u32> = PAGE[from..to].lines().filter_map(first_cell).collect();
    assert_eq!(listed, [1, 2, 4, 3, 7, 10, 5, 6, 8, 9, 11, 12, 13]);
    for number in 1..100 {
        let known = Refusal { number, place: 0 }.reason() != Reason::Unlisted;
        assert_eq!(listed.contains(&number), known, "number {number}");
    }
}

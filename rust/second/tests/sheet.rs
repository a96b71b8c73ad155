//! The sample sheet of document 01, and a row of three requests, from table bytes to the answers,
//! and the program's lines.

use made::plan::Plan;
use made::sheet::{bib_map, h, sheet};
use second::methods::{Answer, Method, Sought};
use second::program::output;
use second::report::answer;
use second::rows::Event;

#[test]
fn every_row_by_halving() {
    for row in sheet() {
        let event = Event::of(&row.plan.table()).expect(row.name);
        for (sought, (status, count, set)) in [
            (Sought::Conflict, row.conflict),
            (Sought::Relaxation, row.relaxation),
        ] {
            let set = set.to_vec();
            let expected = Answer { status, count, set };
            let found = answer(&event, sought, Method::Halving);
            assert_eq!(found, expected, "row {}, {sought:?}", row.name);
        }
    }
}

#[test]
fn one_by_one_finds_the_same_sets_with_n_and_two_questions() {
    for row in sheet() {
        let event = Event::of(&row.plan.table()).expect(row.name);
        for (sought, (status, count, set)) in [
            (Sought::Conflict, row.conflict),
            (Sought::Relaxation, row.relaxation),
        ] {
            let count = match status {
                1 => u32::from(event.requests) + 2,
                _ => count,
            };
            let set = set.to_vec();
            let expected = Answer { status, count, set };
            let found = answer(&event, sought, Method::OneByOne);
            assert_eq!(found, expected, "row {}, {sought:?}", row.name);
        }
    }
}

#[test]
fn the_table_of_h_is_the_documents_byte_for_byte() {
    assert_eq!(h().len(), 92);
    assert_eq!(bib_map(4000).table(), h());
}

#[test]
fn the_program_prints_the_two_lines_of_h() {
    let lines = "conflict 1 8 3 2 4 3\nrelax 1 4 3 2 4 1\n";
    assert_eq!(output(&h()), lines);
}

#[test]
fn h_with_its_last_byte_dc_is_refused_9_at_86() {
    let mut table = h();
    table[91] = 0xDC;
    assert_eq!(output(&table), "refused 9 86\n");
}

#[test]
fn a_line_without_requests_ends_with_k() {
    let lines = "conflict 0 1 0\nrelax 0 1 0\n";
    assert_eq!(output(&Plan::empty(0, 0).table()), lines);
    assert_eq!(output(&[]), "refused 3 0\n");
}

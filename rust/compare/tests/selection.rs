//! All requests of a table: the crate's selection against the requests that the second program reads,
//! and against the library, which takes it and refuses a request more.

use compare::Tally;
use hainscope::{Refusal, Selection, Table};
use made::plan::Plan;
use made::stream::made;
use second::rows::Event;
use second::selection::selection_of;

/// Compares the selection of all requests of an accepted table with the second program's.
fn compare(table: &[u8], seed: u64) {
    let accepted = Table::read(table).expect("an accepted table");
    let mut order = Event::of(table).expect("the same table").order;
    let all = Selection::all(&accepted);
    assert_eq!(all.bits(), selection_of(&order), "seed {seed}");
    assert_eq!(all.len(), order.len(), "seed {seed}");
    order.sort_unstable();
    assert_eq!(all.requests().collect::<Vec<u16>>(), order, "seed {seed}");
}

#[test]
fn made_tables() {
    let mut tally = Tally::new();
    for seed in 630_000..640_000 {
        let table = made(seed).table;
        if let Ok(accepted) = Table::read(&table) {
            compare(&table, seed);
            tally.add(match accepted.requests() {
                0 => "no request",
                64 => "64 requests",
                _ => "some requests",
            });
        }
    }
    tally.print("selection: made tables");
    tally.at_least(200, "no request");
    tally.at_least(2_000, "some requests");
    tally.at_least(100, "64 requests");
}

#[test]
fn every_number_of_requests() {
    for requests in 0..=64 {
        let bytes = Plan::empty(0, requests).table();
        compare(&bytes, u64::from(requests));
        let table = Table::read(&bytes).expect("a plan's table is valid");
        let all = Selection::all(&table);
        assert_eq!(table.can_stand(all), Ok(true), "{requests} requests");
        if requests < 64 {
            let more = all.requests().chain([requests + 1]).collect();
            let above = Refusal {
                number: 11,
                place: 0,
            };
            assert_eq!(table.can_stand(more), Err(above), "{requests} requests");
        }
    }
}

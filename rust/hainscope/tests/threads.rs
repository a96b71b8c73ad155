//! Threads: what may be shared among them, and that all at once get the answers that one gets.

use hainscope::{wants, TableBuilder};
use hainscope::{Kind, Method, Reason, Record, Records, Refusal, Report, Selection, Sought, Table};
use std::thread;

/// Compiles for those types alone that threads may share and hand over.
fn may_be_shared<T: Send + Sync>() {}

#[test]
fn tables_and_all_that_they_give_may_be_shared() {
    may_be_shared::<Table>();
    may_be_shared::<Records>();
    may_be_shared::<(Record, Kind)>();
    may_be_shared::<(Selection, Report)>();
    may_be_shared::<(Refusal, Reason)>();
    may_be_shared::<TableBuilder>();
}

/// A table of some requests that each want one place, of which the host has half as many.
fn places(requests: u16) -> Vec<u8> {
    let terms: Vec<(u16, i32)> = (0..requests).map(|variable| (variable, 1)).collect();
    let mut builder =
        TableBuilder::new(requests, requests).linear(0, i32::from(requests) / 2, &terms);
    for request in 1..=requests {
        builder = builder.clause(request, &[wants(request - 1)]);
    }
    builder.table()
}

/// All that a table is asked here.
fn answers(bytes: &[u8]) -> (Vec<Report>, bool, usize) {
    let table = Table::read(bytes).expect("an accepted table");
    let report = |(sought, method)| table.report_by(sought, method).expect("a report");
    let reports = [
        (Sought::Conflict, Method::Halving),
        (Sought::Conflict, Method::OneByOne),
        (Sought::Relaxation, Method::Halving),
        (Sought::Relaxation, Method::OneByOne),
    ];
    let stands = table.can_stand(Selection::all(&table)).expect("an answer");
    let last = table.body(usize::from(table.requests()) + 3);
    let length = last.expect("the body of CHECK").len();
    (reports.map(report).to_vec(), stands, length)
}

#[test]
fn many_threads_at_once_get_the_answers_of_one() {
    let tables: Vec<Vec<u8>> = (0..=20).map(places).collect();
    let of_one: Vec<_> = tables.iter().map(|table| answers(table)).collect();
    assert_eq!(of_one[20].0[0].requests.len(), 11);
    thread::scope(|scope| {
        for start in 0..8 {
            let (tables, of_one) = (&tables, &of_one);
            scope.spawn(move || {
                for turn in 0..100 {
                    let number = (start + turn) % tables.len();
                    assert_eq!(answers(&tables[number]), of_one[number]);
                }
            });
        }
    });
}

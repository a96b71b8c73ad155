//! Reports by the library and by plain Rust programs that ask the same questions, on events with
//! conflicts of 2, 8 and 40 requests of 64 and on a hostile table. All start from the table's bytes
//! and a cleared buffer.

use crate::measure::Times;
use crate::{naive, plain};
use hainscope::{Table, MOST_REPORT_BYTES};
use made::hostile::sums::odd_by_requests;
use made::planted::planted;
use made::random::Random;
use second::methods::work;
use second::report::record;
use second::rows::Event;
use second::selection::Selection;

/// A thing sought, as each side names it.
const SOUGHT: [(&str, hainscope::Sought, second::methods::Sought); 2] = [
    (
        "conflict",
        hainscope::Sought::Conflict,
        second::methods::Sought::Conflict,
    ),
    (
        "relaxation",
        hainscope::Sought::Relaxation,
        second::methods::Sought::Relaxation,
    ),
];

/// A report, with what was in the buffer behind it.
type Report = [u8; MOST_REPORT_BYTES];

/// So many events are made for each size of a conflict. Where the variables of its conflict stand is
/// luck for the naive search, and these are enough to even it out.
const EVENTS: u64 = 10;

/// Prints all reports, the times of the events of one size together.
pub fn print() {
    println!("reports by halving on {EVENTS} events, 64 requests, 20 variables, cleared buffers:");
    for k in [2, 8, 40] {
        let both = SOUGHT.map(|(name, library, plain)| {
            let tables = (0..EVENTS).map(|event| table(k, event));
            let times = tables.map(|table| measured(&table, library, plain, true));
            let times: Times = times.sum();
            times.print(&format!("{name}, conflict of {k}"));
            times
        });
        let both: Times = both.into_iter().sum();
        both.print(&format!("both, conflict of {k}"));
    }
}

/// The table of an event with a conflict of k requests.
fn table(k: u64, event: u64) -> Vec<u8> {
    let (plan, _) = planted(&mut Random::new(100 * k + event), 20, 64, k as usize);
    plan.table()
}

/// Prints the reports on a hostile table whose rows are shared out among 64 requests.
pub fn print_hostile() {
    println!("reports by halving on a hostile table, 64 requests, 20 variables:");
    for (name, library, plain) in SOUGHT {
        let times = measured(&odd_by_requests().table(), library, plain, false);
        times.print(&format!("{name}, twice a sum is odd"));
    }
}

/// Times one report, five times and with the naive search where that is `quick`, and checks that
/// all sides write the same bytes.
fn measured(
    bytes: &[u8],
    sought: hainscope::Sought,
    sought_plain: second::methods::Sought,
    quick: bool,
) -> Times {
    let [mut library, mut plain]: [Report; 2] = [[0; MOST_REPORT_BYTES]; 2];
    let mut naive = None;
    let times = Times::of(
        if quick { 5 } else { 1 },
        &mut || library = by_library(bytes, sought),
        &mut || plain = by_plain(bytes, sought_plain, plain::can_stand),
        &mut || {
            let can_stand = |event: &Event, selection| {
                naive::can_stand(event, selection, u64::MAX).expect("no limit is reached")
            };
            naive = quick.then(|| by_plain(bytes, sought_plain, can_stand));
            quick
        },
    );
    assert_eq!(library, plain, "{sought:?}");
    assert_eq!(library, naive.unwrap_or(library), "{sought:?}");
    times
}

/// The library's report.
fn by_library(bytes: &[u8], sought: hainscope::Sought) -> Report {
    let mut buffer = [0; MOST_REPORT_BYTES];
    let table = Table::read(bytes).expect("a plan's table is valid");
    let written = table.write_report(sought, hainscope::Method::Halving, &mut buffer, 0);
    written.expect("room for any report");
    buffer
}

/// The report of a plain Rust program with this search.
fn by_plain(
    bytes: &[u8],
    sought: second::methods::Sought,
    can_stand: impl Fn(&Event, Selection) -> bool,
) -> Report {
    let mut buffer = [0; MOST_REPORT_BYTES];
    let event = Event::of(bytes).expect("a plan's table is valid");
    let ask = |selection| can_stand(&event, selection);
    let halving = second::methods::Method::Halving;
    let written = record(sought, &work(sought, halving, &event.order, &ask));
    buffer[..written.len()].copy_from_slice(&written);
    buffer
}

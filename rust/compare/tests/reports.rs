//! The four report calls against the second program, on made events and refused tables,
//! with every start and room around the limit of 12 + 2N bytes.

use compare::{Tally, REPORT_CALLS};
use made::edges::edges;
use made::events::{any, budget, extreme, LARGE, MIDDLE, SMALL};
use made::plan::Plan;
use made::planted::planted;
use made::random::Random;
use made::sheet::sheet;
use made::stream::made;
use second::reading::read;

/// The room that a table's report needs; 12 bytes for a refused table.
fn needed(table: &[u8]) -> usize {
    match read(table) {
        Ok(frame) => 12 + 2 * usize::from(frame.requests),
        Err(_) => 12,
    }
}

/// A buffer's length and a start, mostly with enough room, else on either side of the limit.
fn length_and_start(random: &mut Random, needed: usize) -> (usize, usize) {
    let start = random.below(20);
    match random.below(12) {
        0 => (start + needed - 1, start),
        1 => (start + random.below(needed), start),
        2 => (start, start + random.below(3)),
        3 => (
            start + needed,
            random.pick(&[usize::MAX, usize::MAX - 11, 1 << 63, 1 << 32]),
        ),
        4..=7 => (start + needed, start),
        _ => (start + needed + random.below(40), start),
    }
}

/// An event of a seed that is quickly answered.
fn event(seed: u64) -> Plan {
    let mut random = Random::new(seed);
    match random.below(10) {
        0 => extreme(&mut random),
        1..=3 => budget(&mut random, 6, 10),
        _ => any(&mut random, SMALL),
    }
}

#[test]
fn made_events() {
    let mut tally = Tally::new();
    for seed in 200_000..221_000 {
        let table = event(seed).table();
        let mut random = Random::new(seed);
        for call in &REPORT_CALLS {
            let room = length_and_start(&mut random, needed(&table));
            call.compare(seed, &table, room, &mut tally);
        }
    }
    tally.print("reports: made events");
    tally.at_least(10_000, "status 0");
    tally.at_least(20_000, "status 1");
    tally.at_least(4_000, "status 2");
    tally.at_least(10_000, "refusal 12");
}

#[test]
fn large_events() {
    let mut tally = Tally::new();
    for seed in 230_000..230_500 {
        let mut random = Random::new(seed);
        let plan = match random.below(4) {
            0 => any(&mut random, MIDDLE),
            1 => any(&mut random, LARGE),
            _ => {
                let k = 1 + random.below(40);
                planted(&mut random, 8, 64, k).0
            }
        };
        let table = plan.table();
        for call in &REPORT_CALLS {
            call.compare(seed, &table, (needed(&table) + 3, 2), &mut tally);
        }
    }
    tally.print("reports: large events");
    tally.at_least(1_200, "status 1");
}

#[test]
fn every_start_and_room_around_the_limit() {
    let mut tally = Tally::new();
    for seed in 240_000..240_300 {
        let table = event(seed).table();
        let needed = needed(&table);
        for call in &REPORT_CALLS {
            for start in 0..5 {
                for length in 0..start + needed + 4 {
                    if length < 4 || length + 4 >= start + needed {
                        call.compare(seed, &table, (length, start), &mut tally);
                    }
                }
            }
        }
    }
    tally.print("reports: every start and room around the limit");
    tally.at_least(20_000, "refusal 12");
    tally.at_least(2_000, "status 0");
    tally.at_least(5_000, "status 1");
    tally.at_least(1_000, "status 2");
}

#[test]
fn made_tables_and_edges() {
    let mut tally = Tally::new();
    let made = (250_000..275_000).map(|seed| (seed, made(seed).table));
    let edges = (0..).zip(edges().into_iter().map(|edge| edge.table));
    for (seed, table) in made.chain(edges) {
        let mut random = Random::new(seed);
        let is_quick = read(&table).map_or(true, |frame| frame.variables <= 8);
        let (length, start) = length_and_start(&mut random, needed(&table));
        let room = match is_quick {
            true => (length, start),
            false => (needed(&table) - 1, 0),
        };
        let call = &REPORT_CALLS[random.below(4)];
        call.compare(seed, &table, room, &mut tally);
    }
    tally.print("reports: made tables and edges");
    tally.at_least(1_000, "status 0");
    tally.at_least(500, "status 1");
    tally.at_least(200, "status 2");
    tally.at_least(1_000, "refusal 12");
    tally.numbers_at_least(300, 1..=10);
}

#[test]
fn the_sample_sheet() {
    let mut tally = Tally::new();
    for row in sheet() {
        let table = row.plan.table();
        for call in &REPORT_CALLS {
            call.compare(0, &table, (needed(&table) + 9, 4), &mut tally);
        }
        for (call, (status, count, set)) in [(0, row.conflict), (2, row.relaxation)] {
            let left = REPORT_CALLS[call].by_library(&table, vec![0; 140], 0);
            let report = hainscope::Report::of_record(&left.buffer[..left.place]);
            let report = report.expect("a report");
            assert_eq!(left.buffer[4], status as u8, "row {}", row.name);
            assert_eq!(
                (report.count, &report.requests[..]),
                (count, set),
                "row {}",
                row.name
            );
        }
    }
    assert_eq!(tally.all(), 48);
}

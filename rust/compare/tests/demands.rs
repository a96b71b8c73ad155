//! What the reports must have in common: both methods find the same set, and two different tables
//! with the same standing selections, number of requests and order have the same reports.

use compare::{hex, same, Asked, Tally, REPORT_CALLS};
use hainscope::{Method, Sought, Status, Table};
use made::events::{any, budget, SMALL};
use made::plan::Plan;
use made::random::Random;
use made::twins::{from_conflicts, twin};
use second::meaning::Granted;
use second::methods::halvings;
use second::preferred::minimal_conflicts;
use second::rows::Event;

/// An event of a seed.
fn event(seed: u64) -> Plan {
    let mut random = Random::new(seed);
    match random.below(3) {
        0 => budget(&mut random, 6, 8),
        _ => any(&mut random, SMALL),
    }
}

/// The minimal conflicts of a table.
fn minimal(plan: &Plan, table: &[u8]) -> Vec<u64> {
    let event = Event::of(table).expect("a plan's table is valid");
    let granted = Granted::by(&event);
    minimal_conflicts(&plan.order, &|selection| granted.can_stand(selection))
}

#[test]
fn both_methods_find_the_same_set_within_their_counts() {
    let mut tally = Tally::new();
    for seed in 300_000..305_000 {
        let bytes = event(seed).table();
        let table = Table::read(&bytes).expect("a plan's table is valid");
        let requests = Event::of(&bytes).expect("the same table").order.len();
        for sought in [Sought::Conflict, Sought::Relaxation] {
            let report = |method| table.report_by(sought, method).expect("a report");
            let (halving, one_by_one) = (report(Method::Halving), report(Method::OneByOne));
            assert_eq!(halving.requests, one_by_one.requests, "seed {seed}");
            assert_eq!(halving.status, one_by_one.status, "seed {seed}");
            tally.add(format!("{:?}", halving.status));
            if halving.status == Status::Conflict {
                let k = match sought {
                    Sought::Conflict => halving.requests.len(),
                    Sought::Relaxation => requests - halving.requests.len(),
                };
                let most = 2 + 2 * k as u32 * halvings(requests);
                assert!(halving.count <= most, "seed {seed}");
                assert_eq!(one_by_one.count, requests as u32 + 2, "seed {seed}");
            } else {
                assert_eq!(halving.count, one_by_one.count, "seed {seed}");
            }
        }
    }
    tally.print("demands: both methods");
    for status in [
        Status::AllCanStand,
        Status::Conflict,
        Status::HostCannotStand,
    ] {
        tally.at_least(300, &format!("{status:?}"));
    }
}

/// Compares all reports of two tables, byte for byte; "second" is here the other table.
fn compare_twins(seed: u64, table: &[u8], other: &[u8], tally: &mut Tally) {
    for call in &REPORT_CALLS {
        let of_one = call.by_library(table, vec![9; 150], 5);
        let of_other = call.by_library(other, vec![9; 150], 5);
        let different = if table == other { "equal" } else { "different" };
        tally.add(format!("{different} tables"));
        tally.add(format!("status {}", of_one.buffer[9]));
        let call = &format!("{} of the twin {}", call.name, hex(other));
        same(&Asked { call, seed, table }, of_one, of_other);
    }
}

#[test]
fn tables_with_the_same_standing_selections_have_the_same_reports() {
    let mut tally = Tally::new();
    for seed in 310_000..318_000 {
        let plan = event(seed);
        let table = plan.table();
        let mut random = Random::new(seed);
        let others = [
            twin(&mut random, &plan),
            from_conflicts(plan.requests, &plan.order, &minimal(&plan, &table)),
        ];
        for other in others {
            compare_twins(seed, &table, &other.table(), &mut tally);
        }
    }
    tally.print("demands: twins");
    tally.at_least(40_000, "different tables");
    for status in 0..3 {
        tally.at_least(3_000, &format!("status {status}"));
    }
}

//! Tables that are made from a seed, which stands in their name.

use crate::Named;
use made::events::{any, quick, LARGE, MIDDLE};
use made::plan::Plan;
use made::planted::planted;
use made::random::Random;
use made::stream::{made, Made};
use second::reading::read;

/// The most variables of a table that the second program answers at once.
const FEW_VARIABLES: u16 = 12;

/// Small events of any shape.
pub fn events() -> Vec<Named> {
    let seeds = 700_000..700_120;
    seeds.map(|seed| named(seed, &quick(seed))).collect()
}

/// Events of up to 64 requests.
pub fn large_events() -> Vec<Named> {
    let seeds = 710_000..710_060;
    seeds.map(|seed| named(seed, &large(seed))).collect()
}

/// The table of a plan.
fn named(seed: u64, plan: &Plan) -> Named {
    Named {
        name: format!("seed {seed}"),
        table: plan.table(),
    }
}

/// An event of up to 64 requests, half of them with one conflict of any size.
fn large(seed: u64) -> Plan {
    let mut random = Random::new(seed);
    match random.below(4) {
        0 => any(&mut random, MIDDLE),
        1 => any(&mut random, LARGE),
        _ => {
            let k = 1 + random.below(64);
            planted(&mut random, 8, 64, k).0
        }
    }
}

/// Tables of the stream: all that are refused, and of those that are accepted the ones with few
/// variables.
pub fn mixed() -> Vec<Named> {
    let is_quick = |made: &Made| {
        let frame = read(&made.table);
        frame.map_or(true, |frame| frame.variables <= FEW_VARIABLES)
    };
    let named = |Made { seed, way, table }| Named {
        name: format!("seed {seed}, {way}"),
        table,
    };
    let tables = (720_000..720_220).map(made);
    tables.filter(is_quick).map(named).collect()
}

//! The question: the library's answer and the second program's, which goes through all settings,
//! on all selections of small events and on some of large ones.

use compare::{ask_library, same, Asked, Outcome, Tally};
use made::edges::edges;
use made::events::{any, budget, extreme, LARGE, MIDDLE, SMALL};
use made::plan::Plan;
use made::planted::planted;
use made::random::Random;
use made::sheet::sheet;
use made::stream::made;
use second::meaning::{question, Granted};
use second::rows::Event;
use second::selection::{names_above, selection_of};

/// By the second program.
fn second(table: &[u8], selection: u64) -> Outcome {
    match question(table, selection) {
        Ok(stands) => (0, 0, u32::from(stands)),
        Err(refusal) => (refusal.number, refusal.place, 0),
    }
}

/// Compares an answer with the one expected and counts it.
fn compare(seed: u64, table: &[u8], selection: u64, expected: Outcome, tally: &mut Tally) {
    let call = &format!("can_stand of selection {selection:#x}");
    let found = ask_library(table, selection);
    same(&Asked { call, seed, table }, found, expected);
    match found {
        (0, _, 0) => tally.add("cannot stand"),
        (0, _, _) => tally.add("can stand"),
        (number, _, _) => tally.add_number(number),
    }
}

/// A selection of up to N requests: few, half or most of them.
fn any_selection(random: &mut Random, requests: u16) -> u64 {
    let bits = match random.below(4) {
        0 => random.bits() & random.bits() & random.bits(),
        1 => random.bits(),
        2 => random.bits() | random.bits() | random.bits(),
        _ => u64::MAX,
    };
    bits & ((1u128 << requests) - 1) as u64
}

/// A small event of a seed.
fn small(seed: u64) -> Plan {
    let mut random = Random::new(seed);
    match random.below(8) {
        0 => extreme(&mut random),
        1 | 2 => budget(&mut random, 6, 7),
        _ => any(&mut random, SMALL),
    }
}

#[test]
fn all_selections_of_small_events() {
    let mut tally = Tally::new();
    for seed in 100_000..108_000 {
        let plan = small(seed);
        let table = plan.table();
        let event = Event::of(&table).expect("a plan's table is valid");
        let granted = Granted::by(&event);
        for selection in 0..1 << plan.requests {
            let stands = u32::from(granted.can_stand(selection));
            compare(seed, &table, selection, (0, 0, stands), &mut tally);
        }
        if plan.requests < 64 {
            let above = 1 << plan.requests;
            compare(seed, &table, above, (11, 0, 0), &mut tally);
        }
    }
    tally.print("can_stand: all selections of small events");
    tally.at_least(50_000, "can stand");
    tally.at_least(50_000, "cannot stand");
    tally.at_least(7_000, "refusal 11");
}

#[test]
fn some_selections_of_large_events() {
    let mut tally = Tally::new();
    for seed in 120_000..124_000 {
        let mut random = Random::new(seed);
        let sizes = random.pick(&[MIDDLE, LARGE]);
        let plan = any(&mut random, sizes);
        let table = plan.table();
        for _ in 0..3 {
            let selection = any_selection(&mut random, plan.requests);
            let expected = second(&table, selection);
            compare(seed, &table, selection, expected, &mut tally);
        }
    }
    tally.print("can_stand: some selections of large events");
    tally.at_least(2_000, "can stand");
    tally.at_least(2_000, "cannot stand");
}

#[test]
fn planted_conflicts_stand_without_any_one_request() {
    let mut tally = Tally::new();
    for seed in 130_000..130_060 {
        let mut random = Random::new(seed);
        let variables = random.pick(&[8, 12, 14]);
        let k = 1 + random.below(40);
        let (plan, conflict) = planted(&mut random, variables, 64, k);
        let table = plan.table();
        let members = selection_of(&conflict);
        let without = members & !selection_of(&[random.pick(&conflict)]);
        compare(seed, &table, members, (0, 0, 0), &mut tally);
        compare(seed, &table, u64::MAX, (0, 0, 0), &mut tally);
        compare(seed, &table, without, (0, 0, 1), &mut tally);
    }
    let (plan, _) = planted(&mut Random::new(130_060), 20, 64, 8);
    for selection in [u64::MAX, 0, u64::MAX >> 1, u64::MAX << 9] {
        let expected = second(&plan.table(), selection);
        compare(130_060, &plan.table(), selection, expected, &mut tally);
    }
    tally.at_least(60, "can stand");
    tally.at_least(120, "cannot stand");
}

/// Whether a table may be asked: the second program goes through all settings, and a table of many
/// variables takes it long; such a table is asked only for what is refused.
fn is_quick(table: &[u8], selection: u64) -> bool {
    match Event::of(table) {
        Ok(event) => event.variables <= 12 || names_above(selection, event.requests),
        Err(_) => true,
    }
}

#[test]
fn made_tables_and_edges() {
    let mut tally = Tally::new();
    let made = (140_000..165_000).map(|seed| (seed, made(seed).table));
    let edges = (0..).zip(edges().into_iter().map(|edge| edge.table));
    for (seed, table) in made.chain(edges) {
        let mut random = Random::new(seed);
        let bits = random.bits();
        for selection in [0, bits >> random.below(64), u64::MAX] {
            if is_quick(&table, selection) {
                let expected = second(&table, selection);
                compare(seed, &table, selection, expected, &mut tally);
            }
        }
    }
    tally.print("can_stand: made tables and edges");
    tally.at_least(5_000, "can stand");
    tally.at_least(1_000, "cannot stand");
    tally.at_least(5_000, "refusal 11");
    tally.numbers_at_least(300, 1..=10);
}

#[test]
fn the_sample_sheet() {
    let mut tally = Tally::new();
    for row in sheet() {
        let table = row.plan.table();
        for selection in 0..2 << row.plan.requests {
            let expected = second(&table, selection);
            compare(0, &table, selection, expected, &mut tally);
        }
    }
    tally.numbers_at_least(30, [11]);
    tally.at_least(10, "cannot stand");
}

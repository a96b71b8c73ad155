//! The question on plans aimed at the search behind it, against the second program, which goes
//! through all settings; and the reports on some of them. Every maker of `made::searched` has its
//! own tally of both answers.

use compare::{ask_library, same, Asked, Tally, REPORT_CALLS};
use made::plan::Plan;
use made::random::Random;
use made::searched::lone::{by_a_chain, by_patterns, by_sums};
use made::searched::many::{many, Failing};
use made::searched::repeated::repeated;
use made::searched::settled::{settled, Met, Place};
use made::searched::sizes::{named_by, sized};
use made::searched::sums::{ends, near_sums};
use second::meaning::{meets, settings, Granted};
use second::rows::Event;
use std::collections::BTreeSet;
use std::ops::Range;

/// With at most so many requests all selections are asked.
const FEW_REQUESTS: u16 = 4;

/// What a test has compared: its tally, and the tables, so that only different ones are counted.
#[derive(Default)]
struct Compared {
    tally: Tally,
    tables: BTreeSet<Vec<u8>>,
}

impl Compared {
    /// Asks the library about selections of a plan and counts its answers under a sort of plan.
    fn plan(&mut self, seed: u64, sort: &str, plan: &Plan) {
        let table = plan.table();
        let event = Event::of(&table).expect("a plan's table is valid");
        let granted = Granted::by(&event);
        for selection in selections(seed, plan.requests) {
            let expected = granted.can_stand(selection);
            self.question((seed, sort), &table, selection, expected);
        }
        if self.tables.insert(table) {
            self.tally.add(format!("{sort}: different tables"));
        }
    }

    /// Asks one question.
    fn question(&mut self, from: (u64, &str), table: &[u8], selection: u64, expected: bool) {
        let (seed, sort) = from;
        let call = &format!("{sort}: can_stand of selection {selection:#x}");
        let found = ask_library(table, selection);
        same(
            &Asked { call, seed, table },
            found,
            (0, 0, u32::from(expected)),
        );
        let answer = if expected { "can" } else { "cannot" };
        self.tally.add(format!("{sort}: {answer} stand"));
    }

    /// Prints the tally of a test.
    fn print(&self, test: &str) {
        self.tally.print(&format!("search: {test}"));
    }

    /// Fails where a sort has too few different tables or answers of either kind.
    fn at_least(&self, sort: &str, tables: usize, can: usize, cannot: usize) {
        let least = [
            (tables, "different tables"),
            (can, "can stand"),
            (cannot, "cannot stand"),
        ];
        for (times, outcome) in least {
            self.tally.at_least(times, &format!("{sort}: {outcome}"));
        }
    }
}

/// Compares the plans of a maker that makes one sort.
fn of_one_sort(sort: &str, seeds: Range<u64>, make: fn(&mut Random) -> Plan) -> Compared {
    let mut compared = Compared::default();
    for seed in seeds {
        compared.plan(seed, sort, &make(&mut Random::new(seed)));
    }
    compared.print(sort);
    compared
}

/// All selections of few requests; of many none, all, all but one, and some others.
fn selections(seed: u64, requests: u16) -> Vec<u64> {
    let all = ((1u128 << requests) - 1) as u64;
    if requests <= FEW_REQUESTS {
        return (0..=all).collect();
    }
    let mut random = Random::new(seed);
    let mut selections = vec![0, all, all & !(1 << random.word(0, requests - 1))];
    for _ in 0..4 {
        let bits = random.bits();
        selections.extend([bits, bits & random.bits(), bits | random.bits()]);
    }
    selections.iter().map(|selection| selection & all).collect()
}

#[test]
fn bounds_at_and_beside_a_sum() {
    let compared = of_one_sort("near sums", 400_000..412_000, near_sums);
    compared.at_least("near sums", 11_900, 60_000, 30_000);
}

#[test]
fn weights_and_bounds_at_both_ends() {
    let compared = of_one_sort("ends", 420_000..426_000, ends);
    compared.at_least("ends", 5_900, 25_000, 10_000);
}

/// How many of the variables are named: in half of the plans all, else any number from the least.
fn all_or_some(random: &mut Random, least: u16, variables: u16) -> u16 {
    match random.chance(1, 2) {
        true => variables,
        false => random.word(least, variables),
    }
}

#[test]
fn every_number_of_variables_up_to_ten() {
    let mut compared = Compared::default();
    for (seed, variables) in (430_000..438_800).zip((0..=10).cycle()) {
        let mut random = Random::new(seed);
        let named = all_or_some(&mut random, 0, variables);
        let plan = sized(&mut random, variables, named);
        compared.plan(seed, &format!("V {variables}"), &plan);
        compared.tally.add(format!("{} named", named_by(&plan)));
        if named_by(&plan) < usize::from(variables) {
            compared.tally.add("nobody names a variable");
        }
    }
    compared.print("every number of variables up to ten");
    compared.at_least("V 0", 500, 1_500, 700);
    for variables in 1..=10 {
        compared.at_least(&format!("V {variables}"), 750, 1_500, 500);
        compared.tally.at_least(400, &format!("{variables} named"));
    }
    compared.tally.at_least(2_500, "nobody names a variable");
}

#[test]
fn seven_to_ten_named_of_more_variables() {
    let mut compared = Compared::default();
    for (seed, named) in (440_000..442_400).zip((7..=10).cycle()) {
        let mut random = Random::new(seed);
        let variables = random.word(named + 1, 13);
        let plan = sized(&mut random, variables, named);
        compared.plan(seed, &format!("{} named", named_by(&plan)), &plan);
    }
    compared.print("seven to ten named of more variables");
    for named in 7..=10 {
        compared.at_least(&format!("{named} named"), 580, 1_300, 350);
    }
}

#[test]
fn eleven_to_twenty_variables() {
    let mut compared = Compared::default();
    for (seed, variables) in (450_000..450_600).zip((11..=20).cycle()) {
        let mut random = Random::new(seed);
        let named = all_or_some(&mut random, 5, variables);
        let plan = sized(&mut random, variables, named);
        compared.plan(seed, &format!("V {variables}"), &plan);
    }
    compared.print("eleven to twenty variables");
    for variables in 11..=20 {
        compared.at_least(&format!("V {variables}"), 59, 100, 10);
    }
}

#[test]
fn rows_met_by_all_or_by_none() {
    let mut compared = Compared::default();
    let places = [Place::First, Place::Middle, Place::Last];
    let sorts = [
        places.map(|place| (Met::ByAll, place)),
        places.map(|place| (Met::ByNone, place)),
    ];
    let sorts = sorts.concat();
    for (seed, (met, place)) in (460_000..467_200).zip(sorts.iter().cycle()) {
        let plan = settled(&mut Random::new(seed), *met, *place);
        compared.plan(seed, &format!("{met:?} {place:?}"), &plan);
    }
    compared.print("rows met by all or by none");
    for (met, place) in sorts {
        compared.at_least(&format!("{met:?} {place:?}"), 1_180, 2_000, 2_000);
    }
}

#[test]
fn variables_repeated_with_both_signs() {
    let compared = of_one_sort("repeated", 470_000..477_000, repeated);
    compared.at_least("repeated", 6_900, 25_000, 8_000);
}

/// How many settings meet all rows of a plan.
fn settings_left(plan: &Plan) -> usize {
    let event = Event::of(&plan.table()).expect("a plan's table is valid");
    let meets_all = |setting: &u32| event.rows.iter().all(|row| meets(*setting, row));
    settings(event.variables).filter(meets_all).count()
}

/// A maker of plans with one setting that meets everything.
type Lone = fn(&mut Random, u16, bool) -> Plan;

/// Compares plans of a maker, in turn with the one setting left and shut out.
fn lone(make: Lone, name: &str, seeds: Range<u64>, most: u16) -> Compared {
    let mut compared = Compared::default();
    for seed in seeds {
        let mut random = Random::new(seed);
        let shut = seed % 2 == 1;
        let variables = random.word(1, most);
        let plan = make(&mut random, variables, shut);
        assert_eq!(settings_left(&plan), usize::from(!shut), "seed {seed}");
        compared.plan(seed, if shut { "shut out" } else { "one left" }, &plan);
    }
    compared.print(&format!("one setting by {name}"));
    compared
}

#[test]
fn one_setting_by_patterns() {
    let compared = lone(by_patterns, "patterns", 480_000..484_000, 12);
    compared.at_least("one left", 1_700, 5_000, 0);
    compared.at_least("shut out", 1_700, 3_000, 2_000);
}

#[test]
fn one_setting_by_sums() {
    let compared = lone(by_sums, "sums", 490_000..494_000, 12);
    compared.at_least("one left", 1_800, 5_000, 0);
    compared.at_least("shut out", 1_800, 2_000, 2_500);
}

#[test]
fn one_setting_by_a_chain() {
    let compared = lone(by_a_chain, "a chain", 500_000..502_000, 12);
    compared.at_least("one left", 850, 2_500, 0);
    compared.at_least("shut out", 900, 1_500, 1_000);
}

#[test]
fn one_setting_of_up_to_twenty_variables() {
    let mut compared = Compared::default();
    for (seed, variables) in (510_000..510_240).zip((13..=20).cycle()) {
        let mut random = Random::new(seed);
        let make = random.pick(&[by_sums as Lone, by_a_chain, by_patterns]);
        let shut = random.chance(1, 2);
        let plan = make(&mut random, variables, shut);
        compared.plan(seed, &format!("V {variables}"), &plan);
    }
    compared.print("one setting of up to twenty variables");
    for variables in 13..=20 {
        compared.at_least(&format!("V {variables}"), 30, 40, 8);
    }
}

#[test]
fn up_to_512_rows() {
    let mut compared = Compared::default();
    let places = [Failing::Nowhere, Failing::First, Failing::Last];
    for (seed, failing) in (520_000..522_400).zip(places.iter().cycle()) {
        let plan = many(&mut Random::new(seed), *failing);
        compared.plan(seed, &format!("{failing:?}"), &plan);
        compared.tally.add(format!("{} rows", plan.rows.len()));
    }
    compared.print("up to 512 rows");
    compared.at_least("Nowhere", 800, 3_000, 0);
    compared.at_least("First", 800, 2_000, 1_000);
    compared.at_least("Last", 800, 2_000, 1_000);
    compared.tally.at_least(900, "512 rows");
}

/// A plan of any of the makers, small enough for a report by the second program.
fn any_searched(random: &mut Random) -> Plan {
    let (variables, shut) = (random.word(1, 12), random.chance(1, 2));
    match random.below(12) {
        0 => ends(random),
        1 => sized(random, variables, variables),
        2 => settled(random, Met::ByNone, Place::Last),
        3 => settled(random, Met::ByAll, Place::First),
        4 => repeated(random),
        5 => by_patterns(random, variables, shut),
        6 => by_sums(random, variables, shut),
        7 => by_a_chain(random, variables, shut),
        8 => many(random, Failing::Last),
        _ => near_sums(random),
    }
}

#[test]
fn reports() {
    let mut tally = Tally::new();
    for seed in 530_000..533_000 {
        let plan = any_searched(&mut Random::new(seed));
        let room = 12 + 2 * usize::from(plan.requests);
        for call in &REPORT_CALLS {
            call.compare(seed, &plan.table(), (room + 5, 3), &mut tally);
        }
    }
    tally.print("search: reports");
    tally.at_least(4_500, "status 0");
    tally.at_least(3_000, "status 1");
    tally.at_least(1_800, "status 2");
}

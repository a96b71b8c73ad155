//! One question by the library, by plain Rust with the same search and by the naive search: on made
//! events of 64 requests and 20 variables, and on hostile tables. Decoding is in neither Rust time.

use crate::measure::Times;
use crate::{naive, plain};
use hainscope::{Selection, Table};
use made::hostile;
use made::plan::Plan;
use made::planted::planted;
use made::random::Random;
use second::rows::Event;

/// The naive search is given up after so many row tests: about a second.
const MOST_TESTS: u64 = 30_000_000;

/// Prints the questions on made events.
pub fn print_made() {
    println!("one question, 64 requests, 20 variables:");
    for k in [2, 8, 40] {
        let (plan, conflict) = planted(&mut Random::new(k), 20, 64, k as usize);
        let without = !(1 << (conflict[0] - 1));
        measured(
            &format!("conflict of {k}, all requests"),
            &plan,
            u64::MAX,
            5,
        );
        measured(&format!("conflict of {k}, all but one"), &plan, without, 5);
    }
}

/// Prints the questions on hostile tables, and which took the library longest.
pub fn print_hostile() {
    println!("one question on a hostile table, 20 variables:");
    let mut longest = None;
    for (name, plan) in hostile::all() {
        let taken = measured(&name, &plan, 0, 3).library;
        longest = longest.max(Some((taken, name)));
    }
    if let Some((taken, name)) = longest {
        println!("the longest: {taken:.1?}, {name}");
    }
}

/// Times one question, and checks that all sides give the same answer.
fn measured(name: &str, plan: &Plan, selection: u64, runs: usize) -> Times {
    let bytes = plan.table();
    let table = Table::read(&bytes).expect("a plan's table is valid");
    let event = Event::of(&bytes).expect("a plan's table is valid");
    let (mut library, mut plain, mut naive) = (false, false, None);
    let times = Times::of(
        runs,
        &mut || {
            let answer = table.can_stand(Selection::from_bits(selection));
            library = answer.expect("a selection of the table");
        },
        &mut || plain = plain::can_stand(&event, selection),
        &mut || {
            naive = naive::can_stand(&event, selection, MOST_TESTS);
            naive.is_some()
        },
    );
    assert_eq!(library, plain, "{name}");
    assert_eq!(library, naive.unwrap_or(library), "{name}");
    times.print(name);
    times
}

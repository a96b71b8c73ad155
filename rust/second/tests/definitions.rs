//! The methods against the definitions on made small events: sets, statuses, counts, bound,
//! and the quick way to answer many questions against the plain one.

use made::events::{any, budget, LARGE, MIDDLE, SMALL};
use made::plan::Plan;
use made::planted::planted;
use made::random::Random;
use made::twins::{from_conflicts, twin};
use second::meaning::{can_stand, question, Granted};
use second::methods::{halvings, work, Answer, Method, Sought, METHODS, SOUGHT};
use second::preferred::{minimal_conflicts, preferred_conflict, preferred_relaxation};
use second::refusal::Refusal;
use second::rows::Event;
use second::selection::{listed, Selection};

/// The event of a plan.
fn event(plan: &Plan) -> Event {
    Event::of(&plan.table()).expect("a plan's table is valid")
}

/// Status and set by definition.
fn by_definition(
    sought: Sought,
    order: &[u16],
    can_stand: &dyn Fn(Selection) -> bool,
) -> (u16, Vec<u16>) {
    let conflict = preferred_conflict(order, can_stand);
    let relaxation = preferred_relaxation(order, can_stand);
    let status = match (conflict, relaxation) {
        (None, _) => 0,
        (Some(_), None) => 2,
        (Some(_), Some(_)) => 1,
    };
    let set = match sought {
        Sought::Conflict => conflict,
        Sought::Relaxation => relaxation,
    };
    (status, listed(set.unwrap_or(0), order))
}

/// The largest halving count of an answer: 2 + 2kd, k being the size of the conflict or the
/// number of requests that the relaxation drops; at most 2 where nothing is worked.
fn bound(sought: Sought, requests: usize, answer: &Answer) -> u32 {
    let k = match (answer.status, sought) {
        (1, Sought::Conflict) => answer.set.len(),
        (1, Sought::Relaxation) => requests - answer.set.len(),
        _ => 0,
    };
    2 + 2 * k as u32 * halvings(requests)
}

/// Compares both methods with the definition on one event; returns the status.
fn compare(seed: u64, event: &Event) -> u16 {
    let granted = Granted::by(event);
    let ask = |selection| granted.can_stand(selection);
    let mut status = 0;
    for sought in SOUGHT {
        let expected = by_definition(sought, &event.order, &ask);
        for method in METHODS {
            let found = work(sought, method, &event.order, &ask);
            let whole = (found.status, found.set.clone());
            assert_eq!(whole, expected, "seed {seed}, {sought:?}, {method:?}");
            let n = event.order.len();
            match method {
                Method::Halving => assert!(found.count <= bound(sought, n, &found)),
                Method::OneByOne if found.status == 1 => assert_eq!(found.count, n as u32 + 2),
                Method::OneByOne => assert!(found.count <= 2),
            }
        }
        status = expected.0;
    }
    status
}

#[test]
fn both_methods_find_what_the_definitions_say() {
    let mut statuses = [0; 3];
    for seed in 0..12_000 {
        let mut random = Random::new(seed);
        let plan = match seed % 4 {
            0 => budget(&mut random, 6, 8),
            1 if seed % 3 == 0 => any(&mut random, MIDDLE),
            _ => any(&mut random, SMALL),
        };
        statuses[usize::from(compare(seed, &event(&plan)))] += 1;
    }
    assert!(statuses.iter().all(|times| *times >= 700), "{statuses:?}");
}

#[test]
fn planted_conflicts_are_found_within_the_bound() {
    for seed in 0..300 {
        let mut random = Random::new(seed);
        let k = 1 + random.below(40);
        let (plan, conflict) = planted(&mut random, 8, 64, k);
        let event = event(&plan);
        let granted = Granted::by(&event);
        for method in METHODS {
            let ask = |selection| granted.can_stand(selection);
            let found = work(Sought::Conflict, method, &event.order, &ask);
            assert_eq!((found.status, &found.set), (1, &conflict), "seed {seed}");
            let most = 2 + 2 * k as u32 * 6;
            assert!(method == Method::OneByOne || found.count <= most);
        }
    }
}

#[test]
fn many_questions_answered_at_once_are_the_plain_ones() {
    for seed in 0..600 {
        let mut random = Random::new(seed);
        let sizes = random.pick(&[SMALL, SMALL, MIDDLE, LARGE]);
        let event = event(&any(&mut random, sizes));
        let granted = Granted::by(&event);
        let all = (1u128 << event.requests) as u64;
        for _ in 0..20 {
            let selection = (random.bits() & random.bits()) & all.wrapping_sub(1);
            let plain = can_stand(&event, selection);
            assert_eq!(granted.can_stand(selection), plain, "seed {seed}");
        }
    }
}

#[test]
fn twins_have_the_same_standing_selections() {
    for seed in 0..3_000 {
        let mut random = Random::new(seed);
        let plan = any(&mut random, SMALL);
        let twin = event(&twin(&mut random, &plan));
        let event_of_plan = event(&plan);
        let granted = Granted::by(&event_of_plan);
        let ask = |selection| granted.can_stand(selection);
        let minimal = minimal_conflicts(&plan.order, &ask);
        let anew = event(&from_conflicts(plan.requests, &plan.order, &minimal));
        let (twin, anew) = (Granted::by(&twin), Granted::by(&anew));
        for selection in 0..1 << plan.requests {
            let stands = ask(selection);
            assert_eq!(twin.can_stand(selection), stands, "seed {seed}");
            assert_eq!(anew.can_stand(selection), stands, "seed {seed}");
        }
    }
}

#[test]
fn halvings_are_the_least_with_a_power_not_below_n() {
    for (requests, d) in [(0, 0), (1, 0), (2, 1), (3, 2), (4, 2), (5, 3), (32, 5)] {
        assert_eq!(halvings(requests), d);
    }
    assert!((33..=64).all(|requests| halvings(requests) == 6));
}

#[test]
fn a_selection_above_n_is_refused_after_the_table() {
    let mut table = Plan::empty(0, 3).table();
    assert_eq!(question(&table, 0b111), Ok(true));
    assert_eq!(question(&table, 0b1000), Err(Refusal::new(11, 0)));
    assert_eq!(question(&table, 1 << 63), Err(Refusal::new(11, 0)));
    table.pop();
    assert_eq!(question(&table, 1 << 63), Err(Refusal::new(2, 18)));
    let full = Plan::empty(0, 64).table();
    assert_eq!(question(&full, u64::MAX), Ok(true));
}

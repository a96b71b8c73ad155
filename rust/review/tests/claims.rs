//! Claims on budgets: what is counted, for whom, and of how much; and on made events that the sums agree
//! with what the rows mean and with what the library says can stand.

mod shapes;

use hainscope::{refuses, wants, Condition, Status};
use made::events::{budget, quick};
use made::random::Random;
use review::event::{read_table, Budget, Event};
use review::page::claims::{takings, wishes, Claimant, Claims};
use shapes::answer;

/// The claims of some requests on the first budget of an event.
fn claims_of(event: &Event, requests: &[u16]) -> Claims {
    let budget = event.host_budgets().next().expect("a budget");
    Claims::on(&budget, &wishes(event, requests))
}

/// Claimant, variable, state and amount of each claim that counts.
fn counted(claims: &Claims) -> Vec<(Claimant, u16, bool, i64)> {
    let tell = |claim: &review::page::claims::Claim| {
        let taking = claim.taking;
        let state = taking.state;
        (claim.claimant, state.variable, state.on, taking.amount)
    };
    claims.counted().map(tell).collect()
}

#[test]
fn the_accident_claims_too_many() {
    let event = shapes::accident();
    let claims = claims_of(&event, &event.order);
    assert_eq!((claims.total(), claims.room), (4200, 4000));
    assert!(claims.unclaimed.is_empty());
    let expected = [
        (Claimant::PlugIn(1), 0, true, 1500),
        (Claimant::PlugIn(2), 1, true, 1400),
        (Claimant::PlugIn(3), 2, true, 1300),
    ];
    assert_eq!(counted(&claims), expected);
}

#[test]
fn claims_go_by_importance() {
    let event = shapes::bib_map();
    let claims = claims_of(&event, &event.order);
    let claimants: Vec<Claimant> = claims.claims.iter().map(|claim| claim.claimant).collect();
    assert_eq!(claimants, [2, 4, 1, 3].map(Claimant::PlugIn));
    assert_eq!(claims_of(&event, &[2, 4, 1]).total(), 2800);
}

#[test]
fn what_gives_is_room_and_is_taken_where_it_is_off() {
    let event = shapes::negative();
    let claims = claims_of(&event, &event.order);
    assert_eq!((claims.room, claims.total()), (920, 1070));
    let expected = [
        (Claimant::Host, 4, true, 250),
        (Claimant::PlugIn(1), 2, true, 400),
        (Claimant::PlugIn(2), 0, false, 300),
        (Claimant::PlugIn(4), 1, false, 120),
    ];
    assert_eq!(counted(&claims), expected);
    assert_eq!(claims.unclaimed.len(), 1);
    assert_eq!(
        (
            claims.unclaimed[0].state.variable,
            claims.unclaimed[0].amount
        ),
        (3, 300)
    );
}

#[test]
fn weights_of_one_variable_are_added_up() {
    let event = shapes::shared();
    let claims = claims_of(&event, &event.order);
    assert_eq!(
        takings(&[(0, 30), (1, 20), (0, 10), (2, 50), (2, -50)]).len(),
        2
    );
    assert_eq!((claims.total(), claims.room), (60, 50));
    let shared: Vec<Option<Claimant>> = claims
        .claims
        .iter()
        .map(|claim| claim.shared_with)
        .collect();
    let first = Some(Claimant::PlugIn(1));
    assert_eq!(shared, [None, first, None, Some(Claimant::PlugIn(3))]);
    assert!(
        claims.unclaimed.is_empty(),
        "what comes to nothing takes nothing"
    );
}

#[test]
fn without_the_more_important_one_a_shared_request_counts_for_the_other() {
    let event = shapes::shared();
    assert_eq!(
        counted(&claims_of(&event, &[2, 4])),
        [
            (Claimant::PlugIn(2), 0, true, 40),
            (Claimant::PlugIn(4), 1, true, 20)
        ]
    );
}

#[test]
fn only_single_wishes_are_claims() {
    let event = shapes::event("", &["gps", "wifi"], &["Map", "Chat"]);
    let event = shapes::budget(event, 0, "", 9, &[(0, 4), (1, 5)]);
    let event = shapes::clause(event, 1, &[wants(0), wants(1)]);
    let event = shapes::clause(event, 1, &[]);
    let event = shapes::clause(event, 2, &[refuses(0)]);
    let event = shapes::budget(event, 2, "", -1, &[(1, -1)]);
    let claims = claims_of(&event, &event.order);
    assert!(claims.claims.is_empty());
    assert_eq!(
        (claims.total(), claims.room, claims.unclaimed.len()),
        (0, 9, 2)
    );
}

#[test]
fn the_greatest_numbers_are_added_up_exactly() {
    let terms: Vec<(u16, i32)> = (0..40).map(|place| (place / 2, i32::MIN)).collect();
    let budget = Budget {
        name: None,
        bound: i32::MIN,
        terms: &terms,
    };
    let claims = Claims::on(&budget, &[]);
    assert_eq!(claims.room, i64::from(i32::MIN) - 40 * i64::from(i32::MIN));
    assert!(takings(&terms)
        .iter()
        .all(|taking| taking.amount == 1 << 32));
}

#[test]
fn room_less_what_is_taken_is_bound_less_the_sum() {
    let mut random = Random::new(7);
    for _ in 0..200 {
        let terms: Vec<(u16, i32)> = (0..random.below(9))
            .map(|_| (random.word(0, 4), random.between(-9, 9) as i32))
            .collect();
        let bound = random.between(-20, 20) as i32;
        let budget = Budget {
            name: None,
            bound,
            terms: &terms,
        };
        let room = Claims::on(&budget, &[]).room;
        for setting in 0..32 {
            let is_on = |variable: u16| setting >> variable & 1 == 1;
            let weights = terms.iter().filter(|(variable, _)| is_on(*variable));
            let sum: i64 = weights.map(|(_, weight)| i64::from(*weight)).sum();
            let taken = takings(&terms).into_iter();
            let taken = taken.filter(|taking| is_on(taking.state.variable) == taking.state.on);
            let taken: i64 = taken.map(|taking| taking.amount).sum();
            assert_eq!(
                room - taken,
                i64::from(bound) - sum,
                "{terms:?} at {setting}"
            );
        }
    }
}

/// Whether two wishes of some requests are at odds.
fn at_odds(event: &Event, requests: &[u16]) -> bool {
    let wishes = wishes(event, requests);
    wishes.iter().any(|one| {
        let other = |other: &review::page::claims::Wish| {
            other.state.variable == one.state.variable && other.state.on != one.state.on
        };
        wishes.iter().any(other)
    })
}

#[test]
fn what_the_library_lets_stand_never_claims_too_many() {
    let mut seen = [0; 3];
    for seed in 0..3_000 {
        let mut random = Random::new(seed);
        let plan = match seed % 2 {
            0 => quick(seed),
            _ => budget(&mut random, 6, 8),
        };
        let event = read_table(&plan.table()).expect("a plan's table is valid");
        let answer = answer(&event);
        if answer.status() == Status::HostCannotStand {
            continue;
        }
        let best = &answer.relaxation.requests;
        assert!(!at_odds(&event, best), "seed {seed}");
        let (all, best) = (wishes(&event, &event.order), wishes(&event, best));
        for budget in event.host_budgets() {
            let standing = Claims::on(&budget, &best);
            assert!(standing.total() <= standing.room, "seed {seed}");
            let whole = Claims::on(&budget, &all);
            assert!(standing.total() <= whole.total(), "seed {seed}");
            seen[0] += 1;
            seen[1] += usize::from(whole.total() > whole.room);
            seen[2] += usize::from(!standing.claims.is_empty());
        }
    }
    assert!(seen.iter().all(|number| *number >= 300), "{seen:?}");
}

#[test]
fn clauses_alone_make_wishes() {
    let event = shapes::accident();
    let clauses =
        |row: &&review::event::EventRow| matches!(row.row.condition, Condition::Clause(_));
    let number = event.rows.iter().filter(clauses).count();
    assert_eq!(wishes(&event, &event.order).len(), number);
    assert!(wishes(&event, &[]).is_empty());
}

//! Clauses that are known to be hard, and rows that only cost time.

use super::{shuffled, VARIABLES};
use crate::plan::{refuses, wants, Plan, Row};
use crate::planted::shuts_out;
use crate::random::Random;

/// How many of the rows that never fail have ten terms, so that their table has 32,768 bytes; the
/// others have nine.
const WITH_TEN_TERMS: usize = 33;
/// Parities of eight variables, as bits: each variable that one of them has is in two.
const PARITIES: [u32; 4] = [0x00FF, 0xFF00, 0x0F0F, 0xF0F0];

/// The plans of clauses.
pub fn all() -> Vec<(String, Plan)> {
    let mut plans = vec![
        ("508 rows that never fail, then four".into(), never_fail()),
        ("five pigeons in four holes".into(), pigeons(5, 4)),
        ("four parities of eight variables".into(), parities()),
    ];
    for (count, length, seed) in [(85, 3, 0), (85, 3, 1), (200, 3, 2), (440, 5, 3)] {
        let name = format!("{count} clauses of {length}, seed {seed}");
        plans.push((name, any_clauses(count, length, seed)));
    }
    plans
}

/// Linear rows that every setting meets, then four clauses that no setting meets together. A search
/// that keeps rows which cannot fail reads them all at every step.
fn never_fail() -> Plan {
    let mut random = Random::new(20);
    let mut plan = Plan::empty(VARIABLES, 0);
    for number in 0..508 {
        let terms = if number < WITH_TEN_TERMS { 10 } else { 9 };
        let term = |_| (random.word(0, VARIABLES - 1), 1);
        let terms = (0..terms).map(term).collect();
        plan.rows.push(Row::Linear(0, 10, terms));
    }
    for (first, last) in [(0, 38), (0, 39), (1, 38), (1, 39)] {
        plan = plan.clause(0, &[first, last]);
    }
    plan
}

/// Each pigeon is in some hole, and no two are in one. Every proof by cases is long.
fn pigeons(pigeons: u16, holes: u16) -> Plan {
    let in_hole = |pigeon: u16, hole: u16| pigeon * holes + hole;
    let mut plan = Plan::empty(pigeons * holes, 0);
    for one in 0..pigeons {
        let some: Vec<u16> = (0..holes).map(|hole| wants(in_hole(one, hole))).collect();
        plan = plan.clause(0, &some);
        for (other, hole) in (0..one).flat_map(|other| (0..holes).map(move |hole| (other, hole))) {
            let two = [one, other].map(|pigeon| refuses(in_hole(pigeon, hole)));
            plan = plan.clause(0, &two);
        }
    }
    plan
}

/// Parities of eight variables that contradict each other, as clauses: one is odd, the others are
/// even, and together they have each variable an even number of times. No clause says anything
/// before its last variable is decided.
fn parities() -> Plan {
    let mut rows = Vec::new();
    for (number, parity) in PARITIES.iter().enumerate() {
        let named = |variable: &u16| parity >> variable & 1 == 1;
        let variables: Vec<u16> = (0..VARIABLES).filter(named).collect();
        let odd = u32::from(number == 0);
        let wrong = |setting: &usize| setting.count_ones() % 2 != odd;
        let settings = (0..1 << variables.len()).filter(wrong);
        rows.extend(settings.map(|setting| shuts_out(0, setting, &variables)));
    }
    shuffled(&mut Random::new(6), rows)
}

/// Clauses of this length on any different variables. With 4.26 clauses of three a variable, half
/// of such plans can stand, and those are the hardest.
fn any_clauses(count: usize, length: usize, seed: u64) -> Plan {
    let mut random = Random::new(seed);
    let mut variables: Vec<u16> = (0..VARIABLES).collect();
    let clause = |_| {
        random.shuffle(&mut variables);
        let literal = |variable: &u16| 2 * variable + random.word(0, 1);
        Row::Clause(0, variables[..length].iter().map(literal).collect())
    };
    let rows = (0..count).map(clause).collect();
    shuffled(&mut Random::new(seed), rows)
}

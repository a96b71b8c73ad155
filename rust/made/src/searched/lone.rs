//! Plans with exactly one setting that meets everything, and the same with that one shut out as
//! well. They are aimed at a branch that is lost: the one setting can be at its end.

use super::around::true_literal;
use crate::events::sum_at;
use crate::plan::{Plan, Row};
use crate::planted::shuts_out;
use crate::random::Random;

/// The most variables whose settings are shut out one by one in one part: 512 rows.
const WHOLE: u16 = 9;
/// The most variables of a part where there are several.
const PART: usize = 5;

/// One clause for each setting but the lone one, and, where that is shut out too, for all of them:
/// of all variables where V is at most 9, else of parts of up to five variables.
pub fn by_patterns(random: &mut Random, variables: u16, shut: bool) -> Plan {
    let lone = random.bits();
    let mut names: Vec<u16> = (0..variables).collect();
    random.shuffle(&mut names);
    let size = match variables <= WHOLE {
        true => usize::from(WHOLE),
        false => 2 + random.below(PART - 1),
    };
    let parts: Vec<&[u16]> = names.chunks(size).collect();
    let shut_part = random.below(parts.len());
    let mut rows = Vec::new();
    for (place, part) in parts.iter().enumerate() {
        let left = (0..)
            .zip(*part)
            .fold(0, |left, (bit, name)| left | (lone >> name & 1) << bit);
        let out = |pattern: &u64| *pattern != left || shut && place == shut_part;
        let patterns = (0..1 << part.len()).filter(out);
        rows.extend(patterns.map(|pattern| shuts_out(0, pattern as usize, part)));
    }
    of_rows(random, variables, rows)
}

/// For each of one or two parts of the variables two linear rows, which hold a sum of powers of
/// two, up to 2^19, at the lone setting's: at most this, and at least this. It is shut out by a
/// clause, or by one of the bounds.
pub fn by_sums(random: &mut Random, variables: u16, shut: bool) -> Plan {
    let lone = random.bits();
    let mut names: Vec<u16> = (0..variables).collect();
    random.shuffle(&mut names);
    let cut = match random.chance(1, 2) {
        true => 0,
        false => random.below(names.len() + 1),
    };
    let (one, other) = names.split_at(cut);
    let mut rows = Vec::new();
    let by_bound = random.chance(1, 2);
    rows.extend(held(random, one, lone, false));
    rows.extend(held(random, other, lone, shut && by_bound));
    if shut && !by_bound {
        let literal = |variable: &u16| true_literal(*variable, lone) ^ 1;
        rows.push(Row::Clause(0, names.iter().map(literal).collect()));
    }
    of_rows(random, variables, rows)
}

/// Two rows that are met by the lone setting's values of some variables only, or by none.
fn held(random: &mut Random, names: &[u16], lone: u64, shut: bool) -> [Row; 2] {
    let power = |(bit, name): (u32, &u16)| (*name, 1 << bit);
    let mut terms: Vec<(u16, i32)> = (0..).zip(names).map(power).collect();
    let sum = sum_at(&terms, lone);
    random.shuffle(&mut terms);
    let opposite = |(variable, weight): &(u16, i32)| (*variable, -weight);
    let opposites = terms.iter().map(opposite).collect();
    [
        Row::Linear(0, sum - i32::from(shut), terms),
        Row::Linear(0, -sum, opposites),
    ]
}

/// One literal that must be true, and clauses that lead from each literal to the next, so that
/// every value follows; shut out by one more, which leads from the last to the first one's
/// opposite. V is at least 1.
pub fn by_a_chain(random: &mut Random, variables: u16, shut: bool) -> Plan {
    let lone = random.bits();
    let literal = |name| true_literal(name, lone);
    let mut literals: Vec<u16> = (0..variables).map(literal).collect();
    random.shuffle(&mut literals);
    let step = |two: &[u16]| Row::Clause(0, vec![two[0] ^ 1, two[1]]);
    let mut rows: Vec<Row> = literals.windows(2).map(step).collect();
    let (first, last) = (literals[0], literals[literals.len() - 1]);
    rows.push(Row::Clause(0, vec![first]));
    if shut {
        rows.push(Row::Clause(0, vec![last ^ 1, first ^ 1]));
    }
    of_rows(random, variables, rows)
}

/// A plan of such rows in any sequence, in half of the plans all of the host, else of up to three
/// requests as well.
fn of_rows(random: &mut Random, variables: u16, rows: Vec<Row>) -> Plan {
    let requests = random.pick(&[0, 0, 0, 1, 2, 3]);
    let mut plan = Plan::empty(variables, requests);
    random.shuffle(&mut plan.order);
    for row in rows {
        let role = random.word(0, requests);
        plan.rows.push(match row {
            Row::Clause(_, literals) => Row::Clause(role, literals),
            Row::Linear(_, bound, terms) => Row::Linear(role, bound, terms),
        });
    }
    random.shuffle(&mut plan.rows);
    plan
}

//! Words of 20 bits, and rows that keep a setting away from them: each says that the setting differs
//! from its word in more than so many places. All weights are alike and no variable is better than
//! another; a row fails only where nearly all variables are decided, and next time it is another.

use super::stage::{
    rows,
    Stage::{Idle, Pattern},
};
use super::sums::subset_sum;
use super::{repeated, shuffled, VARIABLES};
use crate::plan::{Plan, Row};
use crate::random::Random;

/// The plans of words.
pub fn all() -> Vec<(String, Plan)> {
    let plans = [
        ("128 words, some within 6 places of all", code(7, 6)),
        ("64 words, some within 7 places of all", code(6, 7)),
        ("any words, 5 places, and a subset sum", any_words(5)),
        ("patterns of 5 among 60 words, 3 places", among_words()),
    ];
    plans.map(|(name, plan)| (name.into(), plan)).to_vec()
}

/// The words of a linear code of this dimension, repeated. Every setting is within the radius of
/// one or of a few words, so that a failing row is found only after others have been tested.
fn code(dimension: usize, radius: i32) -> Plan {
    let mut random = Random::new(4);
    let basis: Vec<u64> = (0..dimension).map(|_| random.bits()).collect();
    let word = |number: usize| {
        let chosen = basis.iter().enumerate();
        let chosen = chosen.filter(|(at, _)| number >> at & 1 == 1);
        chosen.fold(0, |word, (_, row)| word ^ row)
    };
    let words = (0..1 << dimension).map(word);
    let rows: Vec<Row> = words.map(|word| away_from(word, radius)).collect();
    shuffled(&mut random, repeated(&rows))
}

/// Any words, as many as a table holds beside a subset sum that shuts out what they leave.
fn any_words(radius: i32) -> Plan {
    let mut random = Random::new(5);
    let mut rows: Vec<Row> = subset_sum(&mut random).to_vec();
    rows.extend((0..500).map(|_| away_from(random.bits(), radius)));
    shuffled(&mut random, repeated(&rows))
}

/// Rows for each pattern of the first five variables, and words. The patterns alone shut out all
/// settings; a search that is led on by the words does not see it.
fn among_words() -> Plan {
    let mut random = Random::new(9);
    let words = (0..60).map(|_| away_from(random.bits(), 3));
    let mut some: Vec<Row> = words.collect();
    let patterns = rows(&[Pattern(5), Idle(15)], |_| (0..VARIABLES).collect());
    some.extend(patterns.iter().cycle().take(186).cloned());
    shuffled(&mut random, some)
}

/// A row that is missed within so many places of a word. The places that agree with a word of w
/// ones have a sum of w less one for each place that differs.
fn away_from(word: u64, radius: i32) -> Row {
    let sign = |variable: u16| if word >> variable & 1 == 1 { 1 } else { -1 };
    let terms: Vec<(u16, i32)> = (0..VARIABLES).map(|v| (v, sign(v))).collect();
    let ones = terms.iter().filter(|(_, sign)| *sign == 1).count() as i32;
    Row::Linear(0, ones - radius - 1, terms)
}

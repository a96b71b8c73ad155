//! A tally of outcomes: how many tables gave which answer.
//! Each comparison asserts its tally, so that a maker that only makes one sort of table fails.

use std::collections::BTreeMap;

/// How often each outcome was seen.
#[derive(Debug, Default)]
pub struct Tally {
    outcomes: BTreeMap<String, usize>,
}

impl Tally {
    /// Nothing seen yet.
    pub fn new() -> Tally {
        Tally::default()
    }

    /// Counts an outcome.
    pub fn add(&mut self, outcome: impl Into<String>) {
        *self.outcomes.entry(outcome.into()).or_default() += 1;
    }

    /// Counts an outcome by its refusal number, 0 being "accepted".
    pub fn add_number(&mut self, number: u32) {
        self.add(name(number));
    }

    /// How often an outcome was seen.
    pub fn times(&self, outcome: &str) -> usize {
        self.outcomes.get(outcome).copied().unwrap_or(0)
    }

    /// How many outcomes were seen in all.
    pub fn all(&self) -> usize {
        self.outcomes.values().sum()
    }

    /// Prints the tally of a test; seen with `cargo test -- --nocapture`.
    pub fn print(&self, test: &str) {
        println!("{test}: {} in all, {:?}", self.all(), self.outcomes);
    }

    /// Fails where an outcome was seen fewer times than this.
    pub fn at_least(&self, times: usize, outcome: &str) {
        let seen = self.times(outcome);
        assert!(seen >= times, "only {seen} of {outcome}: {self:?}");
    }

    /// Fails where one of these refusal numbers, 0 being "accepted", was seen fewer times.
    pub fn numbers_at_least(&self, times: usize, numbers: impl IntoIterator<Item = u32>) {
        for number in numbers {
            self.at_least(times, &name(number));
        }
    }
}

/// The outcome of a refusal number.
fn name(number: u32) -> String {
    match number {
        0 => "accepted".to_string(),
        _ => format!("refusal {number}"),
    }
}

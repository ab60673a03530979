//! Counts of outcomes: each test prints what it reached, and fails when it no
//! longer reaches what it should.

use std::collections::BTreeMap;
use std::fmt::{Debug, Display};

/// How often each outcome came.
pub struct Tally<Outcome> {
    title: String,
    counts: BTreeMap<Outcome, usize>,
}

impl<Outcome: Debug + Display + Ord> Tally<Outcome> {
    /// Nothing counted yet.
    pub fn new(title: impl Into<String>) -> Self {
        Tally {
            title: title.into(),
            counts: BTreeMap::new(),
        }
    }

    /// Counts one case.
    pub fn add(&mut self, outcome: Outcome) {
        *self.counts.entry(outcome).or_default() += 1;
    }

    /// How many cases were counted.
    pub fn total(&self) -> usize {
        self.counts.values().sum()
    }

    /// Prints the counts; these outcomes must have come, and no other.
    pub fn expect_only(&self, expected: &[Outcome]) {
        self.expect_at_least(expected);
        let others: Vec<&Outcome> = self
            .counts
            .keys()
            .filter(|outcome| !expected.contains(outcome))
            .collect();
        assert!(others.is_empty(), "{}: {others:?} came", self.title);
    }

    /// Prints the counts; these outcomes must have come, among others perhaps.
    pub fn expect_at_least(&self, expected: &[Outcome]) {
        self.print();
        let missing: Vec<&Outcome> = expected
            .iter()
            .filter(|outcome| !self.counts.contains_key(outcome))
            .collect();
        assert!(missing.is_empty(), "{}: no {missing:?} came", self.title);
    }

    /// Prints the counts, which must be these.
    pub fn expect_counts(&self, expected: impl IntoIterator<Item = (Outcome, usize)>) {
        self.print();
        assert_eq!(
            self.counts,
            expected.into_iter().collect(),
            "{}",
            self.title
        );
    }

    /// Prints the counts in one piece, since tests run side by side.
    pub fn print(&self) {
        let mut text = format!("{}: {} cases\n", self.title, self.total());
        for (outcome, count) in &self.counts {
            text += &format!("  {outcome}: {count}\n");
        }
        print!("{text}");
    }
}

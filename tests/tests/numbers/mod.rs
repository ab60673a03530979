//! The numbers that stood first in the answers of the vectors.

use std::collections::{BTreeMap, BTreeSet};

/// How often each number stood first in an answer.
pub struct Numbers {
    /// How often, by the number.
    pub counts: BTreeMap<u8, usize>,
}

impl Numbers {
    /// The numbers of answers that all begin with one.
    pub fn of(answers: &str) -> Self {
        let mut counts = BTreeMap::new();
        for answer in answers.lines() {
            let number = answer.split(' ').next().expect("a number");
            let number = number.parse().expect("a number");
            *counts.entry(number).or_default() += 1;
        }
        Numbers { counts }
    }

    /// How many answers there were.
    pub fn cases(&self) -> usize {
        self.counts.values().sum()
    }

    /// Prints the counts in one piece, since tests run side by side.
    pub fn print(&self, title: &str) {
        let mut text = format!("{title}: {} cases\n", self.cases());
        for (number, count) in &self.counts {
            text += &format!("  {number}: {count}\n");
        }
        print!("{text}");
    }

    /// These refusals and 0 must have come, and no other number.
    pub fn expect(&self, refusals: &[u8]) {
        let found: BTreeSet<&u8> = self.counts.keys().collect();
        let expected: BTreeSet<&u8> = refusals.iter().chain([&0]).collect();
        assert_eq!(found, expected);
    }
}

//! What the comparisons through the C interface share that take the data of
//! services: the inputs, and how a call ended.

use rabtunex_tests::random::Random;
use rabtunex_tests::reference::service_text::Service;
use rabtunex_tests::samples::services;
use std::fmt;
use Outcome::{Accepted, Refused};

/// How many inputs each function gets at least.
pub const CASES: usize = 100_000;

/// How a call ended.
#[derive(Clone, Copy, Debug, PartialEq, Eq, PartialOrd, Ord)]
pub enum Outcome {
    /// With what is named here.
    Accepted(&'static str),
    /// With this refusal number.
    Refused(u8),
}

impl fmt::Display for Outcome {
    fn fmt(&self, f: &mut fmt::Formatter<'_>) -> fmt::Result {
        match self {
            Accepted(name) => write!(f, "accepted {name}"),
            Refused(number) => write!(f, "refused {number}"),
        }
    }
}

/// Valid data of all forms and of any shape; then as many again that were valid
/// before the damage in one place, or never were.
pub fn inputs(random: &mut Random, service: Service) -> Vec<Vec<u8>> {
    const ANY_OF_EACH_ROUND: usize = 500;
    let mut inputs = Vec::new();
    while inputs.len() < CASES / 2 {
        inputs.extend(services::all_forms(random, service));
        inputs.extend((0..ANY_OF_EACH_ROUND).map(|_| services::any_valid(random, service)));
    }
    let mut sources = services::damages(service);
    sources.extend(services::noises(service));
    for place in 0..inputs.len() {
        inputs.push(sources[place % sources.len()].sample(random));
    }
    assert!(inputs.len() >= CASES, "only {} inputs", inputs.len());
    inputs
}

/// All pairs of bytes.
pub fn pairs() -> impl Iterator<Item = (u8, u8)> {
    (0..=255).flat_map(|first| (0..=255).map(move |second| (first, second)))
}

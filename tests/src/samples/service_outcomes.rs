//! What comes of service telegrams, as it is counted.

use super::service_telegrams::kinds;
use crate::reference::parameters::Mode;
use crate::reference::service::{self, Service, Way};
use std::fmt;
use Outcome::{Accepted, Refused};

/// The numbers that reading a service telegram can be refused with, written out
/// from document 01.
pub const READING_REFUSALS: [u8; 19] = [
    1, 2, 3, 4, 5, 6, 7, 8, 9, 10, 20, 21, 22, 23, 24, 25, 26, 27, 28,
];

/// The same of writing one.
pub const WRITING_REFUSALS: [u8; 12] = [10, 11, 12, 20, 21, 22, 23, 24, 25, 26, 27, 28];

/// How a reading or a writing of a service telegram ended.
#[derive(Clone, Copy, Debug, PartialEq, Eq, PartialOrd, Ord)]
pub enum Outcome {
    /// With this service, going this way.
    Accepted(Service, Way),
    /// With this refusal number.
    Refused(u8),
}

impl Outcome {
    /// How the reference ends reading these bytes.
    pub fn of_reading(bytes: &[u8], mode: Mode) -> Self {
        match service::read(bytes, mode) {
            Ok(telegram) => Accepted(telegram.content.service(), telegram.way()),
            Err(number) => Refused(number),
        }
    }

    /// How a line of the vectors says that a reading ended.
    pub fn of_line(line: &str) -> Option<Self> {
        let (number, rest) = line.split_once(' ').unwrap_or((line, ""));
        match (number.parse(), rest) {
            (Ok(0), accepted) => {
                let mut words = accepted.split(' ');
                let (service, way) = (words.next()?, words.next()?);
                let mut kinds = kinds().into_iter();
                let kind = kinds.find(|(known, goes)| {
                    known.name().eq_ignore_ascii_case(service) && goes.name() == way
                });
                kind.map(|(service, way)| Accepted(service, way))
            }
            (Ok(refusal), "") => Some(Refused(refusal)),
            _ => None,
        }
    }

    /// Every service accepted each way, and these refusals.
    pub fn all(refusals: &[u8]) -> Vec<Outcome> {
        let accepted = kinds().map(|(service, way)| Accepted(service, way));
        let refused = refusals.iter().copied().map(Refused);
        accepted.into_iter().chain(refused).collect()
    }
}

impl fmt::Display for Outcome {
    fn fmt(&self, f: &mut fmt::Formatter<'_>) -> fmt::Result {
        match self {
            Accepted(service, way) => write!(f, "accepted {} {}", service.name(), way.name()),
            Refused(number) => write!(f, "refused {number}"),
        }
    }
}

#[cfg(test)]
mod tests {
    use super::*;
    use crate::reference::service_telegram_text::line;
    use crate::samples::parameters::MODES;
    use crate::samples::service_telegrams::groups;

    #[test]
    fn lines_say_what_reading_says() {
        for (mode, group) in groups() {
            for bytes in group.inputs {
                let outcome = Outcome::of_reading(&bytes, mode);
                assert_eq!(Outcome::of_line(&line(&bytes, mode)), Some(outcome));
            }
        }
    }

    #[test]
    fn other_lines_say_nothing() {
        for line in [
            "",
            "x",
            "0",
            "0 slave_diag",
            "0 slave_diag both 3",
            "10 3",
            "256",
        ] {
            assert_eq!(Outcome::of_line(line), None, "{line}");
        }
    }

    #[test]
    fn outcomes_are_told_in_words() {
        let accepted = Accepted(Service::SlaveDiag, Way::Answer);
        assert_eq!(accepted.to_string(), "accepted Slave_Diag answer");
        assert_eq!(Refused(28).to_string(), "refused 28");
        for mode in MODES {
            assert_eq!(Outcome::of_reading(&[0xE5], mode), Refused(10));
        }
        assert_eq!(Outcome::all(&READING_REFUSALS).len(), 17 + 19);
    }
}

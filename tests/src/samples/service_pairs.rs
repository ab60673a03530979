//! Every pair of SAP bytes, by a function code or two of each class and with data
//! that some services take and others do not; and what comes of them, by hand.

use super::service_outcomes::Outcome::{self, Accepted, Refused};
use super::service_telegrams::with_saps;
use super::{configuration, diagnosis};
use crate::reference::parameters::Mode;
use crate::reference::service::{Service, Way};
use std::collections::BTreeMap;

/// A function code of each class, and two of uncounted calls, of which the first
/// carries Global_Control; and what they are.
pub const FUNCTION_CODES: [(u8, &str); 6] = [
    (0x6D, "opening call"),
    (0x5C, "counted call"),
    (0x44, "uncounted call of function 4"),
    (0x49, "uncounted call of function 9"),
    (0x00, "bare answer"),
    (0x08, "answer with data"),
];

/// The data that stands behind every pair.
pub const DATA: [&[u8]; 14] = [
    &[],
    // Global_Control.
    &[0x3E, 0xFF],
    // Set_Slave_Adr.
    &[5, 0x12, 0x34, 1],
    // Parameters in both modes.
    &[0, 2, 3, 11, 0, 1, 0, 0, 0, 0],
    &diagnosis::WORKED_ROW,
    &configuration::WORKED_ROW,
    // A DPV1 write, a negative answer to one, and idle.
    &[0x5F, 1, 7, 1, 9],
    &[0xDF, 0x80, 0xB6, 0],
    &[0x48],
    // Diagnoses without their blocks, with a reserved header and with a reserved
    // code.
    &[8, 4, 0, 0, 0, 0],
    &[8, 4, 0, 0, 0, 0, 0xC0],
    &[8, 4, 0, 0, 0, 0, 0x80, 0, 0x21],
    // Configurations with the vendor count 15 and with 256 inputs.
    &[0x0F],
    &[0x40, 0xFF, 0x40, 0xFF],
];

/// The bytes that are a SAP.
const SAPS: usize = 64;
/// All pairs of bytes.
const ALL: usize = 256 * 256;

/// Of how many data each service's pair is accepted.
type AcceptedCounts = [(Service, usize)];
/// Of how many data any service's pair is refused with each number.
type RefusedCounts = [(u8, usize)];

/// Calls to 51, 53, 55, 56, 57, 59, 60, 61 and 62.
const CALLS: &AcceptedCounts = &[
    (Service::Dpv1, 3),
    (Service::ExtUserPrm, DATA.len()),
    (Service::SetSlaveAdr, 1),
    (Service::RdInp, 1),
    (Service::RdOutp, 1),
    (Service::GetCfg, 1),
    (Service::SlaveDiag, 1),
    (Service::SetPrm, 1),
    (Service::ChkCfg, 7),
];
/// Of 55, of the four that are empty, of 61 and of 62; three data are long enough
/// for 61 in DPV0 but have a response time below 11.
const CALLS_REFUSED_AS_DPV0: &RefusedCounts = &[
    (20, 11 + 4 * 13 + 10 + 1),
    (21, 2 + 3),
    (24, 4),
    (26, 1),
    (27, 1),
    (28, 11),
];
const CALLS_REFUSED_AS_DPV1: &RefusedCounts = &[
    (20, 11 + 4 * 13 + 13 + 1),
    (21, 2),
    (24, 4),
    (26, 1),
    (27, 1),
    (28, 11),
];

/// Calls of function 4 to 58.
const COMMANDS: &AcceptedCounts = &[(Service::GlobalControl, 1)];
const COMMANDS_REFUSED: &RefusedCounts = &[(20, 13)];

/// Answers from 51, 56, 57, 59 and 60.
const ANSWERS: &AcceptedCounts = &[
    (Service::Dpv1, 2),
    (Service::RdInp, DATA.len()),
    (Service::RdOutp, DATA.len()),
    (Service::GetCfg, 7),
    (Service::SlaveDiag, 1),
];
/// Of 51, 59 and 60.
const ANSWERS_REFUSED: &RefusedCounts = &[
    (20, 2 + 1 + 8),
    (21, 2),
    (22, 1),
    (23, 1),
    (24, 4),
    (25, 1),
    (26, 1),
    (27, 1),
    (28, 10),
];

/// All pairs of bytes.
pub fn all() -> impl Iterator<Item = [u8; 2]> {
    (0..=255).flat_map(|dsap| (0..=255).map(move |ssap| [dsap, ssap]))
}

/// Whether both bytes are a SAP.
pub fn is_of_saps(pair: &[u8; 2]) -> bool {
    pair.iter().all(|byte| usize::from(*byte) < SAPS)
}

/// The telegrams of one pair by a function code, one with each data.
pub fn telegrams(fc: u8, pair: [u8; 2]) -> [Vec<u8>; DATA.len()] {
    DATA.map(|data| with_saps(fc, pair, data))
}

/// How often each outcome comes of all pairs of SAPs with all data, by one of the
/// function codes above.
pub fn counts_of_saps(fc: u8, mode: Mode) -> BTreeMap<Outcome, usize> {
    let (way, accepted, refused): (Way, &AcceptedCounts, &RefusedCounts) = match (fc, mode) {
        (0x6D | 0x5C, Mode::Dpv0) => (Way::Call, CALLS, CALLS_REFUSED_AS_DPV0),
        (0x6D | 0x5C, Mode::Dpv1) => (Way::Call, CALLS, CALLS_REFUSED_AS_DPV1),
        (0x44, _) => (Way::Call, COMMANDS, COMMANDS_REFUSED),
        (0x08, _) => (Way::Answer, ANSWERS, ANSWERS_REFUSED),
        // The others carry no service.
        _ => (Way::Call, &[], &[]),
    };
    let mut counts = BTreeMap::new();
    for (service, count) in accepted {
        counts.insert(Accepted(*service, way), *count);
    }
    for (number, count) in refused {
        counts.insert(Refused(*number), *count);
    }
    // Every other pair is no service's.
    let others = SAPS * SAPS - accepted.len();
    counts.insert(Refused(10), others * DATA.len());
    counts
}

/// How often each outcome comes of all pairs of bytes with all data.
pub fn counts_of_all(fc: u8, mode: Mode) -> BTreeMap<Outcome, usize> {
    let mut counts = counts_of_saps(fc, mode);
    counts.insert(Refused(9), (ALL - SAPS * SAPS) * DATA.len());
    counts
}

#[cfg(test)]
mod tests {
    use super::*;
    use crate::reference::telegram::{class, Class};
    use crate::samples::parameters::MODES;

    #[test]
    fn function_codes_are_of_every_class() {
        let classes = FUNCTION_CODES.map(|(fc, _)| class(fc));
        let expected = [
            Class::Opening,
            Class::Counted,
            Class::Uncounted,
            Class::Uncounted,
            Class::Bare,
            Class::Data,
        ];
        assert_eq!(classes, expected);
    }

    #[test]
    fn counts_are_those_of_reading() {
        for (fc, mode) in FUNCTION_CODES
            .into_iter()
            .flat_map(|(fc, _)| MODES.map(|mode| (fc, mode)))
        {
            let mut counts = BTreeMap::new();
            for pair in all().filter(is_of_saps) {
                for bytes in telegrams(fc, pair) {
                    let outcome = Outcome::of_reading(&bytes, mode);
                    *counts.entry(outcome).or_default() += 1;
                }
            }
            assert_eq!(counts, counts_of_saps(fc, mode), "{fc:02X} {mode:?}");
        }
    }

    #[test]
    fn other_pairs_are_all_refused_with_9() {
        for (fc, _) in FUNCTION_CODES {
            let counts = counts_of_all(fc, Mode::Dpv0);
            let pairs = all().filter(|pair| !is_of_saps(pair));
            assert_eq!(counts[&Refused(9)], pairs.count() * DATA.len());
            assert_eq!(counts.values().sum::<usize>(), 65_536 * DATA.len());
            for pair in [[64, 62], [60, 64], [255, 255], [60, 255]] {
                for bytes in telegrams(fc, pair) {
                    let outcome = Outcome::of_reading(&bytes, Mode::Dpv0);
                    assert_eq!(outcome, Refused(9), "{bytes:02X?}");
                }
            }
        }
    }
}

//! The vectors program and the reference on the same service telegrams: every
//! line that one answers the other must answer too.

#![forbid(unsafe_code)]

mod repository;
mod tally;
mod vectors;

use rabtunex_tests::reference::parameters::Mode;
use rabtunex_tests::reference::service_telegram_text::{letter, name};
use rabtunex_tests::samples::parameters::MODES;
use rabtunex_tests::samples::service_outcomes::{Outcome, READING_REFUSALS};
use rabtunex_tests::samples::service_pairs::{self, DATA, FUNCTION_CODES};
use rabtunex_tests::samples::service_telegrams;
use tally::Tally;

#[test]
fn seeded_telegrams_as_dpv0_are_answered_alike() {
    check_seeded(Mode::Dpv0);
}

#[test]
fn seeded_telegrams_as_dpv1_are_answered_alike() {
    check_seeded(Mode::Dpv1);
}

fn check_seeded(mode: Mode) {
    let tally = answered(
        format!("seeded {}", name(mode)),
        mode,
        &service_telegrams::seeded(mode),
    );
    tally.expect_only(&Outcome::all(&READING_REFUSALS));
}

/// Every pair by every function code with all data. What the mode changes is seen
/// by the calls, each of which goes by two codes.
#[test]
fn every_pair_of_saps_is_answered_alike() {
    let modes = MODES.into_iter().cycle();
    for ((fc, class), mode) in FUNCTION_CODES.into_iter().zip(modes) {
        let pairs = service_pairs::all().filter(service_pairs::is_of_saps);
        let telegrams = pairs.flat_map(|pair| service_pairs::telegrams(fc, pair));
        let tally = answered(
            format!("pairs of SAPs by {class}, {}", name(mode)),
            mode,
            &telegrams.collect::<Vec<_>>(),
        );
        tally.expect_counts(service_pairs::counts_of_saps(fc, mode));
    }
}

/// Every other pair by one function code and with one data, each in turn.
#[test]
fn every_pair_with_a_byte_above_63_is_answered_alike() {
    for mode in MODES {
        let pairs = service_pairs::all().filter(|pair| !service_pairs::is_of_saps(pair));
        let codes = FUNCTION_CODES.into_iter().cycle();
        let data = DATA.into_iter().cycle();
        let telegrams = pairs
            .zip(codes.zip(data))
            .map(|(pair, ((fc, _), data))| service_telegrams::with_saps(fc, pair, data));
        let tally = answered(
            format!("pairs with a byte above 63, {}", name(mode)),
            mode,
            &telegrams.collect::<Vec<_>>(),
        );
        tally.expect_counts([(Outcome::Refused(9), 256 * 256 - 64 * 64)]);
    }
}

/// How often each outcome came of the telegrams, which both must answer alike.
fn answered(title: String, mode: Mode, telegrams: &[Vec<u8>]) -> Tally<Outcome> {
    let announcement = format!("={}", letter(mode));
    let answers = vectors::answers(&vectors::text(&announcement, telegrams));
    let mut tally = Tally::new(title);
    for answer in answers.lines() {
        let outcome = Outcome::of_line(answer);
        tally.add(outcome.unwrap_or_else(|| panic!("no outcome: {answer}")));
    }
    assert_eq!(tally.total(), telegrams.len());
    tally
}

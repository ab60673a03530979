//! Telegrams that between them bring every word of the show program.

use super::acyclic::{ERROR_CODES, NEGATIVE_NUMBERS};
use super::diagnosis::ERRORS;
use super::service_telegrams::{with_saps, worked_rows};
use super::{closed, sd2_around, short_confirmation};
use crate::reference::telegram::SD1;

/// The telegrams, the same at every call.
pub fn every_word() -> Vec<Vec<u8>> {
    let mut telegrams = without_service();
    telegrams.extend(worked_rows());
    telegrams.extend(plain_bytes());
    telegrams.extend(diagnoses());
    telegrams.extend(services_from_62());
    telegrams.extend(dpv1_calls());
    telegrams.extend(dpv1_answers());
    telegrams.extend(negative_answers());
    telegrams
}

fn call(slave: u8, data: &[u8]) -> Vec<u8> {
    with_saps(0x5D, [slave, 62], data)
}

fn answer(slave: u8, data: &[u8]) -> Vec<u8> {
    with_saps(0x08, [62, slave], data)
}

/// Bytes that are no telegram, telegrams that carry no service, and services that
/// are refused.
fn without_service() -> Vec<Vec<u8>> {
    vec![
        Vec::new(),
        short_confirmation(),
        vec![0xDC, 2, 2],
        closed(vec![SD1], &[7, 2, 0x49]),
        with_saps(0x5C, [60, 51], &[]),
        call(61, &[0; 9]),
        answer(60, &[8, 4, 0, 0, 0, 0]),
    ]
}

/// Services whose data are plain bytes or none.
fn plain_bytes() -> Vec<Vec<u8>> {
    let mut telegrams = vec![
        closed(vec![SD1], &[7, 2, 0x5D]),
        closed(vec![SD1], &[2, 7, 0x08]),
        sd2_around(&[7, 2, 0x7D, 1, 2, 3, 4]),
        sd2_around(&[2, 7, 0x0A, 1]),
        call(53, &[]),
        call(53, &[1, 2]),
        answer(56, &[]),
        answer(57, &[1, 2, 3]),
    ];
    telegrams.extend([56, 57, 59, 60].map(|slave| call(slave, &[])));
    telegrams
}

/// A diagnosis without any flag or block, and one with all flags and with blocks
/// of every kind, among them a channel of each direction, type and error.
fn diagnoses() -> Vec<Vec<u8>> {
    let mut all = vec![0x5E, 0x3F, 0x80, 255, 0x12, 0x34];
    all.extend([0x03, 1, 2]);
    all.extend([0x43, 0x84, 0x01]);
    all.extend([0x42, 0x00]);
    let codes = (1..=3).cycle().zip((1..=6).cycle());
    for (error, (direction, kind)) in ERRORS.into_iter().zip(codes) {
        all.extend([0x80 | error, direction << 6 | kind, kind << 5 | error]);
    }
    vec![answer(60, &[0, 4, 0, 125, 0, 1]), answer(60, &all)]
}

/// Parameters, configurations, addresses and commands with the most and the
/// least to say.
fn services_from_62() -> Vec<Vec<u8>> {
    vec![
        call(
            61,
            &[0xF8, 20, 5, 255, 0xAB, 0xCD, 0xFF, 0xE4, 0xFD, 0x9F, 1, 2],
        ),
        call(61, &[0, 20, 5, 11, 0x12, 0x34, 0, 0, 0, 0]),
        call(61, &[0, 255, 255, 11, 0, 1, 0x05, 0, 0, 0]),
        call(62, &[0x13]),
        call(62, &[0x03, 1, 2, 3, 0x40, 0x7F, 0xB0, 0xC0, 0x00, 0x01]),
        call(55, &[5, 0x12, 0x34, 0]),
        call(55, &[125, 0, 1, 1]),
        with_saps(0x44, [58, 62], &[0, 0]),
        with_saps(0x46, [58, 62], &[0x3E, 0x85]),
    ]
}

fn dpv1_calls() -> Vec<Vec<u8>> {
    let calls: [&[u8]; 7] = [
        &[],
        &[0x5E, 1, 7, 240],
        &[0x5F, 1, 7, 3, 0x41, 0x42, 0x43],
        &[0x5C, 1, 2, 0],
        &[0x48],
        &[0x51, 0, 255, 0],
        &[0x51, 0, 255, 1, 9],
    ];
    calls.map(|data| with_saps(0x5C, [51, 51], data)).to_vec()
}

fn dpv1_answers() -> Vec<Vec<u8>> {
    let answers: [&[u8]; 6] = [
        &[0x5E, 1, 7, 0],
        &[0x5E, 1, 7, 2, 0xAB, 0xCD],
        &[0x5F, 1, 7, 240],
        &[0x5C, 255, 1, 0],
        &[0x48],
        &[0x51, 0, 255, 1, 9],
    ];
    answers.map(|data| with_saps(0x08, [51, 51], data)).to_vec()
}

/// Every error code of decode 128 and one of each other decode, for every number
/// in turn.
fn negative_answers() -> Vec<Vec<u8>> {
    let of_dp = ERROR_CODES.map(|code1| [0x80, code1]);
    let codes = of_dp.into_iter().chain([[0xFE, 0xB0], [0xFF, 0x00]]);
    let numbers = NEGATIVE_NUMBERS.into_iter().cycle();
    let answers = numbers.zip(codes).map(|(number, [decode, code1])| {
        let code2 = decode ^ code1;
        with_saps(0x08, [51, 51], &[number, decode, code1, code2])
    });
    answers.collect()
}

#[cfg(test)]
mod tests {
    use super::*;
    use crate::reference::parameters::Mode;
    use crate::samples::service_outcomes::Outcome::{self, Refused};
    use std::collections::BTreeSet;

    #[test]
    fn every_service_goes_every_way() {
        let telegrams = every_word();
        let outcomes = telegrams.iter();
        let outcomes = outcomes.map(|bytes| Outcome::of_reading(bytes, Mode::Dpv1));
        let outcomes: Vec<Outcome> = outcomes.collect();
        let (refused, accepted) = outcomes.split_at(without_service().len());
        assert_eq!(refused, [1, 10, 10, 10, 10, 20, 22].map(Refused));
        let accepted: BTreeSet<Outcome> = accepted.iter().copied().collect();
        assert_eq!(accepted, BTreeSet::from_iter(Outcome::all(&[])));
    }
}

//! Samples of DPV1 calls and answers, at most 300 bytes each.

use super::{lengthened, often_up_to};
use crate::random::Random;

const IDLE: u8 = 0x48;
const TRANSPORT: u8 = 0x51;
const ALARM_ACK: u8 = 0x5C;
const READ: u8 = 0x5E;
const WRITE: u8 = 0x5F;

/// The numbers of calls and positive answers, written out from document 01.
pub const NUMBERS: [u8; 5] = [IDLE, TRANSPORT, ALARM_ACK, READ, WRITE];
/// The numbers of negative answers; idle has none.
pub const NEGATIVE_NUMBERS: [u8; 4] = [0xD1, 0xDC, 0xDE, 0xDF];
/// Numbers that neither way has, though one could take them for some that are.
const NEAR_NUMBERS: [u8; 8] = [0xC8, 0x00, 0x56, 0x57, 0x58, 0x5D, 0xDD, 0x80];

/// The most data bytes.
const MOST_DATA: usize = 240;
/// The counts at the limits.
const COUNTS: [usize; 4] = [0, 1, MOST_DATA - 1, MOST_DATA];

/// The decodes, of which the first has reserved codes.
pub const DECODES: [u8; 3] = [128, 254, 255];
/// Every code 1 that is not reserved under decode 128, written out from document
/// 01.
#[rustfmt::skip]
pub const ERROR_CODES: [u8; 87] = [
    0xA0, 0xA1, 0xA2,
    0xA8, 0xA9, 0xAA, 0xAB, 0xAC, 0xAD, 0xAE, 0xAF,
    0xB0, 0xB1, 0xB2, 0xB3, 0xB4, 0xB5, 0xB6, 0xB7,
    0xB8, 0xB9, 0xBA, 0xBB, 0xBC, 0xBD, 0xBE, 0xBF,
    0xC0, 0xC1, 0xC2, 0xC3,
    0xC8, 0xC9, 0xCA, 0xCB, 0xCC, 0xCD, 0xCE, 0xCF,
    0xD0, 0xD1, 0xD2, 0xD3, 0xD4, 0xD5, 0xD6, 0xD7,
    0xD8, 0xD9, 0xDA, 0xDB, 0xDC, 0xDD, 0xDE, 0xDF,
    0xE0, 0xE1, 0xE2, 0xE3, 0xE4, 0xE5, 0xE6, 0xE7,
    0xE8, 0xE9, 0xEA, 0xEB, 0xEC, 0xED, 0xEE, 0xEF,
    0xF0, 0xF1, 0xF2, 0xF3, 0xF4, 0xF5, 0xF6, 0xF7,
    0xF8, 0xF9, 0xFA, 0xFB, 0xFC, 0xFD, 0xFE, 0xFF,
];

/// A number, any slot and index, the length and no data.
fn bare(random: &mut Random, number: u8, length: usize) -> Vec<u8> {
    vec![number, random.byte(), random.byte(), length as u8]
}

/// The same with as many data bytes, up to 255.
fn counted(random: &mut Random, number: u8, count: usize) -> Vec<u8> {
    let mut bytes = bare(random, number, count);
    bytes.extend(random.bytes(count));
    bytes
}

/// An alarm acknowledgement, which is the same both ways.
fn alarm_ack(random: &mut Random) -> Vec<u8> {
    [&[ALARM_ACK], &random.bytes(3)[..]].concat()
}

fn negative(random: &mut Random, number: u8, decode: u8, code1: u8) -> Vec<u8> {
    vec![number, decode, code1, random.byte()]
}

/// A count of `low`..=240, often few, often at a limit.
pub fn any_count(random: &mut Random, low: usize) -> usize {
    match random.below(4) {
        0 => (*random.pick(&COUNTS)).max(low),
        _ => often_up_to(random, low, 8, MOST_DATA),
    }
}

/// A valid call of any function; a poll sometimes, which has no bytes.
pub fn any_call(random: &mut Random) -> Vec<u8> {
    match random.below(16) {
        0 => Vec::new(),
        _ => any_call_with_bytes(random),
    }
}

/// A valid call but for the poll.
pub fn any_call_with_bytes(random: &mut Random) -> Vec<u8> {
    match *random.pick(&NUMBERS) {
        READ => {
            let length = any_count(random, 0);
            bare(random, READ, length)
        }
        WRITE => {
            let count = any_count(random, 1);
            counted(random, WRITE, count)
        }
        TRANSPORT => {
            let count = any_count(random, 0);
            counted(random, TRANSPORT, count)
        }
        ALARM_ACK => alarm_ack(random),
        idle => vec![idle],
    }
}

/// A valid answer of any function, every second one negative.
pub fn any_answer(random: &mut Random) -> Vec<u8> {
    if random.below(2) == 0 {
        return any_negative(random);
    }
    match *random.pick(&NUMBERS) {
        WRITE => {
            let length = any_count(random, 0);
            bare(random, WRITE, length)
        }
        number @ (READ | TRANSPORT) => {
            let count = any_count(random, 0);
            counted(random, number, count)
        }
        ALARM_ACK => alarm_ack(random),
        idle => vec![idle],
    }
}

fn any_negative(random: &mut Random) -> Vec<u8> {
    let number = *random.pick(&NEGATIVE_NUMBERS);
    let decode = *random.pick(&DECODES);
    let code1 = match decode {
        128 => *random.pick(&ERROR_CODES),
        _ => random.byte(),
    };
    negative(random, number, decode, code1)
}

/// Valid calls of every function with every length or count of data.
pub fn all_calls(random: &mut Random) -> Vec<Vec<u8>> {
    let mut forms = vec![Vec::new(), vec![IDLE]];
    for count in 0..=MOST_DATA {
        forms.push(bare(random, READ, count));
        forms.push(counted(random, TRANSPORT, count));
        forms.push(alarm_ack(random));
        if count > 0 {
            forms.push(counted(random, WRITE, count));
        }
    }
    forms
}

/// Valid answers of every function with every length or count of data, and
/// every negative number with every decode and code 1.
pub fn all_answers(random: &mut Random) -> Vec<Vec<u8>> {
    let mut forms = vec![vec![IDLE]];
    for count in 0..=MOST_DATA {
        forms.push(bare(random, WRITE, count));
        forms.push(counted(random, READ, count));
        forms.push(counted(random, TRANSPORT, count));
        forms.push(alarm_ack(random));
    }
    for number in NEGATIVE_NUMBERS {
        for code1 in ERROR_CODES {
            forms.push(negative(random, number, 128, code1));
        }
        for code1 in 0..=255 {
            forms.push(negative(random, number, 254, code1));
            forms.push(negative(random, number, 255, code1));
        }
    }
    forms
}

/// Valid calls of every function with the lengths and counts at the limits, and
/// some of any form.
pub fn few_calls(random: &mut Random) -> Vec<Vec<u8>> {
    let mut forms = vec![Vec::new(), vec![IDLE], alarm_ack(random)];
    for count in COUNTS {
        forms.push(bare(random, READ, count));
        forms.push(counted(random, TRANSPORT, count));
        if count > 0 {
            forms.push(counted(random, WRITE, count));
        }
    }
    forms.extend((0..4).map(|_| any_call(random)));
    forms
}

/// Valid answers of every function with the lengths and counts at the limits,
/// and negative ones of every class.
pub fn few_answers(random: &mut Random) -> Vec<Vec<u8>> {
    let mut forms = vec![vec![IDLE], alarm_ack(random)];
    for count in [0, MOST_DATA] {
        forms.push(bare(random, WRITE, count));
        forms.push(counted(random, READ, count));
        forms.push(counted(random, TRANSPORT, count));
    }
    for (number, decode, code1) in [
        (0xD1, 128, 0xA2),
        (0xDC, 128, 0xA8),
        (0xDE, 128, 0xAF),
        (0xDF, 128, 0xB0),
        (0xD1, 128, 0xBF),
        (0xDC, 128, 0xC3),
        (0xDE, 128, 0xC8),
        (0xDF, 128, 0xD0),
        (0xDF, 128, 0xE7),
        (0xDE, 128, 0xFF),
        (0xD1, 254, 0xA3),
        (0xDC, 255, 0xC7),
        (0xDE, 254, 0x00),
        (0xDF, 255, 0x9F),
    ] {
        forms.push(negative(random, number, decode, code1));
    }
    forms
}

/// A call with a number that calls do not have: reading gives 28.
pub fn call_number_wrong(random: &mut Random) -> Vec<u8> {
    let mut bytes = any_call_with_bytes(random);
    bytes[0] = number_but(random, &NUMBERS);
    bytes
}

/// An answer with a number that answers do not have: reading gives 28.
pub fn answer_number_wrong(random: &mut Random) -> Vec<u8> {
    let mut bytes = any_answer(random);
    bytes[0] = number_but(random, &[&NUMBERS[..], &NEGATIVE_NUMBERS].concat());
    bytes
}

/// Any number but these, mostly one that the other way has or that is near.
fn number_but(random: &mut Random, allowed: &[u8]) -> u8 {
    let near = NEAR_NUMBERS.into_iter().chain(NEGATIVE_NUMBERS);
    let all = (0..=255).filter(|number| !allowed.contains(number));
    let near: Vec<u8> = near.filter(|number| !allowed.contains(number)).collect();
    match random.below(4) {
        0 => *random.pick(&all.collect::<Vec<u8>>()),
        _ => *random.pick(&near),
    }
}

/// A call with too few or too many bytes, or with a count that is not that of
/// its data: reading gives 20.
pub fn call_length_wrong(random: &mut Random) -> Vec<u8> {
    if random.below(4) == 0 {
        return match random.below(2) {
            0 => bare(random, WRITE, 0),
            _ => too_much_data(random, &[WRITE, TRANSPORT]),
        };
    }
    let bytes = any_call_with_bytes(random);
    unlike(random, &bytes, &[WRITE, TRANSPORT])
}

/// An answer with too few or too many bytes, or with a count that is not that of
/// its data: reading gives 20.
pub fn answer_length_wrong(random: &mut Random) -> Vec<u8> {
    match random.below(8) {
        0 => Vec::new(),
        1 => too_much_data(random, &[READ, TRANSPORT]),
        _ => {
            let bytes = any_answer(random);
            unlike(random, &bytes, &[READ, TRANSPORT])
        }
    }
}

/// More than 240 data bytes, and a right count of them.
fn too_much_data(random: &mut Random, numbers: &[u8]) -> Vec<u8> {
    let count = random.between(MOST_DATA + 1, 255);
    let number = *random.pick(numbers);
    counted(random, number, count)
}

/// The bytes lengthened, cut short after the number, or with another count when
/// they are of one of these numbers, whose fourth byte is a count.
fn unlike(random: &mut Random, bytes: &[u8], counted: &[u8]) -> Vec<u8> {
    match random.below(3) {
        0 if bytes.len() > 1 => bytes[..random.between(1, bytes.len() - 1)].to_vec(),
        1 if counted.contains(&bytes[0]) => {
            let mut changed = bytes.to_vec();
            changed[3] = random.other_byte(bytes[3]);
            changed
        }
        _ => lengthened(random, bytes),
    }
}

/// A read call that asks for too much: reading gives 21.
pub fn call_byte_wrong(random: &mut Random) -> Vec<u8> {
    let length = random.between(MOST_DATA + 1, 255);
    bare(random, READ, length)
}

/// An answer to a write that took too much, or a negative one with an unknown
/// decode, whatever its code is: reading gives 21.
pub fn answer_byte_wrong(random: &mut Random) -> Vec<u8> {
    if random.below(2) == 0 {
        let length = random.between(MOST_DATA + 1, 255);
        return bare(random, WRITE, length);
    }
    let number = *random.pick(&NEGATIVE_NUMBERS);
    let decode = unknown_decode(random);
    let code1 = random.byte();
    negative(random, number, decode, code1)
}

/// Any decode but the three, every second time one near.
pub fn unknown_decode(random: &mut Random) -> u8 {
    match random.below(2) {
        0 => *random.pick(&[0, 127, 129, 253]),
        _ => {
            let all: Vec<u8> = (0..=253).filter(|decode| *decode != 128).collect();
            *random.pick(&all)
        }
    }
}

/// A negative answer with a reserved code under decode 128: reading gives 28.
pub fn error_code_reserved(random: &mut Random) -> Vec<u8> {
    let number = *random.pick(&NEGATIVE_NUMBERS);
    let code1 = reserved_code(random);
    negative(random, number, 128, code1)
}

/// A code 1 that is reserved under decode 128, every second time one of a class
/// that has others.
pub fn reserved_code(random: &mut Random) -> u8 {
    match random.below(4) {
        0 => random.between(0xA3, 0xA7) as u8,
        1 => random.between(0xC4, 0xC7) as u8,
        _ => random.between(0x00, 0x9F) as u8,
    }
}

/// One of the numbers of both ways, or one near, and any bytes after it, often
/// as many as are right.
pub fn noise_after_number(random: &mut Random) -> Vec<u8> {
    let number = match random.below(10) {
        0..5 => *random.pick(&NUMBERS),
        5..9 => *random.pick(&NEGATIVE_NUMBERS),
        _ => *random.pick(&NEAR_NUMBERS),
    };
    let length = match random.below(4) {
        0 => often_up_to(random, 0, 9, 290),
        _ => 3,
    };
    [&[number], &random.bytes(length)[..]].concat()
}

#[cfg(test)]
mod tests {
    use super::*;
    use crate::reference::acyclic::{read_answer, read_call};
    use std::collections::BTreeSet;

    #[test]
    fn numbers_and_codes_are_written_out_in_full() {
        let calls: Vec<u8> = (0..=255).filter(|n| read_call(&[*n]) != Err(28)).collect();
        assert_eq!(calls, NUMBERS);
        let answers = (0..=255).filter(|n| read_answer(&[*n]) != Err(28));
        let both = [&NUMBERS[..], &NEGATIVE_NUMBERS].concat();
        assert_eq!(answers.collect::<Vec<u8>>(), both);
        let codes = (0..=255).filter(|code| read_answer(&[0xDE, 128, *code, 0]).is_ok());
        assert_eq!(codes.collect::<Vec<u8>>(), ERROR_CODES);
    }

    #[test]
    fn valid_calls_are_read_and_have_every_number_and_count() {
        let random = &mut Random::new(1);
        let all = all_calls(random);
        // A poll and an idle call; 241 counts of three functions, 240 of writes.
        assert_eq!(all.len(), 2 + 3 * 241 + 240);
        check_calls(&all, true);
        check_calls(&few_calls(random), false);
        let any: Vec<Vec<u8>> = (0..20_000).map(|_| any_call(random)).collect();
        check_calls(&any, false);
        assert!((0..1000).all(|_| !any_call_with_bytes(random).is_empty()));
    }

    /// All are read, and every number came with the counts at the limits, or
    /// with all.
    fn check_calls(calls: &[Vec<u8>], with_all_counts: bool) {
        let mut found = BTreeSet::new();
        for bytes in calls {
            let read = read_call(bytes);
            assert!(read.is_ok(), "{bytes:02X?}");
            if let [number @ (READ | WRITE | TRANSPORT), _, _, count, ..] = **bytes {
                found.insert((number, count));
            } else {
                found.insert((bytes.first().copied().unwrap_or(0), 0));
            }
        }
        let counts: Vec<u8> = match with_all_counts {
            true => (0..=240).collect(),
            false => vec![0, 1, 239, 240],
        };
        let mut expected = BTreeSet::from([(0, 0), (IDLE, 0), (ALARM_ACK, 0)]);
        for number in [READ, WRITE, TRANSPORT] {
            expected.extend(counts.iter().map(|count| (number, *count)));
        }
        expected.remove(&(WRITE, 0));
        let missing: Vec<_> = expected.difference(&found).collect();
        assert!(missing.is_empty(), "{missing:02X?}");
    }

    #[test]
    fn valid_answers_are_read_and_have_every_number() {
        let random = &mut Random::new(2);
        let all = all_answers(random);
        assert_eq!(all.len(), 1 + 4 * 241 + 4 * (87 + 256 + 256));
        let any: Vec<Vec<u8>> = (0..5000).map(|_| any_answer(random)).collect();
        for answers in [all, few_answers(random), any] {
            let mut numbers = BTreeSet::new();
            for bytes in answers {
                assert!(read_answer(&bytes).is_ok(), "{bytes:02X?}");
                numbers.insert(bytes[0]);
            }
            let expected = [&NUMBERS[..], &NEGATIVE_NUMBERS].concat();
            assert!(numbers.iter().eq(&expected), "{numbers:02X?}");
        }
    }

    #[test]
    fn each_damage_gets_its_number() {
        type Make = fn(&mut Random) -> Vec<u8>;
        let random = &mut Random::new(3);
        let of_calls: [(Make, u8); 3] = [
            (call_number_wrong, 28),
            (call_length_wrong, 20),
            (call_byte_wrong, 21),
        ];
        for (make, number) in of_calls {
            for _ in 0..3000 {
                let bytes = make(random);
                assert_eq!(read_call(&bytes), Err(number), "{bytes:02X?}");
                assert!(bytes.len() <= 300);
            }
        }
        let of_answers: [(Make, u8); 4] = [
            (answer_number_wrong, 28),
            (answer_length_wrong, 20),
            (answer_byte_wrong, 21),
            (error_code_reserved, 28),
        ];
        for (make, number) in of_answers {
            for _ in 0..3000 {
                let bytes = make(random);
                assert_eq!(read_answer(&bytes), Err(number), "{bytes:02X?}");
                assert!(bytes.len() <= 300);
            }
        }
    }

    #[test]
    fn noise_reaches_every_number() {
        let random = &mut Random::new(4);
        let mut calls = BTreeSet::new();
        let mut answers = BTreeSet::new();
        for _ in 0..5000 {
            let bytes = noise_after_number(random);
            assert!(bytes.len() <= 300);
            calls.insert(read_call(&bytes).err());
            answers.insert(read_answer(&bytes).err());
        }
        let expected = BTreeSet::from([None, Some(20), Some(21), Some(28)]);
        assert_eq!((calls, answers), (expected.clone(), expected));
    }
}

//! The proved library and the reference on the same DPV1 calls and answers,
//! through the C interface: every number, field and byte must be the same, and a
//! refusal must leave all as it was.

#![deny(unsafe_code)]

mod archive;
mod memory;
mod tally;

use archive::Outcome::{Accepted, Refused};
use archive::{inputs, pairs, Outcome, CASES};
use memory::{any_room, Lent, Written, MOST_ROOM};
use rabtunex_tests::random::Random;
use rabtunex_tests::reference::acyclic;
use rabtunex_tests::reference::dpv1_fields::{answer_of, call_of, of_answer, of_call};
use rabtunex_tests::reference::dpv1_fields::{looked_at_in_answer, looked_at_in_call};
use rabtunex_tests::reference::dpv1_fields::{ALARM_ACK, IDLE, POLL, READ, TRANSPORT, WRITE};
use rabtunex_tests::reference::dpv1_fields::{NEGATIVE_ALARM_ACK, NEGATIVE_READ};
use rabtunex_tests::reference::dpv1_fields::{NEGATIVE_TRANSPORT, NEGATIVE_WRITE};
use rabtunex_tests::reference::refusal;
use rabtunex_tests::reference::service_text::Service;
use rabtunex_tests::samples::{acyclic as samples, acyclic_fields};
use tally::Tally;

/// The library's functions for the data of DPV1, `include/rabtunex.h`.
#[allow(unsafe_code)]
mod library {
    use super::Fields;

    extern "C" {
        fn rabtunex_read_dpv1_call(bytes: *const u8, bytes_len: usize, fields: *mut Fields) -> u8;

        fn rabtunex_read_dpv1_answer(bytes: *const u8, bytes_len: usize, fields: *mut Fields)
            -> u8;

        fn rabtunex_write_dpv1_call(
            fields: *const Fields,
            part: *const u8,
            part_len: usize,
            out: *mut u8,
            out_len: usize,
            stored: *mut usize,
        ) -> u8;

        fn rabtunex_write_dpv1_answer(
            fields: *const Fields,
            part: *const u8,
            part_len: usize,
            out: *mut u8,
            out_len: usize,
            stored: *mut usize,
        ) -> u8;
    }

    /// Reads the bytes as one call into its fields; 0 or the refusal number.
    pub fn read_call(bytes: &[u8], fields: &mut Fields) -> u8 {
        // SAFETY: both come from references, which an empty slice has too: neither
        // is null, each leads to its length, and they do not overlap.
        unsafe { rabtunex_read_dpv1_call(bytes.as_ptr(), bytes.len(), fields) }
    }

    /// Reads the bytes as one answer, as `read_call` does.
    pub fn read_answer(bytes: &[u8], fields: &mut Fields) -> u8 {
        // SAFETY: as above.
        unsafe { rabtunex_read_dpv1_answer(bytes.as_ptr(), bytes.len(), fields) }
    }

    /// Writes the call of the fields and data to the front of `out` and its
    /// length to `stored`; 0 or the refusal number.
    pub fn write_call(fields: &Fields, data: &[u8], out: &mut [u8], stored: &mut usize) -> u8 {
        let (lent, room) = (out.as_mut_ptr(), out.len());
        // SAFETY: as above.
        unsafe { rabtunex_write_dpv1_call(fields, data.as_ptr(), data.len(), lent, room, stored) }
    }

    /// Writes an answer, as `write_call` does.
    pub fn write_answer(fields: &Fields, data: &[u8], out: &mut [u8], stored: &mut usize) -> u8 {
        let (lent, room) = (out.as_mut_ptr(), out.len());
        // SAFETY: as above.
        unsafe { rabtunex_write_dpv1_answer(fields, data.as_ptr(), data.len(), lent, room, stored) }
    }
}

/// The function number; three bytes that depend on it; where the data stands in
/// the bytes, and how many bytes it has.
type Fields = [u8; 6];

const NUMBER: usize = 0;
const START: usize = 4;
const LENGTH: usize = 5;

/// The numbers that are accepted somewhere, without the poll's.
const NUMBERS: [u8; 9] = [
    IDLE,
    TRANSPORT,
    ALARM_ACK,
    READ,
    WRITE,
    NEGATIVE_TRANSPORT,
    NEGATIVE_ALARM_ACK,
    NEGATIVE_READ,
    NEGATIVE_WRITE,
];
const NEGATIVE: [u8; 4] = [
    NEGATIVE_TRANSPORT,
    NEGATIVE_ALARM_ACK,
    NEGATIVE_READ,
    NEGATIVE_WRITE,
];

/// The longest call or answer.
const LONGEST: usize = 244;
/// Which way the data goes.
#[derive(Clone, Copy, Debug, PartialEq, Eq)]
enum Way {
    Call,
    Answer,
}

impl Way {
    const BOTH: [Way; 2] = [Way::Call, Way::Answer];

    fn service(self) -> Service {
        match self {
            Way::Call => Service::Dpv1Call,
            Way::Answer => Service::Dpv1Answer,
        }
    }

    fn read_by_library(self, bytes: &[u8], fields: &mut Fields) -> u8 {
        match self {
            Way::Call => library::read_call(bytes, fields),
            Way::Answer => library::read_answer(bytes, fields),
        }
    }

    fn read_by_reference(self, bytes: &[u8]) -> Result<Fields, u8> {
        let ([number, a, b, c], data) = match self {
            Way::Call => {
                let (call, data) = acyclic::read_call(bytes)?;
                (of_call(&call), data)
            }
            Way::Answer => {
                let (answer, data) = acyclic::read_answer(bytes)?;
                (of_answer(&answer), data)
            }
        };
        // Neither is longer than the longest that is read.
        let start = (bytes.len() - data.len()) as u8;
        Ok([number, a, b, c, start, data.len() as u8])
    }

    fn write_by_library(
        self,
        fields: &Fields,
        data: &[u8],
        out: &mut [u8],
        stored: &mut usize,
    ) -> u8 {
        match self {
            Way::Call => library::write_call(fields, data, out, stored),
            Way::Answer => library::write_answer(fields, data, out, stored),
        }
    }

    fn write_by_reference(self, fields: &Fields, data: &[u8], out: &mut [u8]) -> Result<usize, u8> {
        let [number, a, b, c, _, _] = *fields;
        match self {
            Way::Call => {
                let call = call_of([number, a, b, c]).ok_or(refusal::ACYCLIC_CODE)?;
                acyclic::write_call(&call, data, out)
            }
            Way::Answer => {
                let answer = answer_of([number, a, b, c]).ok_or(refusal::ACYCLIC_CODE)?;
                acyclic::write_answer(&answer, data, out)
            }
        }
    }

    /// How many fields are looked at in writing: those that the number has, and
    /// never the place of the data.
    fn looked_at(self, number: u8) -> usize {
        match self {
            Way::Call => looked_at_in_call(number),
            Way::Answer => looked_at_in_answer(number),
        }
    }

    /// Everything that can be accepted.
    fn accepted(self) -> Vec<Outcome> {
        match self {
            Way::Call => [POLL, IDLE, TRANSPORT, ALARM_ACK, READ, WRITE]
                .map(accepted)
                .to_vec(),
            Way::Answer => NUMBERS.map(accepted).to_vec(),
        }
    }
}

/// A call or an answer with this number was accepted.
fn accepted(number: u8) -> Outcome {
    Accepted(match number {
        POLL => "poll",
        IDLE => "idle",
        TRANSPORT => "data transport",
        ALARM_ACK => "alarm acknowledgement",
        READ => "read",
        WRITE => "write",
        NEGATIVE_TRANSPORT => "negative data transport",
        NEGATIVE_ALARM_ACK => "negative alarm acknowledgement",
        NEGATIVE_READ => "negative read",
        NEGATIVE_WRITE => "negative write",
        _ => panic!("{number:02X} was accepted"),
    })
}

/// Reads through both, and writes what was accepted back through the library.
fn check_reading(way: Way, bytes: &[u8]) -> Outcome {
    let mut lent = Lent::untouched();
    let number = way.read_by_library(bytes, &mut lent.fields);
    match way.read_by_reference(bytes) {
        Ok(fields) => {
            let expected = (0, Lent::holding(fields));
            assert_eq!((number, lent), expected, "{way:?} {bytes:02X?}");
            check_writing_back(way, &fields, bytes);
            accepted(fields[NUMBER])
        }
        Err(refusal) => {
            let expected = (refusal, Lent::untouched());
            assert_eq!((number, lent), expected, "{way:?} {bytes:02X?}");
            Refused(refusal)
        }
    }
}

/// Into room that is just enough, and as they are: the count is no field.
fn check_writing_back(way: Way, fields: &Fields, bytes: &[u8]) {
    let start = usize::from(fields[START]);
    let data = &bytes[start..][..usize::from(fields[LENGTH])];
    let written = written_by_library(way, fields, data, bytes.len());
    let expected = Written::bytes(bytes, bytes.len());
    assert_eq!(written, expected, "{way:?} {bytes:02X?}");
}

fn written_by_library(way: Way, fields: &Fields, data: &[u8], room: usize) -> Written {
    Written::by(room, |out, stored| {
        way.write_by_library(fields, data, out, stored)
    })
}

/// Writes through both, and reads back what was accepted.
fn check_writing(way: Way, fields: &Fields, data: &[u8], room: usize) -> Outcome {
    let written = written_by_library(way, fields, data, room);
    let mut out = vec![0; room];
    let outcome = way.write_by_reference(fields, data, &mut out);
    let expected = match outcome {
        Ok(length) => Written::bytes(&out[..length], room),
        Err(refusal) => Written::nothing(refusal, room),
    };
    let count = data.len();
    assert_eq!(
        written, expected,
        "{way:?} {fields:02X?}, {count} bytes, room {room}"
    );
    match outcome {
        Ok(length) => {
            let as_written = accepted(fields[NUMBER]);
            assert_eq!(check_reading(way, &out[..length]), as_written);
            as_written
        }
        Err(refusal) => Refused(refusal),
    }
}

/// What document 01 and the header say, with every number written out.
#[test]
fn fields_of_every_kind() {
    let rows: [(Way, &[u8], Fields); 16] = [
        (Way::Call, &[], [0, 0, 0, 0, 0, 0]),
        (Way::Call, &[0x48], [0x48, 0, 0, 0, 1, 0]),
        (Way::Call, &[0x5E, 1, 7, 240], [0x5E, 1, 7, 240, 4, 0]),
        (Way::Call, &[0x5F, 1, 7, 2, 8, 9], [0x5F, 1, 7, 0, 4, 2]),
        (Way::Call, &[0x5C, 1, 2, 3], [0x5C, 1, 2, 3, 4, 0]),
        (Way::Call, &[0x51, 1, 7, 1, 9], [0x51, 1, 7, 0, 4, 1]),
        (Way::Call, &[0x51, 1, 7, 0], [0x51, 1, 7, 0, 4, 0]),
        (Way::Answer, &[0x48], [0x48, 0, 0, 0, 1, 0]),
        (Way::Answer, &[0x5E, 1, 7, 2, 8, 9], [0x5E, 1, 7, 0, 4, 2]),
        (Way::Answer, &[0x5F, 1, 7, 240], [0x5F, 1, 7, 240, 4, 0]),
        (Way::Answer, &[0x5C, 1, 2, 3], [0x5C, 1, 2, 3, 4, 0]),
        (Way::Answer, &[0x51, 1, 7, 1, 9], [0x51, 1, 7, 0, 4, 1]),
        (
            Way::Answer,
            &[0xDE, 128, 0xB2, 5],
            [0xDE, 128, 0xB2, 5, 4, 0],
        ),
        (Way::Answer, &[0xDF, 254, 0, 255], [0xDF, 254, 0, 255, 4, 0]),
        (
            Way::Answer,
            &[0xDC, 255, 0xA3, 1],
            [0xDC, 255, 0xA3, 1, 4, 0],
        ),
        (
            Way::Answer,
            &[0xD1, 128, 0xFF, 0],
            [0xD1, 128, 0xFF, 0, 4, 0],
        ),
    ];
    for (way, bytes, fields) in rows {
        let mut lent = Lent::untouched();
        let number = way.read_by_library(bytes, &mut lent.fields);
        assert_eq!((number, lent), (0, Lent::holding(fields)), "{bytes:02X?}");
        check_writing_back(way, &fields, bytes);
    }
}

#[test]
fn seeded_calls_are_read_alike() {
    check_seeded_reading(1, Way::Call, Tally::new("seeded DPV1 calls read"));
}

#[test]
fn seeded_answers_are_read_alike() {
    check_seeded_reading(2, Way::Answer, Tally::new("seeded DPV1 answers read"));
}

fn check_seeded_reading(seed: u64, way: Way, mut tally: Tally<Outcome>) {
    for bytes in inputs(&mut Random::new(seed), way.service()) {
        tally.add(check_reading(way, &bytes));
    }
    let refused = [20, 21, 28].map(Refused);
    tally.expect_only(&[&way.accepted()[..], &refused].concat());
    assert!(tally.total() >= CASES);
}

#[test]
fn seeded_calls_are_written_alike() {
    check_seeded_writing(3, Way::Call, Tally::new("seeded DPV1 calls written"));
}

#[test]
fn seeded_answers_are_written_alike() {
    check_seeded_writing(4, Way::Answer, Tally::new("seeded DPV1 answers written"));
}

fn check_seeded_writing(seed: u64, way: Way, mut tally: Tally<Outcome>) {
    let random = &mut Random::new(seed);
    let lent = random.bytes(300);
    for _ in 0..CASES {
        let (fields, data) = any_fields(random, way, &lent);
        let needed = way.write_by_reference(&fields, data, &mut [0; LONGEST]);
        let room = any_room(random, needed.unwrap_or(LONGEST));
        tally.add(check_writing(way, &fields, data, room));
    }
    let refused = [11, 20, 21, 28].map(Refused);
    tally.expect_only(&[&way.accepted()[..], &refused].concat());
}

/// Fields and data, mostly right but for the places that writing must not look
/// at, which hold any bytes.
fn any_fields<'a>(random: &mut Random, way: Way, lent: &'a [u8]) -> (Fields, &'a [u8]) {
    // Numbers that one of the ways does not have, or neither.
    const OTHERS: [u8; 8] = [0x00, 0xC8, 0x80, 0xD1, 0xDC, 0xDE, 0xDF, 0x57];
    let ([number, a, b, c], data) = match way {
        Way::Call => {
            let (call, data) = acyclic_fields::any_call(random, lent);
            (of_call(&call), data)
        }
        Way::Answer => {
            let (answer, data) = acyclic_fields::any_answer(random, lent);
            (of_answer(&answer), data)
        }
    };
    let number = match random.below(16) {
        0 => random.byte(),
        1 => *random.pick(&OTHERS),
        _ => number,
    };
    let mut fields = [number, a, b, c, 0, 0];
    random.fill(&mut fields[way.looked_at(number)..]);
    (fields, data)
}

/// What follows every first byte: five have three bytes, and in three the third is
/// the count of those after it.
const BODIES: [&[u8]; 11] = [
    &[],
    &[1],
    &[1, 7],
    &[1, 7, 0],
    &[1, 7, 1, 9],
    &[1, 7, 2, 9],
    &[128, 0xB0, 1],
    &[128, 0, 1],
    &[254, 0, 241],
    &[128, 0xB0, 1, 0],
    &[1, 7, 241],
];

#[test]
fn every_first_byte_is_read_alike() {
    let mut calls = Tally::new("first bytes of DPV1 calls read");
    let mut answers = Tally::new("first bytes of DPV1 answers read");
    for (first, body) in (0..=255).flat_map(|first| BODIES.map(|body| (first, body))) {
        let bytes = [&[first], body].concat();
        calls.add(check_reading(Way::Call, &bytes));
        answers.add(check_reading(Way::Answer, &bytes));
    }
    calls.expect_counts([
        (accepted(IDLE), 1),
        (accepted(TRANSPORT), 3),
        (accepted(ALARM_ACK), 5),
        (accepted(READ), 3),
        (accepted(WRITE), 2),
        (Refused(20), 10 + 8 + 6 + 6 + 9),
        (Refused(21), 2),
        (Refused(28), 251 * BODIES.len()),
    ]);
    answers.expect_counts([
        (accepted(IDLE), 1),
        (accepted(TRANSPORT), 3),
        (accepted(ALARM_ACK), 5),
        (accepted(READ), 3),
        (accepted(WRITE), 3),
        (accepted(NEGATIVE_TRANSPORT), 2),
        (accepted(NEGATIVE_ALARM_ACK), 2),
        (accepted(NEGATIVE_READ), 2),
        (accepted(NEGATIVE_WRITE), 2),
        (Refused(20), 10 + 8 + 6 + 8 + 6 + 4 * 6),
        (Refused(21), 2 + 4 * 2),
        (Refused(28), 247 * BODIES.len() + 4),
    ]);
}

/// The three bytes and the data that every number is written with: five have no
/// data.
const WRITTEN: [([u8; 3], &[u8]); 8] = [
    ([1, 7, 0], &[]),
    ([1, 7, 0], &[9]),
    ([1, 7, 241], &[]),
    ([1, 7, 241], &[9]),
    ([128, 0xB0, 5], &[]),
    ([128, 0, 5], &[]),
    ([128, 0, 5], &[9]),
    ([254, 0, 5], &[]),
];

/// Writes every number with all of these, both ways.
fn check_every_number(room: usize, tallies: &mut [Tally<Outcome>; 2]) {
    for (number, ([a, b, c], data)) in (0..=255).flat_map(|n| WRITTEN.map(|rest| (n, rest))) {
        for (way, tally) in Way::BOTH.into_iter().zip(&mut *tallies) {
            // The place of the data is any.
            let fields = [number, a, b, c, number, c];
            tally.add(check_writing(way, &fields, data, room));
        }
    }
}

#[test]
fn every_number_is_written_alike() {
    let mut tallies = [
        Tally::new("numbers of DPV1 calls written"),
        Tally::new("numbers of DPV1 answers written"),
    ];
    check_every_number(LONGEST, &mut tallies);
    let [calls, answers] = tallies;
    calls.expect_counts([
        (accepted(POLL), 5),
        (accepted(IDLE), 5),
        (accepted(TRANSPORT), 8),
        (accepted(ALARM_ACK), 5),
        (accepted(READ), 4),
        (accepted(WRITE), 3),
        (Refused(20), 4 * 3 + 5),
        (Refused(21), 1),
        (Refused(28), 250 * WRITTEN.len()),
    ]);
    answers.expect_counts([
        (accepted(IDLE), 5),
        (accepted(TRANSPORT), 8),
        (accepted(ALARM_ACK), 5),
        (accepted(READ), 8),
        (accepted(WRITE), 4),
        (accepted(NEGATIVE_TRANSPORT), 2),
        (accepted(NEGATIVE_ALARM_ACK), 2),
        (accepted(NEGATIVE_READ), 2),
        (accepted(NEGATIVE_WRITE), 2),
        (Refused(20), 3 * 3 + 4 * 3),
        (Refused(21), 1 + 4 * 2),
        (Refused(28), 247 * WRITTEN.len() + 4),
    ]);
}

/// The room comes last, and a poll needs none.
#[test]
fn every_number_is_written_alike_without_room() {
    let mut tallies = [
        Tally::new("numbers of DPV1 calls written without room"),
        Tally::new("numbers of DPV1 answers written without room"),
    ];
    check_every_number(0, &mut tallies);
    let [calls, answers] = tallies;
    calls.expect_counts([
        (accepted(POLL), 5),
        (Refused(11), 5 + 8 + 5 + 4 + 3),
        (Refused(20), 4 * 3 + 5),
        (Refused(21), 1),
        (Refused(28), 250 * WRITTEN.len()),
    ]);
    answers.expect_counts([
        (Refused(11), 5 + 8 + 5 + 8 + 4 + 4 * 2),
        (Refused(20), 3 * 3 + 4 * 3),
        (Refused(21), 1 + 4 * 2),
        (Refused(28), 247 * WRITTEN.len() + 4),
    ]);
}

/// Every code 1 under every decode, in all negative answers.
#[test]
fn every_decode_and_code() {
    let mut read = Tally::new("decodes and codes of DPV1 answers read");
    let mut written = Tally::new("decodes and codes of DPV1 answers written");
    for (decode, code1) in pairs() {
        for number in NEGATIVE {
            let code2 = decode ^ code1 ^ number;
            let bytes = [number, decode, code1, code2];
            read.add(check_reading(Way::Answer, &bytes));
            let fields = [number, decode, code1, code2, 0, 0];
            written.add(check_writing(Way::Answer, &fields, &[], bytes.len()));
        }
    }
    // Classes 10 and 12 lack five and four codes, 11 and 13 to 15 none; the other
    // two decodes take every code.
    let right = (16 - 5) + (16 - 4) + 4 * 16;
    for tally in [read, written] {
        tally.expect_counts([
            (accepted(NEGATIVE_TRANSPORT), right + 2 * 256),
            (accepted(NEGATIVE_ALARM_ACK), right + 2 * 256),
            (accepted(NEGATIVE_READ), right + 2 * 256),
            (accepted(NEGATIVE_WRITE), right + 2 * 256),
            (Refused(21), 4 * 253 * 256),
            (Refused(28), 4 * (256 - right)),
        ]);
    }
}

/// Every length that a read call asks for and a write answer names, alone and
/// with a byte after it.
#[test]
fn every_length_that_is_asked_for_or_taken() {
    let mut tally = Tally::new("lengths of DPV1 read calls and write answers");
    for length in 0..=255 {
        for (way, number) in [(Way::Call, READ), (Way::Answer, WRITE)] {
            tally.add(check_reading(way, &[number, 1, 7, length]));
            tally.add(check_reading(way, &[number, 1, 7, length, 0]));
            let fields = [number, 1, 7, length, 0, 0];
            tally.add(check_writing(way, &fields, &[], LONGEST));
            tally.add(check_writing(way, &fields, &[0], LONGEST));
        }
    }
    tally.expect_counts([
        (accepted(READ), 2 * 241),
        (accepted(WRITE), 2 * 241),
        (Refused(20), 2 * 2 * 256),
        (Refused(21), 2 * 2 * 15),
    ]);
}

/// Counts of data; the last are those that a count kept in two bytes would take
/// for 0..=20, as one kept in a byte does with some before.
fn counts() -> impl Iterator<Item = usize> {
    (0..=260).chain(65_536..=65_556)
}

#[test]
fn every_count_of_data_is_read_alike() {
    let lent = Random::new(5).bytes(65_600);
    let mut calls = Tally::new("counts of data of DPV1 calls read");
    let mut answers = Tally::new("counts of data of DPV1 answers read");
    for (count, number) in counts().flat_map(|count| NUMBERS.map(|number| (count, number))) {
        let head = [number, 128, 0xB0, count as u8];
        let bytes = [&head[..], &lent[..count]].concat();
        calls.add(check_reading(Way::Call, &bytes));
        answers.add(check_reading(Way::Answer, &bytes));
    }
    let all = counts().count();
    calls.expect_counts([
        (accepted(TRANSPORT), 241),
        (accepted(ALARM_ACK), 1),
        (accepted(READ), 1),
        (accepted(WRITE), 240),
        (Refused(20), 5 * all - (241 + 1 + 1 + 240)),
        (Refused(28), 4 * all),
    ]);
    answers.expect_counts([
        (accepted(TRANSPORT), 241),
        (accepted(ALARM_ACK), 1),
        (accepted(READ), 241),
        (accepted(WRITE), 1),
        (accepted(NEGATIVE_TRANSPORT), 1),
        (accepted(NEGATIVE_ALARM_ACK), 1),
        (accepted(NEGATIVE_READ), 1),
        (accepted(NEGATIVE_WRITE), 1),
        (Refused(20), 9 * all - (241 + 1 + 241 + 1 + 4)),
    ]);
}

#[test]
fn every_count_of_data_is_written_alike() {
    let lent = Random::new(6).bytes(65_600);
    let mut calls = Tally::new("counts of data of DPV1 calls written");
    let mut answers = Tally::new("counts of data of DPV1 answers written");
    for data in counts().map(|count| &lent[..count]) {
        for number in NUMBERS.into_iter().chain([POLL]) {
            let fields = [number, 128, 0xB0, 5, 0, 0];
            calls.add(check_writing(Way::Call, &fields, data, MOST_ROOM));
            answers.add(check_writing(Way::Answer, &fields, data, MOST_ROOM));
        }
    }
    let all = counts().count();
    calls.expect_counts([
        (accepted(POLL), 1),
        (accepted(IDLE), 1),
        (accepted(TRANSPORT), 241),
        (accepted(ALARM_ACK), 1),
        (accepted(READ), 1),
        (accepted(WRITE), 240),
        (Refused(20), 6 * all - (1 + 1 + 241 + 1 + 1 + 240)),
        (Refused(28), 4 * all),
    ]);
    answers.expect_counts([
        (accepted(IDLE), 1),
        (accepted(TRANSPORT), 241),
        (accepted(ALARM_ACK), 1),
        (accepted(READ), 241),
        (accepted(WRITE), 1),
        (accepted(NEGATIVE_TRANSPORT), 1),
        (accepted(NEGATIVE_ALARM_ACK), 1),
        (accepted(NEGATIVE_READ), 1),
        (accepted(NEGATIVE_WRITE), 1),
        (Refused(20), 9 * all - (1 + 241 + 1 + 241 + 1 + 4)),
        (Refused(28), all),
    ]);
}

/// Every count byte before data that is as long, longer, shorter or longer by
/// what the byte cannot show.
#[test]
fn every_count_byte_is_read_alike() {
    let lent = Random::new(7).bytes(600);
    let mut tally = Tally::new("count bytes of DPV1 calls and answers read");
    for count in 0..=255_u8 {
        let is = usize::from(count);
        for (way, number) in [
            (Way::Call, TRANSPORT),
            (Way::Call, WRITE),
            (Way::Answer, TRANSPORT),
            (Way::Answer, READ),
        ] {
            for length in [is, is + 1, is ^ 1, is ^ 0x80, is + 256] {
                let bytes = [&[number, 1, 7, count], &lent[..length]].concat();
                tally.add(check_reading(way, &bytes));
            }
        }
    }
    tally.expect_counts([
        (accepted(TRANSPORT), 2 * 241),
        (accepted(WRITE), 240),
        (accepted(READ), 241),
        (Refused(20), 5 * 4 * 256 - (2 * 241 + 240 + 241)),
    ]);
}

#[test]
fn every_room() {
    let random = &mut Random::new(8);
    let mut tally = Tally::new("rooms that DPV1 calls and answers are written to");
    for way in Way::BOTH {
        let valid = match way {
            Way::Call => samples::few_calls(random),
            Way::Answer => samples::few_answers(random),
        };
        for bytes in valid {
            let fields = way.read_by_reference(&bytes).expect("valid");
            let data = &bytes[usize::from(fields[START])..];
            // The last are those that a room kept in two bytes would take for 0..=4.
            for room in (0..=MOST_ROOM).chain(65_536..=65_540) {
                let outcome = check_writing(way, &fields, data, room);
                let enough = room >= bytes.len();
                assert_eq!(enough, outcome == accepted(fields[NUMBER]));
                tally.add(outcome);
            }
        }
    }
    let accepted = [Way::Call.accepted(), Way::Answer.accepted()].concat();
    tally.expect_only(&[&accepted[..], &[Refused(11)]].concat());
}

//! The proved library and the reference on the same service telegrams, through
//! the C interface: every number, field and byte must be the same, and a refusal
//! must leave all as it was.

#![deny(unsafe_code)]

mod memory;
#[allow(unsafe_code)]
mod service_library;
mod tally;

use memory::{any_room, Lent, Written, MOST_ROOM};
use rabtunex_tests::random::Random;
use rabtunex_tests::reference::fields::{SD1, SD2, SD3};
use rabtunex_tests::reference::service::{self, Service, Way};
use rabtunex_tests::reference::service_fields::{self, looked_at, mode_of, version_of, Fields};
use rabtunex_tests::reference::service_fields::{COUNT, LONGEST_TELEGRAM, OWN};
use rabtunex_tests::reference::service_fields::{FC, KIND, PART_LENGTH, PART_START, SERVICE, WAY};
use rabtunex_tests::reference::telegram::{class, Class};
use rabtunex_tests::reference::{refusal, text};
use rabtunex_tests::samples::parameters::MODES;
use rabtunex_tests::samples::service_fields::{self as samples, Case, Sample, TRAIT_REFUSALS};
use rabtunex_tests::samples::service_outcomes::Outcome::{self, Accepted, Refused};
use rabtunex_tests::samples::service_outcomes::{READING_REFUSALS, WRITING_REFUSALS};
use rabtunex_tests::samples::service_pairs::{self, FUNCTION_CODES};
use rabtunex_tests::samples::service_telegrams;
use service_library as library;
use tally::Tally;

/// FCS and ED, before which the part ends.
const TRAILER_LENGTH: usize = 2;
/// How many seeded fields are written in each version.
const CASES: usize = 100_000;

/// Reads through both, and writes what was accepted back through the library.
fn check_reading(bytes: &[u8], version: u8) -> Outcome {
    let mut lent = Lent::untouched();
    let number = library::read_service(bytes, version, &mut lent.fields);
    let mode = mode_of(version).ok_or(refusal::FIELD);
    match mode.and_then(|mode| service::read(bytes, mode)) {
        Ok(telegram) => {
            let start = bytes.len() - TRAILER_LENGTH - telegram.part.len();
            let fields = service_fields::of(&telegram, start);
            let expected = (0, Lent::holding(fields));
            assert_eq!((number, lent), expected, "{version} {bytes:02X?}");
            check_writing_back(&fields, version, bytes);
            Accepted(telegram.content.service(), telegram.way())
        }
        Err(refusal) => {
            let expected = (refusal, Lent::untouched());
            assert_eq!((number, lent), expected, "{version} {bytes:02X?}");
            Refused(refusal)
        }
    }
}

/// The fields as they were read, into room that is just enough.
fn check_writing_back(fields: &Fields, version: u8, bytes: &[u8]) {
    let written = written_by_library(fields, version, part_of(fields, bytes), bytes.len());
    let expected = Written::bytes(bytes, bytes.len());
    assert_eq!(written, expected, "{version} {bytes:02X?}");
}

/// The part of a telegram that the fields were read from.
fn part_of<'a>(fields: &Fields, bytes: &'a [u8]) -> &'a [u8] {
    let start = usize::from(fields[PART_START]);
    &bytes[start..][..usize::from(fields[PART_LENGTH])]
}

fn written_by_library(fields: &Fields, version: u8, part: &[u8], room: usize) -> Written {
    Written::by(room, |out, stored| {
        library::write_service(fields, version, part, out, stored)
    })
}

/// Writes through both, and reads back what was accepted.
fn check_writing(fields: &Fields, version: u8, part: &[u8], room: usize) -> Outcome {
    let written = written_by_library(fields, version, part, room);
    let mut out = vec![0; room];
    let outcome = service_fields::write(fields, version, part, &mut out);
    let expected = match outcome {
        Ok(length) => Written::bytes(&out[..length], room),
        Err(refusal) => Written::nothing(refusal, room),
    };
    let count = part.len();
    assert_eq!(
        written, expected,
        "{fields:?}, version {version}, {count} bytes, room {room}"
    );
    match outcome {
        Ok(length) => check_reading(&out[..length], version),
        Err(refusal) => Refused(refusal),
    }
}

/// A telegram of every service and way, and its fields in one version, with every
/// number written out.
struct Row {
    version: u8,
    hex: &'static str,
    /// Service, way, kind, DA, SA, FC, start and length of the part.
    head: [u8; OWN],
    /// The service's own fields, as far as they are not 0.
    own: &'static [u8],
}

const fn row(version: u8, hex: &'static str, head: [u8; OWN], own: &'static [u8]) -> Row {
    Row {
        version,
        hex,
        head,
        own,
    }
}

impl Row {
    fn bytes(&self) -> Vec<u8> {
        text::from_hex(self.hex).expect("hex")
    }

    fn fields(&self) -> Fields {
        let mut fields = [0; COUNT];
        fields[..OWN].copy_from_slice(&self.head);
        fields[OWN..][..self.own.len()].copy_from_slice(self.own);
        fields
    }
}

const SET_PRM: &str = "68 11 11 68 87 82 5D 3D 3E B8 14 05 FF 12 34 81 E4 FD 9F AB CD 70 16";

#[rustfmt::skip]
const ROWS: [Row; 30] = [
    row(0, "10 07 02 5D 66 16", [0, 0, 2, 7, 2, 0x5D, 4, 0], &[]),
    row(0, "68 05 05 68 07 02 7D AB CD FE 16", [0, 0, 3, 7, 2, 0x7D, 7, 2], &[]),
    row(1, "10 02 07 08 11 16", [0, 1, 2, 2, 7, 0x08, 4, 0], &[]),
    row(0, "A2 02 07 1A 01 02 03 04 05 06 07 08 47 16", [0, 1, 4, 2, 7, 0x1A, 4, 8], &[]),
    row(0, "68 05 05 68 87 82 5C 33 33 CB 16", [51, 0, 3, 7, 2, 0x5C, 9, 0], &[]),
    row(0, "68 09 09 68 87 82 7C 33 33 5E 01 07 F0 41 16",
        [51, 0, 3, 7, 2, 0x7C, 13, 0], &[0x5E, 1, 7, 240]),
    row(1, "A2 87 82 5C 33 33 5F 01 07 02 AB CD AC 16",
        [51, 0, 4, 7, 2, 0x5C, 10, 2], &[0x5F, 1, 7]),
    row(0, "68 09 09 68 87 82 7C 33 33 5C FF 02 03 4B 16",
        [51, 0, 3, 7, 2, 0x7C, 13, 0], &[0x5C, 255, 2, 3]),
    row(0, "68 06 06 68 87 82 5C 33 33 48 13 16", [51, 0, 3, 7, 2, 0x5C, 10, 0], &[0x48]),
    row(0, "68 0A 0A 68 87 82 5C 33 33 51 00 FF 01 09 25 16",
        [51, 0, 3, 7, 2, 0x5C, 13, 1], &[0x51, 0, 255]),
    row(0, "68 0B 0B 68 82 87 08 33 33 5E 01 07 02 AB CD 57 16",
        [51, 1, 3, 2, 7, 0x08, 13, 2], &[0x5E, 1, 7]),
    row(1, "68 09 09 68 82 87 08 33 33 5F 01 07 F0 CE 16",
        [51, 1, 3, 2, 7, 0x08, 13, 0], &[0x5F, 1, 7, 240]),
    row(0, "68 06 06 68 82 87 08 33 33 48 BF 16", [51, 1, 3, 2, 7, 0x08, 10, 0], &[0x48]),
    row(0, "68 09 09 68 82 87 08 33 33 DF 80 B2 05 8D 16",
        [51, 1, 3, 2, 7, 0x08, 13, 0], &[0xDF, 0x80, 0xB2, 5]),
    row(0, "68 06 06 68 87 82 5D 35 3E AB 84 16", [53, 0, 3, 7, 2, 0x5D, 9, 1], &[]),
    row(0, "68 09 09 68 FE 80 5D 37 3E 7D 12 34 01 14 16",
        [55, 0, 3, 126, 0, 0x5D, 13, 0], &[125, 0x12, 0x34, 1]),
    row(0, "68 05 05 68 87 82 5D 38 3E DC 16", [56, 0, 3, 7, 2, 0x5D, 9, 0], &[]),
    row(0, "68 07 07 68 82 87 08 3E 38 01 02 8A 16", [56, 1, 3, 2, 7, 0x08, 9, 2], &[]),
    row(0, "68 05 05 68 87 82 5D 39 3E DD 16", [57, 0, 3, 7, 2, 0x5D, 9, 0], &[]),
    row(1, "68 05 05 68 82 87 38 3E 39 B8 16", [57, 1, 3, 2, 7, 0x38, 9, 0], &[]),
    row(0, "68 07 07 68 FF 82 46 3A 3E 3E FF 7C 16",
        [58, 0, 3, 127, 2, 0x46, 11, 0], &[0x3E, 0xFF]),
    row(0, "68 05 05 68 87 82 5D 3B 3E DF 16", [59, 0, 3, 7, 2, 0x5D, 9, 0], &[]),
    row(0, "68 0B 0B 68 82 87 08 3E 3B 13 65 C1 07 4F 20 39 16",
        [59, 1, 3, 2, 7, 0x08, 9, 6], &[]),
    row(1, "A2 82 87 08 3E 3B 13 65 C1 07 4F 20 39 16", [59, 1, 4, 2, 7, 0x08, 6, 6], &[]),
    row(0, "68 05 05 68 87 82 6D 3C 3E F0 16", [60, 0, 3, 7, 2, 0x6D, 9, 0], &[]),
    row(0, "68 0E 0E 68 82 87 08 3E 3C 08 0C 00 02 12 34 82 43 26 D2 16",
        [60, 1, 3, 2, 7, 0x08, 15, 3], &[0x08, 0x0C, 0, 2, 0x12, 0x34]),
    row(1, "A2 82 87 08 3E 3C 00 04 80 FF AB CD 86 16",
        [60, 1, 4, 2, 7, 0x08, 12, 0], &[0, 4, 0x80, 255, 0xAB, 0xCD]),
    row(0, SET_PRM, [61, 0, 3, 7, 2, 0x5D, 16, 5], &[0xB8, 20, 5, 255, 0x12, 0x34, 0x81]),
    row(1, SET_PRM, [61, 0, 3, 7, 2, 0x5D, 19, 2],
        &[0xB8, 20, 5, 255, 0x12, 0x34, 0x81, 0xE4, 0xFD, 0x9F]),
    row(0, "68 0B 0B 68 87 82 7D 3E 3E 13 65 C1 07 4F 20 B1 16",
        [62, 0, 3, 7, 2, 0x7D, 9, 6], &[]),
];

#[test]
fn fields_of_every_kind() {
    let mut tally = Tally::new("service telegrams with their fields written out");
    for row in &ROWS {
        let (bytes, fields) = (row.bytes(), row.fields());
        let mut lent = Lent::untouched();
        let number = library::read_service(&bytes, row.version, &mut lent.fields);
        assert_eq!((number, lent), (0, Lent::holding(fields)), "{}", row.hex);
        check_writing_back(&fields, row.version, &bytes);
        tally.add(check_reading(&bytes, row.version));
    }
    tally.expect_only(&Outcome::all(&[]));
}

#[test]
fn seeded_telegrams_are_read_alike() {
    for mode in MODES {
        let mut tally = Tally::new(format!("seeded service telegrams read, {mode:?}"));
        for bytes in service_telegrams::seeded(mode) {
            tally.add(check_reading(&bytes, version_of(mode)));
        }
        tally.expect_only(&Outcome::all(&READING_REFUSALS));
    }
}

#[test]
fn every_pair_of_saps_is_read_alike() {
    for ((fc, class), mode) in FUNCTION_CODES
        .iter()
        .flat_map(|code| MODES.map(|mode| (code, mode)))
    {
        let mut tally = Tally::new(format!("pairs of SAP bytes by {class}, {mode:?}"));
        for pair in service_pairs::all() {
            for bytes in service_pairs::telegrams(*fc, pair) {
                tally.add(check_reading(&bytes, version_of(mode)));
            }
        }
        tally.expect_counts(service_pairs::counts_of_all(*fc, mode));
    }
}

/// The version comes before all else, in a reading and in a writing.
#[test]
fn unknown_versions_are_refused() {
    let mut tally = Tally::new("service telegrams in unknown versions");
    let groups = service_telegrams::groups();
    let telegrams = groups.iter().flat_map(|(_, group)| &group.inputs);
    for (bytes, version) in telegrams.flat_map(|bytes| (2..=255).map(move |v| (bytes, v))) {
        tally.add(check_reading(bytes, version));
    }
    for (row, version) in ROWS.iter().flat_map(|row| (2..=255).map(move |v| (row, v))) {
        let (bytes, fields) = (row.bytes(), row.fields());
        let part = part_of(&fields, &bytes);
        for room in [0, LONGEST_TELEGRAM] {
            tally.add(check_writing(&fields, version, part, room));
        }
    }
    tally.expect_only(&[Refused(12)]);
}

#[test]
fn bytes_that_a_short_length_would_not_show() {
    let mut tally = Tally::new("service telegrams with 2^8 and 2^16 bytes after them");
    for row in &ROWS {
        for more in [1 << 8, 1 << 16] {
            let bytes = [row.bytes(), vec![0; more]].concat();
            tally.add(check_reading(&bytes, row.version));
        }
    }
    tally.expect_only(&[Refused(4)]);
}

/// Each trait of the fields must come to the refusals that it can come to.
#[test]
fn seeded_fields_are_written_alike() {
    let random = &mut Random::new(1);
    for mode in MODES {
        let mut tally = Tally::new(format!("seeded service telegrams written, {mode:?}"));
        let mut traits = Tally::new(format!("some traits of those fields, {mode:?}"));
        for _ in 0..CASES {
            let sample = samples::any(random, mode);
            let Sample {
                fields,
                version,
                part,
            } = &sample;
            let needed = service_fields::write(fields, *version, part, &mut [0; LONGEST_TELEGRAM]);
            let room = any_room(random, needed.unwrap_or(LONGEST_TELEGRAM));
            let outcome = check_writing(fields, *version, part, room);
            for name in samples::traits(&sample) {
                traits.add(format!("{name}: {outcome}"));
            }
            tally.add(outcome);
        }
        tally.expect_only(&Outcome::all(&WRITING_REFUSALS));
        let expected = TRAIT_REFUSALS.into_iter().flat_map(|(name, refusals)| {
            let refused = refusals.iter().copied().map(Refused);
            refused.map(move |outcome| format!("{name}: {outcome}"))
        });
        traits.expect_at_least(&expected.collect::<Vec<_>>());
    }
}

/// Writes a case through both, which must come to what was worked out by hand.
fn check_case(case: &Case) -> Outcome {
    let outcome = check_writing(&case.fields, case.version, case.part, case.room);
    match (outcome, case.refusal) {
        (Accepted(..), None) => {}
        (Refused(number), Some(expected)) if number == expected => {}
        _ => panic!("{outcome}: {case:?}"),
    }
    outcome
}

/// Every service by every function code, said to go either way and none: a way
/// above 1 is refused with 12, and one that is not the code's with 10.
#[test]
fn every_way_is_written_alike() {
    let mut tally = Tally::new("ways of service telegrams written");
    let mut ways = Tally::new("services said to go another way than their code");
    for case in samples::every_way() {
        let outcome = check_case(&case);
        let [number, way, fc] = [SERVICE, WAY, FC].map(|place| case.fields[place]);
        let (coded, other) = match Way::by(fc) {
            Way::Call => ("call", 1),
            Way::Answer => ("answer", 0),
        };
        // A reserved code goes no way.
        if way == other && class(fc) != Class::Reserved {
            ways.add(format!("service {number} by code of {coded}: {outcome}"));
        }
        tally.add(outcome);
    }
    tally.expect_only(&Outcome::all(&[10, 12]));
    let expected = samples::LISTED.into_iter().flat_map(|number| {
        ["call", "answer"].map(|coded| format!("service {number} by code of {coded}: refused 10"))
    });
    ways.expect_only(&expected.collect::<Vec<_>>());
}

/// A number up to 63 that the list lacks stands for two SAPs and the part: where
/// they fit it is refused with 10, and else with 12, as any above 63 is.
#[test]
fn unlisted_services_are_written_alike() {
    let mut tally = Tally::new("unlisted services written");
    for case in samples::unlisted() {
        let [number, kind] = [SERVICE, KIND].map(|place| case.fields[place]);
        let outcome = check_case(&case);
        let numbers = if number > 63 { "above 63" } else { "up to 63" };
        tally.add(format!("{numbers}, kind {kind}: {outcome}"));
    }
    tally.expect_only(&[
        format!("up to 63, kind {SD1}: refused 12"),
        format!("up to 63, kind {SD2}: refused 10"),
        format!("up to 63, kind {SD2}: refused 12"),
        format!("up to 63, kind {SD3}: refused 10"),
        format!("up to 63, kind {SD3}: refused 12"),
        format!("above 63, kind {SD1}: refused 12"),
        format!("above 63, kind {SD2}: refused 12"),
        format!("above 63, kind {SD3}: refused 12"),
    ]);
}

/// The length is counted by the function code's way, also where the fields say
/// the other.
#[test]
fn fixed_bytes_are_counted_alike() {
    let mut tally = Tally::new("part lengths of services said to go the other way");
    for case in samples::other_way_of_every_length() {
        tally.add(check_case(&case));
    }
    tally.expect_only(&[Refused(10), Refused(12)]);
}

/// Version, kind, way and service out of range, alone and all at once, and every
/// fault of a Set_Slave_Adr that comes behind.
#[test]
fn faults_come_in_their_order() {
    let mut tally = Tally::new("faults of a Set_Slave_Adr together");
    for case in samples::faults_together() {
        tally.add(check_case(&case));
    }
    let refused = [10, 11, 12, 20, 21].map(Refused);
    let accepted = [Accepted(Service::SetSlaveAdr, Way::Call)];
    tally.expect_only(&[&accepted[..], &refused].concat());
}

/// Every last byte of Set_Slave_Adr: above 1 it is refused with 21, after 12 and
/// 20 and before 11.
#[test]
fn every_last_byte_of_set_slave_adr_is_written_alike() {
    let mut tally = Tally::new("last bytes of a Set_Slave_Adr");
    for case in samples::last_bytes() {
        tally.add(check_case(&case));
    }
    let refused = [11, 12, 20, 21].map(Refused);
    let accepted = [Accepted(Service::SetSlaveAdr, Way::Call)];
    tally.expect_only(&[&accepted[..], &refused].concat());
}

/// Every byte in place of each of the fields, and every version.
#[test]
fn every_byte_at_every_place_is_written_alike() {
    let mut tally = Tally::new("bytes at every place of the fields written");
    for row in &ROWS {
        let (bytes, right) = (row.bytes(), row.fields());
        let part = part_of(&right, &bytes);
        let accepted = check_writing(&right, row.version, part, LONGEST_TELEGRAM);
        for (place, byte) in (0..COUNT).flat_map(|place| (0..=255).map(move |b| (place, b))) {
            let mut fields = right;
            fields[place] = byte;
            let outcome = check_writing(&fields, row.version, part, LONGEST_TELEGRAM);
            let expected = match place {
                _ if byte == right[place] => Some(accepted),
                SERVICE if byte > 63 => Some(Refused(12)),
                SERVICE if right[KIND] == SD2 && !samples::LISTED.contains(&byte) => {
                    Some(Refused(10))
                }
                WAY if byte > 1 => Some(Refused(12)),
                WAY => Some(Refused(10)),
                PART_START | PART_LENGTH => Some(accepted),
                _ if place >= OWN + looked_at(&right, row.version) => Some(accepted),
                _ => None,
            };
            if let Some(expected) = expected {
                assert_eq!(outcome, expected, "{place} {byte} {}", row.hex);
            }
            tally.add(outcome);
        }
        for version in 0..=255 {
            tally.add(check_writing(&right, version, part, LONGEST_TELEGRAM));
        }
    }
    let refused = [10, 12, 20, 21, 22, 24, 28];
    tally.expect_only(&Outcome::all(&refused));
}

/// The last are those that a length kept in two bytes would take for 0..=20, as
/// one kept in a byte does with some before.
#[test]
fn every_part_length_is_written_alike() {
    let mut tally = Tally::new("part lengths of service telegrams written");
    // Modules without sides, and device blocks.
    let lent = [vec![0x00; 65_600], [0x02, 0x09].repeat(32_800)];
    for (row, lent) in ROWS
        .iter()
        .flat_map(|row| lent.iter().map(move |lent| (row, lent)))
    {
        for length in (0..=260).chain(65_536..=65_556) {
            for kind in [SD1, SD2, SD3] {
                let mut fields = row.fields();
                fields[KIND] = kind;
                let part = &lent[..length];
                tally.add(check_writing(&fields, row.version, part, MOST_ROOM));
            }
        }
    }
    tally.expect_only(&Outcome::all(&[12, 20, 22, 23, 24]));
}

#[test]
fn every_room() {
    let mut tally = Tally::new("rooms that service telegrams are written to");
    for row in &ROWS {
        let (bytes, fields) = (row.bytes(), row.fields());
        // The last are those that a room kept in two bytes would take for 0..=4.
        for room in (0..=MOST_ROOM).chain(65_536..=65_540) {
            let outcome = check_writing(&fields, row.version, part_of(&fields, &bytes), room);
            let is_refused = outcome == Refused(11);
            assert_eq!(is_refused, room < bytes.len(), "{room} {}", row.hex);
            tally.add(outcome);
        }
    }
    tally.expect_only(&Outcome::all(&[11]));
}

/// Every number of DPV1 by a function code of each class and by a reserved one,
/// said to go either way, with parts that are right, too long for the number, and
/// too long for a telegram.
#[test]
fn every_dpv1_number_is_written_alike() {
    let mut tally = Tally::new("numbers of DPV1 in service telegrams written");
    let lent = [0x09; 250];
    let codes = FUNCTION_CODES.map(|(fc, _)| fc).into_iter().chain([0x4C]);
    let codes = codes.flat_map(|fc| [(fc, 0), (fc, 1)]);
    for ((fc, way), number) in codes.flat_map(|code| (0..=255).map(move |n| (code, n))) {
        for (length, kind) in [0, 1, 2, 3, 5, 6]
            .into_iter()
            .chain(238..=246)
            .flat_map(|length| [(length, SD2), (length, SD3)])
        {
            for own in [[1, 7, 240], [128, 0xB0, 5], [128, 0, 5], [1, 7, 241]] {
                let mut fields = [0; COUNT];
                fields[..OWN].copy_from_slice(&[51, way, kind, 7, 2, fc, 0, 0]);
                fields[OWN] = number;
                fields[OWN + 1..][..own.len()].copy_from_slice(&own);
                tally.add(check_writing(&fields, 0, &lent[..length], MOST_ROOM));
            }
        }
    }
    tally.expect_only(&[
        Accepted(Service::Dpv1, Way::Call),
        Accepted(Service::Dpv1, Way::Answer),
        Refused(10),
        Refused(12),
        Refused(20),
        Refused(21),
        Refused(28),
    ]);
}

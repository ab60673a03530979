//! The proved library and the reference on the same telegrams: every number,
//! field and byte must be the same, and a refusal must leave all as it was.

#![deny(unsafe_code)]

#[allow(unsafe_code)]
mod library;
mod tally;

use rabtunex_tests::random::Random;
use rabtunex_tests::reference::fields::{self, Fields};
use rabtunex_tests::reference::refusal;
use rabtunex_tests::reference::telegram::{read, write, ED, SC, SD1, SD2, SD3, SD4};
use rabtunex_tests::samples::{self, Saps, FUNCTION_CODES, LONGEST_PDU};
use std::fmt;
use tally::Tally;
use Outcome::{Accepted, Refused};

const STARTS: [u8; 5] = [SC, SD4, SD1, SD2, SD3];
const FRAME_STARTS: [u8; 3] = [SD1, SD2, SD3];

const FRAME_KINDS: [u8; 3] = [fields::SD1, fields::SD2, fields::SD3];
const ALL_KINDS: [u8; 5] = [
    fields::SC,
    fields::TOKEN,
    fields::SD1,
    fields::SD2,
    fields::SD3,
];

/// What stands in the fields before a reading: at no place a value that a
/// reading stores there.
const UNTOUCHED_FIELDS: Fields = [0xF0, 0xF1, 0xF2, 0xF3, 0xF4, 0xF5, 0xF6, 0xF7];

/// What stands in the output before a writing.
const UNTOUCHED: u8 = 0xAA;
/// What stands in the count before a writing.
const UNSTORED: usize = usize::MAX;

/// The header promises that so much room is never too small.
const LONGEST_TELEGRAM: usize = 255;
/// The most room that is lent to a writing.
const MOST_ROOM: usize = 300;
/// Bytes before and after the room, which are not lent.
const MARGIN: usize = 20;

/// The longest input of the seeded readings.
const LONGEST_INPUT: usize = 600;

/// How a reading or a writing ended.
#[derive(Clone, Copy, Debug, PartialEq, Eq, PartialOrd, Ord)]
enum Outcome {
    /// With a telegram of this kind.
    Accepted(u8),
    /// With this refusal number.
    Refused(u8),
}

impl fmt::Display for Outcome {
    fn fmt(&self, f: &mut fmt::Formatter<'_>) -> fmt::Result {
        const KINDS: [&str; 5] = ["SC", "token", "SD1", "SD2", "SD3"];
        match self {
            Outcome::Accepted(kind) => write!(f, "accepted {}", KINDS[usize::from(*kind)]),
            Outcome::Refused(number) => write!(f, "refused {number}"),
        }
    }
}

/// All that a writing may have changed.
#[derive(Debug, PartialEq, Eq)]
struct Written {
    number: u8,
    stored: usize,
    /// The room, with a margin on either side.
    memory: [u8; MARGIN + MOST_ROOM + MARGIN],
}

impl Written {
    /// Nothing, but for the number that was answered.
    fn nothing(number: u8) -> Self {
        Written {
            number,
            stored: UNSTORED,
            memory: [UNTOUCHED; MARGIN + MOST_ROOM + MARGIN],
        }
    }

    /// These bytes, their count and 0.
    fn telegram(bytes: &[u8]) -> Self {
        let mut written = Written::nothing(0);
        written.stored = bytes.len();
        written.memory[MARGIN..][..bytes.len()].copy_from_slice(bytes);
        written
    }

    fn by_library(fields: &Fields, user: &[u8], room: usize) -> Self {
        let mut written = Written::nothing(0);
        let out = &mut written.memory[MARGIN..][..room];
        written.number = library::write_telegram(fields, user, out, &mut written.stored);
        written
    }

    fn by_reference(fields: &Fields, user: &[u8], room: usize) -> Self {
        let Some(telegram) = fields::telegram(fields, user) else {
            return Written::nothing(refusal::FIELD);
        };
        let mut out = [0; MOST_ROOM];
        match write(&telegram, &mut out[..room]) {
            Ok(length) => Written::telegram(&out[..length]),
            Err(number) => Written::nothing(number),
        }
    }
}

fn outcomes(accepted: &[u8], refused: &[u8]) -> Vec<Outcome> {
    let accepted = accepted.iter().copied().map(Accepted);
    let refused = refused.iter().copied().map(Refused);
    accepted.chain(refused).collect()
}

/// Reads through both, and writes what was accepted back through the library.
fn check_reading(bytes: &[u8]) -> Outcome {
    let mut fields = UNTOUCHED_FIELDS;
    let number = library::read_telegram(bytes, &mut fields);
    match read(bytes) {
        Ok(telegram) => {
            let expected = (0, fields::of(&telegram));
            assert_eq!((number, fields), expected, "{bytes:02X?}");
            check_writing_back(&fields, bytes);
            Accepted(fields[fields::KIND])
        }
        Err(refusal) => {
            let expected = (refusal, UNTOUCHED_FIELDS);
            assert_eq!((number, fields), expected, "{bytes:02X?}");
            Refused(refusal)
        }
    }
}

fn check_writing_back(fields: &Fields, bytes: &[u8]) {
    let start = usize::from(fields[fields::START]);
    let user = &bytes[start..][..usize::from(fields[fields::LEN])];
    let written = Written::by_library(fields, user, LONGEST_TELEGRAM);
    assert_eq!(written, Written::telegram(bytes), "{bytes:02X?}");
}

/// Writes through both.
fn check_writing(fields: &Fields, user: &[u8], room: usize) -> Outcome {
    let written = Written::by_library(fields, user, room);
    let expected = Written::by_reference(fields, user, room);
    let length = user.len();
    assert_eq!(written, expected, "{fields:?}, {length} bytes, room {room}");
    match expected.number {
        0 => Accepted(fields[fields::KIND]),
        number => Refused(number),
    }
}

#[test]
fn every_worked_row() {
    let worked = samples::worked_rows().iter();
    let mut rows: Vec<(&str, Vec<u8>)> = worked
        .map(|(name, bytes)| (*name, bytes.to_vec()))
        .collect();
    rows.extend([
        ("LE 249", samples::largest()),
        ("LE 250", samples::largest_with_le_250()),
        ("LE 250, one byte more", samples::one_longer_than_largest()),
    ]);
    let accepted = [fields::SC, fields::TOKEN, fields::SD1].map(Accepted);
    let refused = [6, 5, 1, 1, 3, 7, 9].map(Refused);
    let of_le = [Accepted(fields::SD2), Refused(3), Refused(3)];
    let outcomes = [&accepted[..], &refused, &of_le].concat();
    assert_eq!(rows.len(), outcomes.len());
    let mut tally = Tally::new("worked rows");
    for ((name, bytes), outcome) in rows.iter().zip(&outcomes) {
        assert_eq!(check_reading(bytes), *outcome, "{name}");
        tally.add(*outcome);
    }
    tally.print();
}

/// One way to make inputs, and the outcomes that they have between them.
struct Source {
    title: &'static str,
    make: fn(&mut Random) -> Vec<Vec<u8>>,
    accepted: &'static [u8],
    refused: &'static [u8],
}

/// How often each source is asked for inputs.
const ROUNDS: usize = 40;

/// Sources whose inputs can have no other outcomes.
const DAMAGE: [Source; 8] = [
    Source {
        title: "valid telegrams",
        make: samples::all_forms,
        accepted: &ALL_KINDS,
        refused: &[],
    },
    Source {
        title: "one byte changed",
        make: |random| damaged(random, &STARTS, samples::with_one_byte_changed),
        accepted: &[fields::TOKEN],
        refused: &[1, 2, 3, 4, 5, 6, 7],
    },
    Source {
        title: "cut short",
        make: |random| damaged(random, &STARTS, samples::cut_short),
        accepted: &[],
        refused: &[1],
    },
    Source {
        title: "lengthened",
        make: |random| damaged(random, &STARTS, samples::lengthened),
        accepted: &[],
        refused: &[4],
    },
    Source {
        title: "lengthened up to 600 bytes",
        make: |random| damaged(random, &STARTS, much_lengthened),
        accepted: &[],
        refused: &[4],
    },
    Source {
        title: "one byte changed, FCS mended",
        make: |random| damaged(random, &FRAME_STARTS, samples::changed_and_mended),
        accepted: &FRAME_KINDS,
        refused: &[7, 8, 9],
    },
    Source {
        title: "LE, LEr or second SD2 changed",
        make: |random| damaged(random, &[SD2], samples::with_length_bytes_changed),
        accepted: &[],
        refused: &[1, 3, 4],
    },
    Source {
        title: "any body, every LE",
        make: frames_with_any_body,
        accepted: &FRAME_KINDS,
        refused: &[3, 7, 8, 9],
    },
];

/// Sources whose inputs may by chance have other outcomes too.
const CHANCE: [Source; 2] = [
    Source {
        title: "several faults",
        make: |random| damaged(random, &FRAME_STARTS, with_several_faults),
        accepted: &FRAME_KINDS,
        refused: &[1, 2, 3, 4, 5, 6, 7, 8, 9],
    },
    Source {
        title: "any bytes",
        make: noises,
        accepted: &[fields::SC, fields::TOKEN],
        refused: &[1, 2, 3, 4, 5, 7],
    },
];

#[test]
fn seeded_damage_is_read_alike() {
    let total = check_sources(2025, &DAMAGE, Tally::expect_only);
    assert!(total >= 200_000, "only {total} inputs");
}

#[test]
fn seeded_chance_is_read_alike() {
    check_sources(2026, &CHANCE, Tally::expect_at_least);
}

/// Reads what the sources make, and answers how much that was.
fn check_sources(seed: u64, sources: &[Source], expect: fn(&Tally<Outcome>, &[Outcome])) -> usize {
    let random = &mut Random::new(seed);
    let mut total = 0;
    for source in sources {
        let mut tally = Tally::new(source.title);
        for _ in 0..ROUNDS {
            for input in (source.make)(random) {
                tally.add(check_reading(&input));
            }
        }
        expect(&tally, &outcomes(source.accepted, source.refused));
        total += tally.total();
    }
    total
}

/// Valid telegrams with these start bytes, each damaged.
fn damaged(
    random: &mut Random,
    starts: &[u8],
    damage: fn(&mut Random, &[u8]) -> Vec<u8>,
) -> Vec<Vec<u8>> {
    let mut telegrams = samples::all_forms(random);
    telegrams.retain(|telegram| starts.contains(&telegram[0]));
    telegrams
        .iter()
        .map(|telegram| damage(random, telegram))
        .collect()
}

fn much_lengthened(random: &mut Random, telegram: &[u8]) -> Vec<u8> {
    let count = random.between(1, LONGEST_INPUT - telegram.len());
    [telegram, &random.bytes(count)].concat()
}

/// The frame damaged more than once, so that the order of the faults matters.
fn with_several_faults(random: &mut Random, frame: &[u8]) -> Vec<u8> {
    let mut damaged = frame.to_vec();
    for _ in 0..random.between(1, 3) {
        damaged = samples::changed_and_mended(random, &damaged);
    }
    for _ in 0..random.below(3) {
        damaged = samples::with_one_byte_changed(random, &damaged);
    }
    match random.below(4) {
        0 => samples::lengthened(random, &damaged),
        1 => samples::cut_short(random, &damaged),
        _ => damaged,
    }
}

/// Frames right in length, checksum and end, with any bytes from DA to FCS. The
/// SD2 have every LE, those out of range too.
fn frames_with_any_body(random: &mut Random) -> Vec<Vec<u8>> {
    let mut frames = Vec::new();
    for le in 0..=255 {
        let sd2 = [SD2, le, le, SD2];
        frames.push(frame_with_any_body(random, &[SD1], 3));
        frames.push(frame_with_any_body(random, &sd2, usize::from(le)));
        frames.push(frame_with_any_body(random, &[SD3], 11));
    }
    frames
}

fn frame_with_any_body(random: &mut Random, start: &[u8], body_length: usize) -> Vec<u8> {
    let mut frame = [start, &random.bytes(body_length), &[0, ED]].concat();
    samples::mend(&mut frame);
    frame
}

/// Any bytes of every length, alone and after every start byte, and more of the
/// short ones that are near a telegram.
fn noises(random: &mut Random) -> Vec<Vec<u8>> {
    let mut noises = vec![Vec::new()];
    for length in 0..LONGEST_INPUT {
        noises.push(random.bytes(length + 1));
        for start in STARTS {
            noises.push([&[start], random.bytes(length).as_slice()].concat());
        }
    }
    noises.extend((0..2000).map(|_| samples::noise_after_start(random)));
    noises
}

#[test]
fn every_function_code() {
    let random = &mut Random::new(1);
    let mut read = Tally::new("function codes read");
    let mut written = Tally::new("function codes written");
    for fc in 0..=255 {
        read.add(check_reading(&samples::sd1_with_fc(random, fc)));
        let fields = [fields::SD1, 7, 2, fc, fields::NO_SAP, fields::NO_SAP, 0, 0];
        written.add(check_writing(&fields, &[], LONGEST_TELEGRAM));
    }
    read.expect_counts([(Accepted(fields::SD1), 58), (Refused(8), 198)]);
    written.expect_counts([(Accepted(fields::SD1), 58), (Refused(12), 198)]);
}

#[test]
fn every_kind() {
    let mut tally = Tally::new("kinds written");
    for kind in 0..=255 {
        for user in [&[][..], &[1, 2, 3, 4, 5, 6, 7, 8]] {
            let fields = [kind, 7, 2, 0x49, fields::NO_SAP, fields::NO_SAP, 0, 0];
            tally.add(check_writing(&fields, user, LONGEST_TELEGRAM));
        }
    }
    // SC, token and SD1 take no user data, SD2 and SD3 take eight bytes.
    tally.expect_counts([
        (Accepted(fields::SC), 1),
        (Accepted(fields::TOKEN), 1),
        (Accepted(fields::SD1), 1),
        (Accepted(fields::SD2), 1),
        (Accepted(fields::SD3), 1),
        (Refused(12), 2 * 256 - 5),
    ]);
}

/// All pairs of bytes.
fn pairs() -> impl Iterator<Item = (u8, u8)> {
    (0..=255).flat_map(|first| (0..=255).map(move |second| (first, second)))
}

#[test]
fn every_address_pair() {
    const TOKENS: usize = 127 * 127;
    const FRAMES: usize = 128 * 127;
    const ALL: usize = 256 * 256;
    let mut read = Tally::new("address pairs read");
    let mut written = Tally::new("address pairs written");
    let eight = [1, 2, 3, 4, 5, 6, 7, 8];
    for (da, sa) in pairs() {
        read.add(check_reading(&[SD4, da, sa]));
        let mut sd1 = [SD1, da, sa, 0x49, 0, ED];
        samples::mend(&mut sd1);
        read.add(check_reading(&sd1));
        for kind in [fields::TOKEN, fields::SD1, fields::SD3] {
            let user = if kind == fields::SD3 { &eight[..] } else { &[] };
            let fields = [kind, da, sa, 0x49, fields::NO_SAP, fields::NO_SAP, 0, 0];
            written.add(check_writing(&fields, user, LONGEST_TELEGRAM));
        }
    }
    // An SD1 with a flag has no SAP for it, but SA 127 and 255 come first.
    let sa_127 = 2 * 256;
    read.expect_counts([
        (Accepted(fields::TOKEN), TOKENS),
        (Accepted(fields::SD1), FRAMES),
        (Refused(7), ALL - TOKENS + sa_127),
        (Refused(9), ALL - FRAMES - sa_127),
    ]);
    written.expect_counts([
        (Accepted(fields::TOKEN), TOKENS),
        (Accepted(fields::SD1), FRAMES),
        (Accepted(fields::SD3), FRAMES),
        (Refused(12), 3 * ALL - TOKENS - 2 * FRAMES),
    ]);
}

#[test]
fn every_sap_pair() {
    const SAPS: usize = 64;
    const ALL: usize = 256 * 256;
    let mut read = Tally::new("SAP pairs read");
    let mut written = Tally::new("SAP pairs written");
    for (dsap, ssap) in pairs() {
        let mut sd2 = [SD2, 6, 6, SD2, 0x87, 0x82, 0x5C, dsap, ssap, 9, 0, ED];
        samples::mend(&mut sd2);
        read.add(check_reading(&sd2));
        let fields = [fields::SD2, 7, 2, 0x5C, dsap, ssap, 0, 0];
        written.add(check_writing(&fields, &[9], LONGEST_TELEGRAM));
    }
    let sd2 = Accepted(fields::SD2);
    read.expect_counts([(sd2, SAPS * SAPS), (Refused(9), ALL - SAPS * SAPS)]);
    // Writing also takes the number that stands for no SAP.
    let written_saps = SAPS + 1;
    let accepted = written_saps * written_saps;
    written.expect_counts([(sd2, accepted), (Refused(12), ALL - accepted)]);
}

/// A few valid telegrams of each form, with no, either and both SAPs; of SD2 the
/// shortest, a middling and the longest.
fn few_of_each_form(random: &mut Random) -> Vec<Vec<u8>> {
    let mut telegrams = vec![samples::short_confirmation()];
    for saps in Saps::ALL {
        telegrams.push(samples::token(random));
        telegrams.push(samples::sd1(random));
        telegrams.push(samples::sd3(random, saps));
        for pdu_length in [saps.shortest_pdu(), 16, LONGEST_PDU] {
            telegrams.push(samples::sd2(random, pdu_length, saps));
        }
    }
    telegrams
}

#[test]
fn every_change_of_one_byte_is_refused() {
    let random = &mut Random::new(2);
    let mut tally = Tally::new("changes of one byte read");
    for telegram in few_of_each_form(random) {
        assert!(matches!(check_reading(&telegram), Accepted(_)));
        // A token has no checksum: another address makes another token.
        if telegram[0] == SD4 {
            continue;
        }
        for place in 0..telegram.len() {
            let mut changed = telegram.clone();
            for offset in 1..=255 {
                changed[place] = telegram[place].wrapping_add(offset);
                tally.add(check_reading(&changed));
            }
        }
    }
    // The checksum refuses what the later numbers are for.
    tally.expect_only(&outcomes(&[], &[1, 2, 3, 4, 5, 6]));
}

#[test]
fn bytes_that_a_short_length_would_not_show() {
    let random = &mut Random::new(6);
    let mut tally = Tally::new("telegrams with 2^8 and 2^16 bytes after them read");
    for telegram in few_of_each_form(random) {
        for count in [1 << 8, 1 << 16] {
            let input = [telegram.as_slice(), &random.bytes(count)].concat();
            tally.add(check_reading(&input));
        }
    }
    tally.expect_only(&[Refused(4)]);
}

#[test]
fn seeded_fields_are_written_alike() {
    let random = &mut Random::new(3);
    let lent = random.bytes(300);
    let mut tally = Tally::new("seeded fields written");
    for _ in 0..200_000 {
        let (fields, user) = any_fields(random, &lent);
        let room = any_room(random, &fields, user);
        tally.add(check_writing(&fields, user, room));
    }
    tally.expect_only(&outcomes(&ALL_KINDS, &[11, 12]));
}

/// Fields and user data, mostly right but for the places that writing must not
/// look at, which hold any bytes.
fn any_fields<'a>(random: &mut Random, lent: &'a [u8]) -> (Fields, &'a [u8]) {
    let telegram = samples::any_fields(random, lent);
    let mut fields = fields::of(&telegram);
    let mut user = telegram.user();
    match random.below(16) {
        0 => fields[fields::KIND] = random.between(5, 255) as u8,
        1 => fields[*random.pick(&[fields::DA, fields::SA])] = random.between(127, 255) as u8,
        2 => fields[*random.pick(&[fields::DSAP, fields::SSAP])] = random.between(64, 254) as u8,
        3 => user = &lent[..random.between(1, lent.len())],
        4 => random.fill(&mut fields[fields::DA..]),
        _ => {}
    }
    let first_not_looked_at = match fields[fields::KIND] {
        fields::SC => fields::DA,
        fields::TOKEN => fields::FC,
        _ => fields::START,
    };
    random.fill(&mut fields[first_not_looked_at..]);
    (fields, user)
}

/// No room, one byte too little, just enough, more, or any.
fn any_room(random: &mut Random, fields: &Fields, user: &[u8]) -> usize {
    let needed = match Written::by_reference(fields, user, MOST_ROOM) {
        Written {
            number: 0, stored, ..
        } => stored,
        _ => LONGEST_TELEGRAM,
    };
    let any = random.between(0, MOST_ROOM);
    *random.pick(&[0, needed - 1, needed, needed + 1, any])
}

#[test]
fn every_pdu_length() {
    let random = &mut Random::new(4);
    let lent = random.bytes(65_600);
    let mut tally = Tally::new("PDU lengths written");
    // The last are those that a length kept in two bytes would take for 0..=20.
    for pdu_length in (0..=260_usize).chain(65_536..=65_556) {
        for saps in Saps::ALL {
            let Some(user_length) = pdu_length.checked_sub(saps.count()) else {
                continue;
            };
            for kind in ALL_KINDS {
                let dsap = if saps.dsap { 51 } else { fields::NO_SAP };
                let ssap = if saps.ssap { 62 } else { fields::NO_SAP };
                let fc = *random.pick(&FUNCTION_CODES);
                let fields = [kind, 7, 2, fc, dsap, ssap, 0, 0];
                tally.add(check_writing(&fields, &lent[..user_length], MOST_ROOM));
            }
        }
    }
    // Lengths less those that are shorter than the SAPs, for each kind.
    let cases = ALL_KINDS.len() * (4 * (261 + 21) - (1 + 1 + 2));
    let sd2 = 3 * LONGEST_PDU + (LONGEST_PDU - 1);
    tally.expect_counts([
        // The SAPs are not looked at: each choice of them once, with no data.
        (Accepted(fields::SC), 4),
        (Accepted(fields::TOKEN), 4),
        (Accepted(fields::SD1), 1),
        (Accepted(fields::SD2), sd2),
        (Accepted(fields::SD3), 4),
        (Refused(12), cases - (4 + 4 + 1 + sd2 + 4)),
    ]);
}

#[test]
fn every_room() {
    let random = &mut Random::new(5);
    let mut tally = Tally::new("rooms written to");
    for bytes in few_of_each_form(random) {
        let telegram = read(&bytes).expect("valid");
        let fields = fields::of(&telegram);
        for room in 0..=MOST_ROOM {
            let outcome = check_writing(&fields, telegram.user(), room);
            let enough = room >= bytes.len();
            assert_eq!(enough, outcome == Accepted(fields[fields::KIND]));
            tally.add(outcome);
        }
    }
    tally.expect_only(&outcomes(&ALL_KINDS, &[11]));
}

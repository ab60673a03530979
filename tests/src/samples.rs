//! Sample telegrams: valid ones of every form, the ways to damage one, and bytes
//! that were never a telegram.
//!
//! The samples are put together here byte by byte and not with the reference
//! writer, so that each is a check of the other. Those of the services' data and
//! of fields to write are in modules of their own.

pub mod acyclic;
pub mod acyclic_fields;
pub mod books;
pub mod configuration;
pub mod control;
pub mod controllers;
pub mod diagnosis;
pub mod download_lines;
pub mod downloads;
pub mod parameters;
pub mod printers;
pub mod service_fields;
pub mod service_outcomes;
pub mod service_pairs;
pub mod service_telegrams;
pub mod services;
pub mod shown;
pub mod simulated;
pub mod typed;
pub mod writers;

use crate::random::Random;
use crate::reference::telegram::{Format, Telegram, ED, SC, SD1, SD2, SD3, SD4};

/// The longest PDU of an SD2.
pub const LONGEST_PDU: usize = 246;
/// The PDU of every SD3.
const SD3_PDU: usize = 8;
const EXTENSION_FLAG: u8 = 0x80;

/// Every function code that is not reserved, written out from document 01.
#[rustfmt::skip]
pub const FUNCTION_CODES: [u8; 58] = [
    // Opening.
    0x63, 0x65, 0x67, 0x6C, 0x6D,
    // Counted, FCB 0 and then 1.
    0x53, 0x55, 0x57, 0x5C, 0x5D,
    0x73, 0x75, 0x77, 0x7C, 0x7D,
    // Uncounted, and the clock value.
    0x40, 0x44, 0x46, 0x49, 0x4E, 0x4F, 0xC0,
    // Bare answers of each station type.
    0x00, 0x01, 0x02, 0x03, 0x09,
    0x10, 0x11, 0x12, 0x13, 0x19,
    0x20, 0x21, 0x22, 0x23, 0x29,
    0x30, 0x31, 0x32, 0x33, 0x39,
    // Answers with data of each station type.
    0x08, 0x0A, 0x0C, 0x0D,
    0x18, 0x1A, 0x1C, 0x1D,
    0x28, 0x2A, 0x2C, 0x2D,
    0x38, 0x3A, 0x3C, 0x3D,
];

/// The telegrams of document 01's worked bytes, in its order. The row that has
/// another outcome with end 17, and the row with two telegrams, are two each.
pub fn worked_rows() -> &'static [(&'static str, &'static [u8])] {
    &[
        ("short confirmation", &[0xE5]),
        ("token", &[0xDC, 0x02, 0x02]),
        ("FDL status call", &[0x10, 0x07, 0x02, 0x49, 0x52, 0x16]),
        ("FCS wrong", &[0x10, 0x07, 0x02, 0x49, 0x53, 0x16]),
        ("FCS wrong, end 17", &[0x10, 0x07, 0x02, 0x49, 0x53, 0x17]),
        ("empty", &[]),
        ("SD2 with two bytes", &[0x68, 0x05]),
        ("LE 3", &[0x68, 0x03, 0x03, 0x68]),
        ("SA 127", &[0x10, 0x07, 0x7F, 0x49, 0xCF, 0x16]),
        ("DSAP missing", &[0x10, 0x87, 0x02, 0x49, 0xD2, 0x16]),
    ]
}

/// The largest telegram: LE 249, 255 bytes.
pub fn largest() -> Vec<u8> {
    counting_sd2(249)
}

/// The largest telegram with 250 for LE and LEr and nothing else changed.
pub fn largest_with_le_250() -> Vec<u8> {
    let mut telegram = largest();
    telegram[1] = 250;
    telegram[2] = 250;
    telegram
}

/// A telegram right in all but its LE, which is 250 and counts its bytes.
pub fn one_longer_than_largest() -> Vec<u8> {
    counting_sd2(250)
}

/// An SD2 of a given LE whose PDU counts up from 0.
fn counting_sd2(le: u8) -> Vec<u8> {
    let mut body = vec![7, 2, 0x5D];
    body.extend(0..le - 3);
    sd2_around(&body)
}

/// Which SAPs a frame has.
#[derive(Clone, Copy, Debug, PartialEq, Eq)]
pub struct Saps {
    /// Bit 7 of DA, and a DSAP.
    pub dsap: bool,
    /// Bit 7 of SA, and an SSAP.
    pub ssap: bool,
}

impl Saps {
    /// Neither.
    pub const NONE: Saps = Saps {
        dsap: false,
        ssap: false,
    };

    /// Both.
    pub const BOTH: Saps = Saps {
        dsap: true,
        ssap: true,
    };

    /// None, either, both.
    pub const ALL: [Saps; 4] = [
        Saps::NONE,
        Saps {
            dsap: true,
            ssap: false,
        },
        Saps {
            dsap: false,
            ssap: true,
        },
        Saps::BOTH,
    ];

    /// How many PDU bytes they take.
    pub fn count(self) -> usize {
        usize::from(self.dsap) + usize::from(self.ssap)
    }

    /// The shortest PDU of an SD2 that has them.
    pub fn shortest_pdu(self) -> usize {
        self.count().max(1)
    }
}

/// A short confirmation.
pub fn short_confirmation() -> Vec<u8> {
    vec![SC]
}

/// A token.
pub fn token(random: &mut Random) -> Vec<u8> {
    vec![SD4, station(random), station(random)]
}

/// An SD1.
pub fn sd1(random: &mut Random) -> Vec<u8> {
    let fc = *random.pick(&FUNCTION_CODES);
    sd1_with_fc(random, fc)
}

/// An SD1 with a given function code, which may be a reserved one.
pub fn sd1_with_fc(random: &mut Random, fc: u8) -> Vec<u8> {
    let body = [destination(random), station(random), fc];
    closed(vec![SD1], &body)
}

/// An SD2 with a given PDU length, 1..=246 and no less than its SAPs take.
pub fn sd2(random: &mut Random, pdu_length: usize, saps: Saps) -> Vec<u8> {
    sd2_around(&body(random, pdu_length, saps))
}

/// An SD3.
pub fn sd3(random: &mut Random, saps: Saps) -> Vec<u8> {
    closed(vec![SD3], &body(random, SD3_PDU, saps))
}

/// An SD2 of any length, every second one short as most telegrams are.
pub fn any_sd2(random: &mut Random) -> Vec<u8> {
    let saps = *random.pick(&Saps::ALL);
    let longest = *random.pick(&[16, LONGEST_PDU]);
    let pdu_length = random.between(saps.shortest_pdu(), longest);
    sd2(random, pdu_length, saps)
}

/// A telegram with a checksum: SD1, SD2 or SD3.
pub fn any_frame(random: &mut Random) -> Vec<u8> {
    match random.below(4) {
        0 => sd1(random),
        1 => {
            let saps = *random.pick(&Saps::ALL);
            sd3(random, saps)
        }
        _ => any_sd2(random),
    }
}

/// A valid telegram of any form.
pub fn any_valid(random: &mut Random) -> Vec<u8> {
    match random.below(16) {
        0 => short_confirmation(),
        1 => token(random),
        _ => any_frame(random),
    }
}

/// Valid telegrams of every form: SD2 of every length with every choice of SAPs,
/// and some of the others.
pub fn all_forms(random: &mut Random) -> Vec<Vec<u8>> {
    let mut telegrams = vec![short_confirmation(), largest()];
    for saps in Saps::ALL {
        for pdu_length in saps.shortest_pdu()..=LONGEST_PDU {
            telegrams.push(sd2(random, pdu_length, saps));
        }
        telegrams.extend((0..50).map(|_| sd3(random, saps)));
    }
    telegrams.extend((0..50).map(|_| token(random)));
    telegrams.extend((0..200).map(|_| sd1(random)));
    telegrams
}

fn station(random: &mut Random) -> u8 {
    random.below(127) as u8
}

fn destination(random: &mut Random) -> u8 {
    random.below(128) as u8
}

/// DA through the last PDU byte.
fn body(random: &mut Random, pdu_length: usize, saps: Saps) -> Vec<u8> {
    let mut body = vec![
        destination(random) | u8::from(saps.dsap) << 7,
        station(random) | u8::from(saps.ssap) << 7,
        *random.pick(&FUNCTION_CODES),
    ];
    for _ in 0..saps.count() {
        body.push(random.below(64) as u8);
    }
    body.extend(random.bytes(pdu_length - saps.count()));
    body
}

/// The SD2 of these bytes, which are those from DA through the last PDU byte.
pub fn sd2_around(body: &[u8]) -> Vec<u8> {
    let le = u8::try_from(body.len()).expect("LE is one byte");
    closed(vec![SD2, le, le, SD2], body)
}

/// Start bytes and body with FCS and ED added.
fn closed(start: Vec<u8>, body: &[u8]) -> Vec<u8> {
    let mut telegram = start;
    telegram.extend(body);
    telegram.push(sum(body));
    telegram.push(ED);
    telegram
}

fn sum(body: &[u8]) -> u8 {
    body.iter().fold(0, |sum, byte| sum.wrapping_add(*byte))
}

/// Where DA stands in a frame.
fn body_start(frame: &[u8]) -> usize {
    match frame[0] {
        SD2 => 4,
        _ => 1,
    }
}

/// Makes the checksum of a frame right again.
pub fn mend(frame: &mut [u8]) {
    let fcs = frame.len() - 2;
    frame[fcs] = sum(&frame[body_start(frame)..fcs]);
}

/// The frame to and from these stations.
fn readdressed(frame: Vec<u8>, stations: [u8; 2]) -> Vec<u8> {
    let mut frame = frame;
    let da = body_start(&frame);
    for (address, station) in frame[da..].iter_mut().zip(stations) {
        *address = *address & EXTENSION_FLAG | station;
    }
    mend(&mut frame);
    frame
}

/// The telegram with one byte changed to another.
pub fn with_one_byte_changed(random: &mut Random, telegram: &[u8]) -> Vec<u8> {
    let mut damaged = telegram.to_vec();
    let place = random.below(damaged.len());
    damaged[place] = random.other_byte(damaged[place]);
    damaged
}

/// The telegram without at least its last byte.
pub fn cut_short(random: &mut Random, telegram: &[u8]) -> Vec<u8> {
    telegram[..random.below(telegram.len())].to_vec()
}

/// The telegram with 1..=20 bytes after it.
pub fn lengthened(random: &mut Random, telegram: &[u8]) -> Vec<u8> {
    let count = random.between(1, 20);
    [telegram, &random.bytes(count)].concat()
}

/// The bytes with one of them changed, some cut off or some added.
pub fn changed_cut_or_lengthened(random: &mut Random, bytes: &[u8]) -> Vec<u8> {
    match random.below(3) {
        0 => with_one_byte_changed(random, bytes),
        1 => cut_short(random, bytes),
        _ => lengthened(random, bytes),
    }
}

/// The frame with one byte between the start bytes and FCS changed and the
/// checksum mended, which lets the faults after it show.
pub fn changed_and_mended(random: &mut Random, frame: &[u8]) -> Vec<u8> {
    let mut damaged = frame.to_vec();
    let da = body_start(frame);
    let (sa, fc) = (da + 1, da + 2);
    let fcs = frame.len() - 2;
    match random.below(6) {
        0 => damaged[da] ^= EXTENSION_FLAG,
        1 => damaged[sa] ^= EXTENSION_FLAG,
        2 => damaged[sa] |= !EXTENSION_FLAG,
        3 => damaged[fc] = random.other_byte(damaged[fc]),
        // A SAP above 63, where there is a SAP.
        4 if fc + 1 < fcs => damaged[fc + 1] ^= *random.pick(&[0x40, 0x80, 0xC0]),
        _ => {
            let place = random.between(da, fcs - 1);
            damaged[place] = random.other_byte(damaged[place]);
        }
    }
    mend(&mut damaged);
    damaged
}

/// The SD2 with another LE, LEr or second SD2, or with LE and LEr changed alike.
pub fn with_length_bytes_changed(random: &mut Random, sd2: &[u8]) -> Vec<u8> {
    let mut damaged = sd2.to_vec();
    match random.below(4) {
        0 => {
            let le = random.other_byte(damaged[1]);
            damaged[1] = le;
            damaged[2] = le;
        }
        place => damaged[place] = random.other_byte(damaged[place]),
    }
    damaged
}

/// 0..=300 bytes of any value.
pub fn noise(random: &mut Random) -> Vec<u8> {
    let length = random.between(0, 300);
    random.bytes(length)
}

/// A start byte and bytes of any value, every second time few enough to be near
/// the length of a telegram; at most 300.
pub fn noise_after_start(random: &mut Random) -> Vec<u8> {
    let most = *random.pick(&[16, 300]);
    let length = random.between(1, most);
    let mut bytes = random.bytes(length);
    bytes[0] = *random.pick(&[SD1, SD2, SD3, SD4, SC]);
    bytes
}

/// Fields to write, mostly right. The user data is lent from the front of
/// `lent`, which has at least 300 bytes.
pub fn any_fields<'a>(random: &mut Random, lent: &'a [u8]) -> Telegram<'a> {
    match random.below(16) {
        0 => Telegram::ShortConfirmation,
        1 => Telegram::Token {
            da: mostly_up_to(random, 126),
            sa: mostly_up_to(random, 126),
        },
        _ => any_frame_fields(random, lent),
    }
}

fn any_frame_fields<'a>(random: &mut Random, lent: &'a [u8]) -> Telegram<'a> {
    let format = *random.pick(&[Format::Sd1, Format::Sd2, Format::Sd2, Format::Sd3]);
    let saps = match format {
        Format::Sd1 if random.below(8) > 0 => Saps::NONE,
        _ => *random.pick(&Saps::ALL),
    };
    let pdu_length = match (format, random.below(16)) {
        (_, 0) => random.between(0, 300),
        (Format::Sd1, _) => 0,
        (Format::Sd3, _) => SD3_PDU,
        (Format::Sd2, 1..=4) => *random.pick(&[0, 1, LONGEST_PDU, LONGEST_PDU + 1]),
        (Format::Sd2, _) => random.between(1, LONGEST_PDU),
    };
    Telegram::Frame {
        format,
        da: mostly_up_to(random, 127),
        sa: mostly_up_to(random, 126),
        fc: match random.below(16) {
            0 => random.byte(),
            _ => *random.pick(&FUNCTION_CODES),
        },
        dsap: saps.dsap.then(|| mostly_up_to(random, 63)),
        ssap: saps.ssap.then(|| mostly_up_to(random, 63)),
        user: &lent[..pdu_length.saturating_sub(saps.count())],
    }
}

/// Mostly a value in range; else any byte or the limit and its neighbour.
fn mostly_up_to(random: &mut Random, limit: u8) -> u8 {
    match random.below(32) {
        0 => random.byte(),
        1 => limit,
        2 => limit + 1,
        _ => random.below(usize::from(limit) + 1) as u8,
    }
}

/// A number of `low`..=`high`, every second time of `low`..=`short`.
fn often_up_to(random: &mut Random, low: usize, short: usize, high: usize) -> usize {
    let most = *random.pick(&[short, high]);
    random.between(low, most)
}

/// Mostly a byte with no other bits than these; else any byte.
fn mostly_within(random: &mut Random, bits: u8) -> u8 {
    match random.below(32) {
        0 => random.byte(),
        _ => random.byte() & bits,
    }
}

/// Samples of one kind.
#[derive(Clone, Debug)]
pub struct Group {
    /// What they are.
    pub name: &'static str,
    /// Their bytes.
    pub inputs: Vec<Vec<u8>>,
}

/// The telegrams of the vectors, at most 300 bytes each: the same ones at every
/// call.
pub fn groups() -> Vec<Group> {
    let random = &mut Random::new(2025);
    let worked = worked_rows().iter().map(|(_, bytes)| bytes.to_vec());
    let mut groups = vec![
        group("worked rows of document 01", worked.collect()),
        group(
            "LE 249, the same with LE 250, one byte longer with LE 250",
            vec![largest(), largest_with_le_250(), one_longer_than_largest()],
        ),
    ];
    groups.extend(valid_groups(random));
    groups.extend(damaged_groups(random));
    groups
}

fn group(name: &'static str, inputs: Vec<Vec<u8>>) -> Group {
    Group { name, inputs }
}

fn valid_groups(random: &mut Random) -> Vec<Group> {
    let tokens = (0..8).map(|_| token(random)).collect();
    let sd1 = FUNCTION_CODES.iter().map(|fc| sd1_with_fc(random, *fc));
    let sd1 = sd1.collect();
    let mut sd2_frames = Vec::new();
    let mut sd3_frames = Vec::new();
    for saps in Saps::ALL {
        let shortest = saps.shortest_pdu();
        for pdu_length in [shortest, shortest + 1, LONGEST_PDU - 1, LONGEST_PDU] {
            sd2_frames.push(sd2(random, pdu_length, saps));
        }
        for _ in 0..11 {
            let pdu_length = random.between(shortest, LONGEST_PDU);
            sd2_frames.push(sd2(random, pdu_length, saps));
        }
        for _ in 0..5 {
            sd3_frames.push(sd3(random, saps));
        }
    }
    vec![
        group("valid short confirmation", vec![short_confirmation()]),
        group("valid tokens", tokens),
        group("valid SD1 with every function code", sd1),
        group("valid SD2 with no, either and both SAPs", sd2_frames),
        group("valid SD3 with no, either and both SAPs", sd3_frames),
    ]
}

fn damaged_groups(random: &mut Random) -> Vec<Group> {
    const EACH: usize = 36;
    type Make = fn(&mut Random) -> Vec<u8>;
    type Damage = fn(&mut Random, &[u8]) -> Vec<u8>;
    let damages: [(&'static str, Make, Damage); 5] = [
        ("one byte changed", any_valid, with_one_byte_changed),
        ("cut short", any_valid, cut_short),
        ("lengthened", any_valid, lengthened),
        (
            "one byte changed, FCS mended",
            any_frame,
            changed_and_mended,
        ),
        (
            "LE, LEr or second SD2 changed",
            any_sd2,
            with_length_bytes_changed,
        ),
    ];
    let noises: [(&'static str, Make); 2] = [
        ("any bytes", noise),
        ("any bytes after a start byte", noise_after_start),
    ];
    let mut groups = Vec::new();
    for (name, make, damage) in damages {
        let telegrams = (0..EACH).map(|_| {
            let telegram = make(random);
            damage(random, &telegram)
        });
        groups.push(group(name, telegrams.collect()));
    }
    for (name, make) in noises {
        groups.push(group(name, (0..EACH).map(|_| make(random)).collect()));
    }
    groups
}

#[cfg(test)]
mod tests {
    use super::*;
    use crate::reference::telegram::{class, read, write, Class};
    use std::collections::BTreeSet;

    #[test]
    fn function_codes_are_those_not_reserved() {
        let written_out = BTreeSet::from(FUNCTION_CODES);
        let by_rule: BTreeSet<u8> = (0..=255)
            .filter(|fc| class(*fc) != Class::Reserved)
            .collect();
        assert_eq!(written_out, by_rule);
    }

    #[test]
    fn any_valid_reaches_every_form_and_function_code() {
        let random = &mut Random::new(1);
        let mut starts = BTreeSet::new();
        let mut codes = BTreeSet::new();
        for _ in 0..5000 {
            let bytes = any_valid(random);
            starts.insert(bytes[0]);
            if let Telegram::Frame { fc, .. } = read(&bytes).expect("valid") {
                codes.insert(fc);
            }
        }
        assert_eq!(starts, BTreeSet::from([SD1, SD2, SD3, SD4, SC]));
        assert_eq!(codes, BTreeSet::from(FUNCTION_CODES));
    }

    #[test]
    fn mended_damage_reaches_the_faults_after_the_checksum() {
        let random = &mut Random::new(2);
        let mut outcomes = BTreeSet::new();
        for _ in 0..2000 {
            let frame = any_frame(random);
            let damaged = changed_and_mended(random, &frame);
            assert_ne!(damaged, frame);
            outcomes.insert(read(&damaged).err());
        }
        let expected = [None, Some(7), Some(8), Some(9)];
        assert_eq!(outcomes, BTreeSet::from(expected));
    }

    #[test]
    fn changed_length_bytes_are_always_refused() {
        let random = &mut Random::new(3);
        let mut outcomes = BTreeSet::new();
        for _ in 0..2000 {
            let frame = any_sd2(random);
            let damaged = with_length_bytes_changed(random, &frame);
            outcomes.insert(read(&damaged).err());
        }
        assert_eq!(outcomes, BTreeSet::from([Some(1), Some(3), Some(4)]));
    }

    #[test]
    fn other_damage_changes_what_it_says() {
        let random = &mut Random::new(4);
        for _ in 0..2000 {
            let valid = any_valid(random);
            let changed = with_one_byte_changed(random, &valid);
            let differing = valid.iter().zip(&changed).filter(|(a, b)| a != b);
            assert_eq!((changed.len(), differing.count()), (valid.len(), 1));
            let cut = cut_short(random, &valid);
            assert!(cut.len() < valid.len() && valid.starts_with(&cut));
            assert_eq!(read(&cut), Err(1));
            let longer = lengthened(random, &valid);
            assert!((1..=20).contains(&(longer.len() - valid.len())));
            assert!(longer.starts_with(&valid));
            assert_eq!(read(&longer), Err(4));
        }
    }

    #[test]
    fn noise_keeps_its_lengths() {
        let random = &mut Random::new(5);
        let mut lengths = BTreeSet::new();
        let mut starts = BTreeSet::new();
        for _ in 0..20_000 {
            lengths.insert(noise(random).len());
            let bytes = noise_after_start(random);
            assert!(bytes.len() <= 300);
            starts.insert(bytes[0]);
        }
        assert_eq!(lengths, (0..=300).collect());
        assert_eq!(starts, BTreeSet::from([SD1, SD2, SD3, SD4, SC]));
    }

    #[test]
    fn any_fields_are_right_and_wrong_in_every_form() {
        let random = &mut Random::new(6);
        let lent = random.bytes(300);
        let mut outcomes = BTreeSet::new();
        for _ in 0..2000 {
            let telegram = any_fields(random, &lent);
            let form = match telegram {
                Telegram::ShortConfirmation => SC,
                Telegram::Token { .. } => SD4,
                Telegram::Frame { format, .. } => match format {
                    Format::Sd1 => SD1,
                    Format::Sd2 => SD2,
                    Format::Sd3 => SD3,
                },
            };
            outcomes.insert((form, write(&telegram, &mut [0; 300]).is_ok()));
        }
        let both_ways = [SD1, SD2, SD3, SD4].map(|form| [(form, false), (form, true)]);
        let mut expected: BTreeSet<(u8, bool)> = both_ways.into_iter().flatten().collect();
        expected.insert((SC, true));
        assert_eq!(outcomes, expected);
    }

    #[test]
    fn groups_reach_every_outcome_of_reading() {
        let groups = groups();
        let telegrams: Vec<&Vec<u8>> = groups.iter().flat_map(|group| &group.inputs).collect();
        assert!((400..450).contains(&telegrams.len()), "{}", telegrams.len());
        assert!(telegrams.iter().all(|telegram| telegram.len() <= 300));
        let refusals: BTreeSet<u8> = telegrams
            .iter()
            .filter_map(|telegram| read(telegram).err())
            .collect();
        assert_eq!(refusals, (1..=9).collect());
        for group in groups {
            if group.name.starts_with("valid") {
                assert!(group.inputs.iter().all(|bytes| read(bytes).is_ok()));
            }
        }
    }
}

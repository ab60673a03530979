//! Fields of service telegrams to write, as the C interface takes them: any, and
//! some with what must come of them, worked out by hand.

use super::service_pairs;
use super::service_telegrams::{self, ANSWERS, CALLS, COMMANDS};
use super::{FUNCTION_CODES, LONGEST_PDU, SD3_PDU};
use crate::random::Random;
use crate::reference::fields::{SD1, SD2, SD3};
use crate::reference::parameters::Mode;
use crate::reference::service_fields::{self, looked_at, version_of, Fields};
use crate::reference::service_fields::{COUNT, DA, FC, KIND, LONGEST_TELEGRAM, OWN};
use crate::reference::service_fields::{PART_LENGTH, PART_START, SERVICE, WAY};

/// The numbers of the services.
pub const LISTED: [u8; 11] = [0, 51, 53, 55, 56, 57, 58, 59, 60, 61, 62];
/// The number of Set_Slave_Adr, and where its last byte stands.
const SET_SLAVE_ADR: u8 = 55;
const LAST_BYTE: usize = OWN + 3;

/// The versions and the ways that there are.
const VERSIONS: [u8; 2] = [0, 1];
const WAYS: [u8; 2] = [0, 1];

/// A function code that is reserved.
const RESERVED_CODE: u8 = 0x4C;

/// More bytes than any telegram takes, and more than two bytes count.
static LENT: [u8; 66_000] = [0; 66_000];
const TOO_LONG: usize = 260;

/// What is given to a writing.
#[derive(Clone, Debug)]
pub struct Sample {
    /// The fields.
    pub fields: Fields,
    /// The version.
    pub version: u8,
    /// The bytes that are lent.
    pub part: Vec<u8>,
}

/// Right, or wrong in one place or several; the places that writing must not look
/// at hold any bytes.
pub fn any(random: &mut Random, mode: Mode) -> Sample {
    let telegram = service_telegrams::any_fields(random, mode);
    let mut sample = Sample {
        fields: service_fields::of(&telegram.telegram(), 0),
        version: version_of(mode),
        part: telegram.part,
    };
    for _ in 0..*random.pick(&[0, 0, 0, 1, 1, 1, 2, 3]) {
        spoil(random, &mut sample);
    }
    let Sample {
        fields, version, ..
    } = &mut sample;
    random.fill(&mut fields[PART_START..=PART_LENGTH]);
    let looked_at = looked_at(fields, *version);
    random.fill(&mut fields[OWN + looked_at..]);
    sample
}

/// Changes one place, mostly to what is wrong.
fn spoil(random: &mut Random, sample: &mut Sample) {
    let Sample {
        fields,
        version,
        part,
    } = sample;
    match random.below(16) {
        0 => fields[SERVICE] = *random.pick(&LISTED),
        1 => fields[SERVICE] = *random.pick(&[1, 50, 52, 54, 63]),
        2 => fields[SERVICE] = random.between(1, 50) as u8,
        3 => fields[SERVICE] = *random.pick(&[64, 179, 188, 255]),
        4 => fields[KIND] = random.byte(),
        5 => *version = random.byte(),
        6 => fields[WAY] ^= 1,
        7 => fields[WAY] = *random.pick(&[2, 3, 128, 255]),
        8 => fields[FC] = *random.pick(&FUNCTION_CODES),
        9 => {
            fields[FC] = *random.pick(&FUNCTION_CODES);
            fields[WAY] = coded_way(fields[FC]);
        }
        10 => fields[OWN] = *random.pick(&[0x00, 0xC8, 0xD1, 0xDC, 0xDE, 0xDF, 0x5F, 0x48]),
        11 => fields[random.between(OWN, COUNT - 1)] = random.byte(),
        12 if fields[SERVICE] == SET_SLAVE_ADR => {
            fields[LAST_BYTE] = *random.pick(&[2, 3, 128, 255]);
        }
        12 | 13 => part.resize(*random.pick(&[0, 1, 2, 6, 8]), 0x02),
        14 => part.resize(random.between(234, 248), 0x00),
        _ => {
            // The longest PDU, or a byte less or more.
            let fixed = fixed_length(fields[SERVICE], coded_way(fields[FC]), fields, *version);
            let before = saps_length(fields[SERVICE]) + fixed;
            part.resize(
                random.between(LONGEST_PDU - 1, LONGEST_PDU + 1) - before,
                0x00,
            );
        }
    }
}

/// Which way a function code goes that is not reserved.
fn coded_way(fc: u8) -> u8 {
    u8::from(fc & 0x40 == 0)
}

/// How many SAPs the number has in front of its data, listed or not.
fn saps_length(number: u8) -> usize {
    match number {
        0 => 0,
        _ => 2,
    }
}

/// How many bytes stand before the part of a service that goes this way by its
/// function code, written out from document 01. Those of a service that goes but
/// one way are the same in the other.
fn fixed_length(number: u8, way: u8, fields: &Fields, version: u8) -> usize {
    match (number, way, version) {
        (51, 0, _) if fields[OWN] == 0x00 => 0,
        (51, _, _) if fields[OWN] == 0x48 => 1,
        (51, _, _) => 4,
        (55, _, _) => 4,
        (58, _, _) => 2,
        (60, 1, _) => 6,
        (61, _, 0) => 7,
        (61, _, _) => 10,
        _ => 0,
    }
}

/// Whether a PDU of this length fits the kind.
fn fits(kind: u8, pdu_length: usize) -> bool {
    match kind {
        SD1 => pdu_length == 0,
        SD2 => (1..=LONGEST_PDU).contains(&pdu_length),
        _ => pdu_length == SD3_PDU,
    }
}

/// What is given to a writing, and what must come of it.
#[derive(Clone, Copy, Debug)]
pub struct Case {
    /// The fields.
    pub fields: Fields,
    /// The version.
    pub version: u8,
    /// The bytes that are lent.
    pub part: &'static [u8],
    /// How many bytes the output has.
    pub room: usize,
    /// The number that it is refused with, if it is.
    pub refusal: Option<u8>,
}

/// A service and one of its ways, with what is right by these function codes.
struct Right {
    number: u8,
    codes: &'static [u8],
    own: &'static [u8],
    part: &'static [u8],
}

impl Right {
    fn fields(&self, way: u8, fc: u8) -> Fields {
        let mut fields = [0; COUNT];
        fields[..OWN].copy_from_slice(&[self.number, way, SD2, 7, 2, fc, 0, 0]);
        fields[OWN..][..self.own.len()].copy_from_slice(self.own);
        fields
    }
}

const fn right(number: u8, codes: &'static [u8], own: &'static [u8], part: &'static [u8]) -> Right {
    Right {
        number,
        codes,
        own,
        part,
    }
}

/// Every service with each of its ways, the calls first.
const RIGHT: [Right; 17] = [
    right(0, CALLS, &[], &[1]),
    right(51, CALLS, &[0x5E, 1, 7, 240], &[]),
    right(53, CALLS, &[], &[1]),
    right(55, CALLS, &[125, 0x12, 0x34, 1], &[]),
    right(56, CALLS, &[], &[]),
    right(57, CALLS, &[], &[]),
    right(58, COMMANDS, &[0x3E, 0xFF], &[]),
    right(59, CALLS, &[], &[]),
    right(60, CALLS, &[], &[]),
    right(61, CALLS, &[0, 2, 3, 11, 0, 1, 0, 0, 0, 0], &[1]),
    right(62, CALLS, &[], &[0x13]),
    right(0, ANSWERS, &[], &[1]),
    right(51, ANSWERS, &[0xDF, 0x80, 0xB2, 5], &[]),
    right(56, ANSWERS, &[], &[1]),
    right(57, ANSWERS, &[], &[1]),
    right(59, ANSWERS, &[], &[0x13]),
    right(60, ANSWERS, &[8, 0x0C, 0, 2, 0x12, 0x34], &[2, 9]),
];

/// What is right of the service by the function code, or else what is by others.
fn right_by(number: u8, fc: u8) -> &'static Right {
    let mut of_service = RIGHT.iter().filter(|right| right.number == number);
    let any = of_service.clone().next().expect("every service is there");
    of_service
        .find(|right| right.codes.contains(&fc))
        .unwrap_or(any)
}

/// Every service by every function code, said to go the code's way, the other and
/// none; all else is right.
pub fn every_way() -> Vec<Case> {
    let mut cases = Vec::new();
    for (number, fc) in LISTED
        .into_iter()
        .flat_map(|number| (0..=255).map(move |fc| (number, fc)))
    {
        let right = right_by(number, fc);
        for (version, way) in VERSIONS
            .into_iter()
            .flat_map(|version| [0, 1, 2, 3, 127, 128, 254, 255].map(|way| (version, way)))
        {
            let refusal = if way > 1 || !FUNCTION_CODES.contains(&fc) {
                Some(12)
            } else if way != coded_way(fc) || !right.codes.contains(&fc) {
                Some(10)
            } else {
                None
            };
            cases.push(Case {
                fields: right.fields(way, fc),
                version,
                part: right.part,
                room: LONGEST_TELEGRAM,
                refusal,
            });
        }
    }
    cases
}

/// A function code of each class, and a reserved one.
fn codes() -> impl Iterator<Item = u8> {
    let codes = service_pairs::FUNCTION_CODES.into_iter().map(|(fc, _)| fc);
    codes.chain([RESERVED_CODE])
}

/// The lengths of a part: all up to what is too long for any telegram, and some
/// that a length kept in two bytes would take for 0, for SD3's and for SD2's most.
fn lengths() -> impl Iterator<Item = usize> {
    (0..=TOO_LONG).chain([0, 6, 8, 244, 246].map(|length| 65_536 + length))
}

/// Every number up to 63 that the list lacks, and some above, by a function code
/// of each class, said to go either way, in each format and with a part of every
/// length.
pub fn unlisted() -> Vec<Case> {
    let missing = (1..64).filter(|number| !LISTED.contains(number));
    let numbers = missing.chain([64, 115, 179, 188, 255]);
    let mut cases = Vec::new();
    for (number, fc) in numbers.flat_map(|number| codes().map(move |fc| (number, fc))) {
        for (way, kind) in WAYS
            .into_iter()
            .flat_map(|way| [SD1, SD2, SD3].map(|kind| (way, kind)))
        {
            for length in lengths() {
                let is_field = number > 63 || fc == RESERVED_CODE || !fits(kind, 2 + length);
                let mut fields = [1; COUNT];
                fields[..OWN].copy_from_slice(&[number, way, kind, 7, 2, fc, 0, 0]);
                cases.push(Case {
                    fields,
                    version: number & 1,
                    part: &LENT[..length],
                    room: LONGEST_TELEGRAM,
                    refusal: Some(if is_field { 12 } else { 10 }),
                });
            }
        }
    }
    cases
}

/// Numbers of DPV1 that are both ways', one way's and no way's.
const DPV1_NUMBERS: [u8; 9] = [0x00, 0x48, 0x51, 0x5C, 0x5E, 0x5F, 0xDF, 0xC8, 0x33];

/// Every service by a function code of each class, said to go the other way, in
/// each format and with a part of every length: the function code decides how
/// many bytes stand before it.
pub fn other_way_of_every_length() -> Vec<Case> {
    let mut cases = Vec::new();
    for (number, fc) in LISTED
        .into_iter()
        .flat_map(|number| codes().map(move |fc| (number, fc)))
    {
        let way = 1 - coded_way(fc);
        let mut given = vec![right_by(number, fc).fields(way, fc)];
        if number == 51 {
            let fields = given[0];
            given = DPV1_NUMBERS
                .map(|number| with(fields, OWN, number))
                .to_vec();
        }
        for (fields, version) in given
            .into_iter()
            .flat_map(|fields| VERSIONS.map(|version| (fields, version)))
        {
            let fixed = fixed_length(number, coded_way(fc), &fields, version);
            for (kind, length) in [SD1, SD2, SD3]
                .into_iter()
                .flat_map(|kind| lengths().map(move |length| (kind, length)))
            {
                let pdu_length = saps_length(number) + fixed + length;
                let is_field = fc == RESERVED_CODE || !fits(kind, pdu_length);
                cases.push(Case {
                    fields: with(fields, KIND, kind),
                    version,
                    part: &LENT[..length],
                    room: LONGEST_TELEGRAM,
                    refusal: Some(if is_field { 12 } else { 10 }),
                });
            }
        }
    }
    cases
}

/// The fields with another byte at a place.
fn with(mut fields: Fields, place: usize, byte: u8) -> Fields {
    fields[place] = byte;
    fields
}

/// A Set_Slave_Adr with every choice of faults: version, kind, way, service, DA
/// and function code out of range, a part too long for a telegram, an unlisted
/// service, the other way, a part, a wrong address and a wrong last byte, and too
/// little room. The first of them counts, and none hides an earlier one.
pub fn faults_together() -> Vec<Case> {
    let right = right_by(SET_SLAVE_ADR, 0x5D).fields(0, 0x5D);
    let mut cases = vec![Case {
        fields: right,
        version: 0,
        part: &[],
        room: LONGEST_TELEGRAM,
        refusal: None,
    }];
    // From the last to come to the first: each is made of all before.
    let mut add = |number: u8, spoils: &[fn(&mut Case)]| {
        let before = cases.clone();
        for (spoil, case) in spoils
            .iter()
            .flat_map(|spoil| before.iter().map(move |case| (spoil, case)))
        {
            let mut case = *case;
            spoil(&mut case);
            case.refusal = Some(number);
            cases.push(case);
        }
    };
    add(11, &[|case| case.room = 14, |case| case.room = 0]);
    add(
        21,
        &[
            |case| case.fields[LAST_BYTE] = 2,
            |case| case.fields[LAST_BYTE] = 255,
        ],
    );
    add(21, &[|case| case.fields[OWN] = 126]);
    add(
        20,
        &[
            |case| case.part = &LENT[..1],
            |case| case.part = &LENT[..240],
        ],
    );
    // A code that carries none, another way than the code's, and no service: no
    // fixed bytes stand before the part then.
    add(10, &[|case| case.fields[FC] = 0x44]);
    add(10, &[|case| case.fields[WAY] = 1]);
    add(10, &[|case| case.fields[SERVICE] = 52]);
    add(12, &[|case| case.part = &LENT[..TOO_LONG]]);
    add(12, &[|case| case.fields[FC] = RESERVED_CODE]);
    add(12, &[|case| case.fields[DA] = 128]);
    add(
        12,
        &[
            |case| case.fields[SERVICE] = 64,
            |case| case.fields[SERVICE] = 255,
        ],
    );
    add(
        12,
        &[|case| case.fields[WAY] = 2, |case| case.fields[WAY] = 255],
    );
    add(
        12,
        &[|case| case.fields[KIND] = 0, |case| case.fields[KIND] = 5],
    );
    add(12, &[|case| case.version = 2, |case| case.version = 255]);
    cases
}

/// Every last byte of Set_Slave_Adr, with right and wrong addresses, with no part,
/// a part and one too long for a telegram, and in too little room.
pub fn last_bytes() -> Vec<Case> {
    let right = right_by(SET_SLAVE_ADR, 0x5D).fields(0, 0x5D);
    let mut cases = Vec::new();
    for (last, address) in (0..=255).flat_map(|last| [0, 125, 126, 255].map(|a| (last, a))) {
        for (length, room) in [0, 1, 2, 240, 241]
            .into_iter()
            .flat_map(|length| [0, 14, 15, LONGEST_TELEGRAM].map(|room| (length, room)))
        {
            let refusal = match length {
                241.. => Some(12),
                1.. => Some(20),
                0 if address > 125 || last > 1 => Some(21),
                0 if room < 15 => Some(11),
                0 => None,
            };
            cases.push(Case {
                fields: with(with(right, OWN, address), LAST_BYTE, last),
                version: last & 1,
                part: &LENT[..length],
                room,
                refusal,
            });
        }
    }
    cases
}

/// What there is about the fields that writing looks at and a telegram that was
/// read never has, and the lengths beside the limit.
pub fn traits(sample: &Sample) -> Vec<&'static str> {
    let Sample {
        fields,
        version,
        part,
    } = sample;
    let [number, way, fc] = [SERVICE, WAY, FC].map(|place| fields[place]);
    let is_listed = LISTED.contains(&number);
    let is_coded = FUNCTION_CODES.contains(&fc);
    let fixed = fixed_length(number, coded_way(fc), fields, *version);
    let pdu_length = saps_length(number) + fixed + part.len();
    let is_counted = is_coded && number < 64;
    let all = [
        ("a call by its code, said to be an answer", {
            is_coded && coded_way(fc) == 0 && way == 1
        }),
        ("an answer by its code, said to be a call", {
            is_coded && coded_way(fc) == 1 && way == 0
        }),
        ("said to go way 2", way == 2),
        ("said to go way 255", way == 255),
        ("an unlisted service", !is_listed && number < 64),
        ("a service above 63", number > 63),
        ("Set_Slave_Adr with a last byte above 1", {
            number == SET_SLAVE_ADR && fields[LAST_BYTE] > 1
        }),
        ("a PDU of 246 bytes, some of them fixed", {
            is_counted && fixed > 0 && pdu_length == LONGEST_PDU
        }),
        ("a PDU of 246 bytes, none of them fixed", {
            is_counted && fixed == 0 && pdu_length == LONGEST_PDU
        }),
        ("a PDU of 247 bytes, some of them fixed", {
            is_counted && fixed > 0 && pdu_length == LONGEST_PDU + 1
        }),
        ("a PDU of 247 bytes, none of them fixed", {
            is_counted && fixed == 0 && pdu_length == LONGEST_PDU + 1
        }),
    ];
    let found = all.into_iter().filter(|(_, is_so)| *is_so);
    found.map(|(name, _)| name).collect()
}

/// What comes of fields with each of these, among other numbers.
pub const TRAIT_REFUSALS: [(&str, &[u8]); 11] = [
    ("a call by its code, said to be an answer", &[10, 12]),
    ("an answer by its code, said to be a call", &[10, 12]),
    ("said to go way 2", &[12]),
    ("said to go way 255", &[12]),
    ("an unlisted service", &[10, 12]),
    ("a service above 63", &[12]),
    ("Set_Slave_Adr with a last byte above 1", &[10, 12, 20, 21]),
    ("a PDU of 246 bytes, some of them fixed", &[10, 11, 12, 20]),
    ("a PDU of 246 bytes, none of them fixed", &[10, 11, 12, 20]),
    ("a PDU of 247 bytes, some of them fixed", &[12]),
    ("a PDU of 247 bytes, none of them fixed", &[12]),
];

#[cfg(test)]
mod tests {
    use super::*;
    use crate::reference::service_fields::write;
    use crate::samples::parameters::MODES;
    use crate::samples::service_outcomes::{Outcome, WRITING_REFUSALS};
    use std::collections::{BTreeMap, BTreeSet};

    /// The numbers of the cases, with 0 for those that are accepted.
    fn numbers(cases: &[Case]) -> BTreeSet<u8> {
        cases.iter().map(|case| case.refusal.unwrap_or(0)).collect()
    }

    #[test]
    fn right_ones_are_every_service_and_way() {
        let numbers: BTreeSet<u8> = RIGHT.iter().map(|right| right.number).collect();
        assert_eq!(numbers, BTreeSet::from(LISTED));
        let accepted: Vec<Case> = every_way()
            .into_iter()
            .filter(|case| case.refusal.is_none())
            .collect();
        let mut kinds = BTreeSet::new();
        for case in &accepted {
            let mut out = [0; LONGEST_TELEGRAM];
            let length = write(&case.fields, case.version, case.part, &mut out).expect("right");
            let mode = MODES[usize::from(case.version)];
            kinds.insert(Outcome::of_reading(&out[..length], mode));
        }
        assert_eq!(kinds, BTreeSet::from_iter(Outcome::all(&[])));
        // Six services by 15 codes and 16 others, four by the former, one by two.
        assert_eq!(accepted.len(), 2 * (6 * (15 + 16) + 4 * 15 + 2));
    }

    #[test]
    fn every_service_is_said_to_go_every_way() {
        let mut found: BTreeMap<(u8, u8, bool), BTreeSet<u8>> = BTreeMap::new();
        for case in every_way() {
            let [number, way, fc] = [SERVICE, WAY, FC].map(|place| case.fields[place]);
            if FUNCTION_CODES.contains(&fc) {
                let is_unknown = way > 1;
                let key = (number, coded_way(fc), is_unknown || way == coded_way(fc));
                let numbers = found.entry(key).or_default();
                if is_unknown || way != coded_way(fc) {
                    numbers.insert(case.refusal.unwrap_or(0));
                }
            }
        }
        for number in LISTED {
            for coded in WAYS {
                assert_eq!(found[&(number, coded, false)], BTreeSet::from([10]));
                assert_eq!(found[&(number, coded, true)], BTreeSet::from([12]));
            }
        }
    }

    #[test]
    fn cases_have_their_numbers() {
        assert_eq!(numbers(&every_way()), BTreeSet::from([0, 10, 12]));
        assert_eq!(numbers(&unlisted()), BTreeSet::from([10, 12]));
        let expected = BTreeSet::from([10, 12]);
        assert_eq!(numbers(&other_way_of_every_length()), expected);
        let expected = BTreeSet::from([0, 10, 11, 12, 20, 21]);
        assert_eq!(numbers(&faults_together()), expected);
        let expected = BTreeSet::from([0, 11, 12, 20, 21]);
        assert_eq!(numbers(&last_bytes()), expected);
    }

    /// Every length that is just right and just wrong for each unlisted service.
    #[test]
    fn unlisted_ones_stand_on_both_sides_of_the_limit() {
        let mut found: BTreeMap<(&[u8], usize), Vec<Option<u8>>> = BTreeMap::new();
        let cases = unlisted();
        for case in &cases {
            let key = (&case.fields[..PART_START], case.part.len());
            found.entry(key).or_default().push(case.refusal);
        }
        for number in (1..64).filter(|number| !LISTED.contains(number)) {
            for (kind, length, refusal) in [
                (SD1, 0, 12),
                (SD2, 0, 10),
                (SD2, 244, 10),
                (SD2, 245, 12),
                (SD3, 5, 12),
                (SD3, 6, 10),
                (SD3, 7, 12),
            ] {
                for (fc, way) in [(0x5C, 0), (0x5C, 1), (0x08, 0), (0x08, 1)] {
                    let head = [number, way, kind, 7, 2, fc];
                    let refusals = &found[&(&head[..], length)];
                    assert_eq!(refusals, &[Some(refusal)], "{head:?} {length}");
                }
            }
        }
    }

    #[test]
    fn all_faults_at_once_are_among_those_together() {
        let cases = faults_together();
        let has_all = |case: &&Case| {
            let [number, way, kind, da, _, fc, ..] = case.fields;
            case.version > 1
                && !(SD1..=SD3).contains(&kind)
                && way > 1
                && number > 63
                && da > 127
                && fc == RESERVED_CODE
                && case.part.len() > 246
                && case.fields[OWN] > 125
                && case.fields[LAST_BYTE] > 1
                && case.room == 0
        };
        let with_all: Vec<&Case> = cases.iter().filter(has_all).collect();
        assert!(!with_all.is_empty());
        assert!(with_all.iter().all(|case| case.refusal == Some(12)));
        // Each of the first four alone.
        for (place, bytes) in [(SERVICE, [64, 255]), (WAY, [2, 255]), (KIND, [0, 5])] {
            let right = cases[0];
            for byte in bytes {
                let fields = with(right.fields, place, byte);
                let alone = cases
                    .iter()
                    .any(|case| case.fields == fields && case.version == 0 && case.part.is_empty());
                assert!(alone, "{place} {byte}");
            }
        }
    }

    #[test]
    fn any_reach_every_outcome_and_have_every_trait() {
        let random = &mut Random::new(5);
        for mode in MODES {
            let mut outcomes = BTreeSet::new();
            let mut found: BTreeMap<&str, BTreeSet<u8>> = BTreeMap::new();
            for _ in 0..60_000 {
                let sample = any(random, mode);
                let room = *random.pick(&[0, LONGEST_TELEGRAM]);
                let mut out = [0; LONGEST_TELEGRAM];
                let out = &mut out[..room];
                let written = write(&sample.fields, sample.version, &sample.part, out);
                for name in traits(&sample) {
                    found
                        .entry(name)
                        .or_default()
                        .insert(written.err().unwrap_or(0));
                }
                outcomes.insert(match written {
                    Ok(length) => {
                        let mode = MODES[usize::from(sample.version)];
                        Outcome::of_reading(&out[..length], mode)
                    }
                    Err(number) => Outcome::Refused(number),
                });
            }
            let expected = Outcome::all(&WRITING_REFUSALS);
            assert_eq!(outcomes, BTreeSet::from_iter(expected));
            for (name, refusals) in TRAIT_REFUSALS {
                let expected = BTreeSet::from_iter(refusals.iter().copied());
                assert!(found[name].is_superset(&expected), "{name} {found:?}");
            }
            assert_eq!(found.len(), TRAIT_REFUSALS.len());
        }
    }
}

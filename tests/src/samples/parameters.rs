//! Samples of parameters in both modes, at most 300 bytes each.

use super::{changed_cut_or_lengthened, mostly_within, often_up_to};
use crate::random::Random;
use crate::reference::parameters::{BitTimes, Mode, Parameters};

/// Both modes.
pub const MODES: [Mode; 2] = [Mode::Dpv0, Mode::Dpv1];

const LONGEST: usize = 244;

/// How many bytes stand before the user's.
pub fn shortest(mode: Mode) -> usize {
    match mode {
        Mode::Dpv0 => 7,
        Mode::Dpv1 => 10,
    }
}

/// Parameters of a given length, no less than the shortest; more than 244 bytes
/// are right in all but their length.
pub fn of_length(random: &mut Random, mode: Mode, length: usize) -> Vec<u8> {
    let mut bytes = random.bytes(length);
    bytes[0] &= 0b1111_1000;
    bytes[3] = random.between(11, 255) as u8;
    if mode == Mode::Dpv1 {
        bytes[7] &= 0b1110_0100;
        bytes[8] &= 0b1111_1101;
        bytes[9] &= 0b1001_1111;
    }
    bytes
}

/// Valid parameters, every second ones short.
pub fn any_valid(random: &mut Random, mode: Mode) -> Vec<u8> {
    let length = often_up_to(random, shortest(mode), 16, LONGEST);
    of_length(random, mode, length)
}

/// Valid parameters of every length.
pub fn all_forms(random: &mut Random, mode: Mode) -> Vec<Vec<u8>> {
    (shortest(mode)..=LONGEST)
        .map(|length| of_length(random, mode, length))
        .collect()
}

/// Valid parameters of the shortest and the longest lengths, and some of any.
pub fn few_forms(random: &mut Random, mode: Mode) -> Vec<Vec<u8>> {
    let lengths = [shortest(mode), shortest(mode) + 1, LONGEST - 1, LONGEST];
    let mut forms = lengths
        .map(|length| of_length(random, mode, length))
        .to_vec();
    forms.extend((0..20).map(|_| any_valid(random, mode)));
    forms.push(with_watchdog(&forms[0], 10, 10));
    forms.push(with_watchdog(&forms[0], 11, 10));
    forms
}

/// The same parameters with other factors; 10 and 10 are a second where a step is 10 ms.
fn with_watchdog(parameters: &[u8], factor1: u8, factor2: u8) -> Vec<u8> {
    let mut bytes = parameters.to_vec();
    bytes[1] = factor1;
    bytes[2] = factor2;
    bytes
}

/// Too few or too many bytes: reading gives 20.
pub fn length_wrong(random: &mut Random, mode: Mode) -> Vec<u8> {
    if random.below(2) == 0 {
        let length = random.below(shortest(mode));
        let mut bytes = any_valid(random, mode);
        bytes.truncate(length);
        return bytes;
    }
    let length = random.between(LONGEST + 1, 300);
    of_length(random, mode, length)
}

/// One wrong byte: reading gives 21.
pub fn byte_wrong(random: &mut Random, mode: Mode) -> Vec<u8> {
    let mut bytes = any_valid(random, mode);
    let places = match mode {
        Mode::Dpv0 => 2,
        Mode::Dpv1 => 5,
    };
    match random.below(places) {
        0 => bytes[0] ^= random.pick(&[0x01, 0x02, 0x04]),
        1 => bytes[3] = random.below(11) as u8,
        2 => bytes[7] ^= random.pick(&[0x01, 0x02, 0x08, 0x10]),
        3 => bytes[8] ^= 0x02,
        _ => bytes[9] ^= random.pick(&[0x20, 0x40]),
    }
    bytes
}

/// Damage in one place, of any kind.
pub fn damaged(random: &mut Random, mode: Mode) -> Vec<u8> {
    match random.below(3) {
        0 => length_wrong(random, mode),
        1 => byte_wrong(random, mode),
        _ => {
            let bytes = any_valid(random, mode);
            changed_cut_or_lengthened(random, &bytes)
        }
    }
}

/// Fields to write, mostly right. The user's bytes are lent from the front of
/// `lent`, which has at least 300 bytes.
pub fn any_fields<'a>(random: &mut Random, mode: Mode, lent: &'a [u8]) -> Parameters<'a> {
    let room = LONGEST - shortest(mode);
    let length = match random.below(16) {
        0 => random.between(0, 300),
        1 => room,
        2 => room + 1,
        _ => random.between(0, room),
    };
    let status = [0b1110_0100, 0b1111_1101, 0b1001_1111];
    Parameters {
        flags: mostly_within(random, 0b1111_1000),
        factor1: random.byte(),
        factor2: random.byte(),
        response: BitTimes(match random.below(8) {
            0 => random.between(9, 12) as u8,
            _ => random.between(11, 255) as u8,
        }),
        ident: random.word() as u16,
        groups: random.byte(),
        status: (mode == Mode::Dpv1).then(|| status.map(|bits| mostly_within(random, bits))),
        user: &lent[..length],
    }
}

#[cfg(test)]
mod tests {
    use super::*;
    use crate::reference::parameters::{read, write};
    use std::collections::BTreeSet;

    #[test]
    fn valid_ones_are_read() {
        let random = &mut Random::new(1);
        for mode in MODES {
            let forms = all_forms(random, mode);
            assert_eq!(forms.len(), 245 - shortest(mode));
            let any = (0..1000).map(|_| any_valid(random, mode));
            for bytes in forms.into_iter().chain(any) {
                assert!(read(&bytes, mode).is_ok(), "{bytes:02X?}");
            }
        }
    }

    #[test]
    fn each_damage_gets_its_number() {
        let random = &mut Random::new(2);
        for mode in MODES {
            for _ in 0..2000 {
                let bytes = length_wrong(random, mode);
                assert_eq!(read(&bytes, mode), Err(20), "{bytes:02X?}");
                let bytes = byte_wrong(random, mode);
                assert_eq!(read(&bytes, mode), Err(21), "{bytes:02X?}");
            }
        }
    }

    #[test]
    fn any_damage_and_any_fields_reach_every_number() {
        let random = &mut Random::new(3);
        let lent = random.bytes(300);
        let expected = BTreeSet::from([None, Some(20), Some(21)]);
        for mode in MODES {
            let mut read_as = BTreeSet::new();
            let mut written_as = BTreeSet::new();
            for _ in 0..2000 {
                read_as.insert(read(&damaged(random, mode), mode).err());
                let fields = any_fields(random, mode, &lent);
                written_as.insert(write(&fields, &mut [0; 300]).err());
            }
            assert_eq!(read_as, expected);
            assert_eq!(written_as, expected);
        }
    }
}

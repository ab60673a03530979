//! Samples of a printer's states and slots, and of what it may hear.

use super::service_telegrams::any_valid as any_service;
use super::{any_valid as any_telegram, changed_and_mended, changed_cut_or_lengthened};
use super::{mostly_up_to, often_up_to, readdressed, sd1, sd2_around, EXTENSION_FLAG};
use crate::random::Random;
use crate::reference::parameters::Mode;
use crate::reference::printer::{Pending, Printer, Slots, WriteResult, NOBODY, SLOTS, SLOT_ROOM};

/// The masters that most calls come from: few, so that they come again.
pub const MASTERS: [u8; 3] = [2, 3, 126];

/// The first codes of the results that a printer gives to refused writes.
const CODES: [u8; 4] = [0xB0, 0xB1, 0xB2, 0xB6];
/// The function codes of SRD, those of counted calls more often.
const SRD_CODES: [u8; 10] = [0x5C, 0x5C, 0x7C, 0x7C, 0x5D, 0x5D, 0x7D, 0x7D, 0x6C, 0x6D];

/// Any state of a printer with this address, also of those that it cannot come
/// to by itself.
pub fn any_state(random: &mut Random, address: u8) -> Printer {
    Printer {
        address,
        sa: match random.below(8) {
            0 => NOBODY,
            1 => random.byte(),
            _ => *random.pick(&MASTERS),
        },
        fcb: random.below(2) == 0,
        held: *random.pick(&[0, 1, 6, 15, 20, 255]),
        pending: any_pending(random),
        writes: *random.pick(&[0, 1, 2, 15, 254, 255]),
        boarding: random.below(2) == 0,
    }
}

/// Often no result, and mostly one that a printer gives.
fn any_pending(random: &mut Random) -> Option<Pending> {
    let result = match random.below(4) {
        0 | 1 => return None,
        2 => WriteResult::Positive {
            slot: mostly_up_to(random, 1),
            index: mostly_up_to(random, 15),
            length: mostly_up_to(random, 200),
        },
        _ => WriteResult::Negative {
            code1: *random.pick(&CODES),
            code2: mostly_up_to(random, 0),
        },
    };
    let not_yet = mostly_up_to(random, 3);
    Some(Pending { result, not_yet })
}

/// Slots with templates of any length, and any bytes after them.
pub fn any_slots(random: &mut Random) -> Slots {
    let mut slots = Slots {
        lengths: std::array::from_fn(|_| random.between(0, SLOT_ROOM) as u8),
        bodies: [[0; SLOT_ROOM]; SLOTS],
    };
    random.fill(slots.bodies.as_flattened_mut());
    slots
}

/// What a printer with this address may hear: mostly calls of a few masters to
/// it, right and wrong.
pub fn any_heard(random: &mut Random, address: u8) -> Vec<u8> {
    match random.below(16) {
        0 => any_telegram(random),
        1 => {
            let bytes = any_telegram(random);
            changed_cut_or_lengthened(random, &bytes)
        }
        2 => {
            let bytes = sd1(random);
            addressed(random, bytes, address)
        }
        3 | 4 => {
            let bytes = any_service(random, Mode::Dpv1);
            addressed(random, bytes, address)
        }
        5 => {
            let bytes = any_service(random, Mode::Dpv1);
            let bytes = addressed(random, bytes, address);
            changed_and_mended(random, &bytes)
        }
        6 | 7 => srd(random, address, [60, 62], &[]),
        8..=11 => srd(random, address, [51, 51], &[]),
        _ => {
            let mut data = any_write(random);
            if random.below(8) == 0 {
                // Its length is another then.
                data.pop();
            }
            srd(random, address, [51, 51], &data)
        }
    }
}

/// The frame as one of a master to the printer.
fn addressed(random: &mut Random, frame: Vec<u8>, address: u8) -> Vec<u8> {
    readdressed(frame, [address, any_master(random)])
}

fn srd(random: &mut Random, address: u8, saps: [u8; 2], data: &[u8]) -> Vec<u8> {
    let da = address | EXTENSION_FLAG;
    let sa = any_master(random) | EXTENSION_FLAG;
    let head = [da, sa, *random.pick(&SRD_CODES)];
    sd2_around(&[&head[..], &saps, data].concat())
}

fn any_master(random: &mut Random) -> u8 {
    match random.below(8) {
        0 => random.below(127) as u8,
        _ => *random.pick(&MASTERS),
    }
}

/// The data of a write call, every second time or so one that a printer refuses,
/// always or while boarding.
fn any_write(random: &mut Random) -> Vec<u8> {
    let slot = match random.below(8) {
        0 => random.byte(),
        _ => 1,
    };
    let index = match random.below(4) {
        0 => 7,
        1 => random.between(16, 255) as u8,
        _ => random.below(SLOTS) as u8,
    };
    let length = often_up_to(random, 1, 4, 240);
    let mut data = vec![0x5F, slot, index, length as u8];
    data.extend(random.bytes(length));
    data
}

#[cfg(test)]
mod tests {
    use super::*;
    use crate::reference::telegram::{class, read, Class, Telegram};
    use std::collections::BTreeMap;

    #[test]
    fn everything_a_printer_tells_apart_is_heard() {
        let random = &mut Random::new(1);
        let mut kinds: BTreeMap<String, usize> = BTreeMap::new();
        for _ in 0..20_000 {
            let kind = match read(&any_heard(random, 7)) {
                Err(_) => "refused".into(),
                Ok(Telegram::ShortConfirmation) => "SC".into(),
                Ok(Telegram::Token { .. }) => "token".into(),
                Ok(Telegram::Frame { da, fc, .. }) => match (class(fc), da) {
                    (Class::Bare | Class::Data, _) => "answer".into(),
                    (class, 7) => format!("{class:?} to 7"),
                    _ => "to another".into(),
                },
            };
            *kinds.entry(kind).or_default() += 1;
        }
        let expected = [
            "Counted to 7",
            "Opening to 7",
            "SC",
            "Uncounted to 7",
            "answer",
            "refused",
            "to another",
            "token",
        ];
        assert!(kinds.keys().eq(expected), "{kinds:?}");
        assert!(kinds.values().all(|count| *count > 50), "{kinds:?}");
    }
}

//! Samples of Set_Slave_Adr and Global_Control.

use super::{changed_cut_or_lengthened, mostly_up_to, mostly_within};
use crate::random::Random;
use crate::reference::control::{GlobalControl, SetSlaveAdr};

/// The bits of a command that are free.
const COMMAND_BITS: u8 = 0b0011_1110;

/// A Set_Slave_Adr.
pub fn set_slave_adr(random: &mut Random) -> Vec<u8> {
    let address = random.below(126) as u8;
    let lock = random.below(2) as u8;
    vec![address, random.byte(), random.byte(), lock]
}

/// Every address, to be locked and not to be.
pub fn all_set_slave_adr(random: &mut Random) -> Vec<Vec<u8>> {
    let pairs = (0..=125).flat_map(|address| [(address, 0), (address, 1)]);
    pairs
        .map(|(address, lock)| vec![address, random.byte(), random.byte(), lock])
        .collect()
}

/// The lowest and the highest address, to be locked and not to be, and some of
/// any form.
pub fn few_set_slave_adr(random: &mut Random) -> Vec<Vec<u8>> {
    let mut forms = Vec::new();
    for (address, lock) in [(0, 0), (0, 1), (125, 0), (125, 1)] {
        forms.push(vec![address, random.byte(), random.byte(), lock]);
    }
    forms.extend((0..20).map(|_| set_slave_adr(random)));
    forms
}

/// A Global_Control.
pub fn global_control(random: &mut Random) -> Vec<u8> {
    vec![random.byte() & COMMAND_BITS, random.byte()]
}

/// Every command, each to all slaves and to any groups.
pub fn all_global_control(random: &mut Random) -> Vec<Vec<u8>> {
    let commands = (0..32).map(|command| command << 1);
    commands
        .flat_map(|command| [vec![command, 0], vec![command, random.byte()]])
        .collect()
}

/// Every command to any groups.
pub fn few_global_control(random: &mut Random) -> Vec<Vec<u8>> {
    let commands = (0..32).map(|command| command << 1);
    commands
        .map(|command| vec![command, random.byte()])
        .collect()
}

/// A Set_Slave_Adr with a wrong address or last byte: reading gives 21.
pub fn set_slave_adr_wrong(random: &mut Random) -> Vec<u8> {
    let mut bytes = set_slave_adr(random);
    match random.below(2) {
        0 => bytes[0] = random.between(126, 255) as u8,
        _ => bytes[3] = random.between(2, 255) as u8,
    }
    bytes
}

/// A Global_Control with a wrong command: reading gives 21.
pub fn global_control_wrong(random: &mut Random) -> Vec<u8> {
    let mut bytes = global_control(random);
    bytes[0] |= random.pick(&[0x01, 0x40, 0x80]);
    bytes
}

/// A Set_Slave_Adr damaged in one place, in any way.
pub fn damaged_set_slave_adr(random: &mut Random) -> Vec<u8> {
    if random.below(2) == 0 {
        return set_slave_adr_wrong(random);
    }
    let bytes = set_slave_adr(random);
    changed_cut_or_lengthened(random, &bytes)
}

/// A Global_Control damaged in one place, in any way.
pub fn damaged_global_control(random: &mut Random) -> Vec<u8> {
    if random.below(2) == 0 {
        return global_control_wrong(random);
    }
    let bytes = global_control(random);
    changed_cut_or_lengthened(random, &bytes)
}

/// Fields of a Set_Slave_Adr to write, mostly right. What follows is lent from
/// the front of `lent`, which has at least 300 bytes.
pub fn any_set_slave_adr<'a>(random: &mut Random, lent: &'a [u8]) -> SetSlaveAdr<'a> {
    SetSlaveAdr {
        address: mostly_up_to(random, 125),
        ident: random.word() as u16,
        locked: any_lock(random),
        rest: any_rest(random, lent),
    }
}

/// Mostly 0 or 1.
fn any_lock(random: &mut Random) -> u8 {
    match random.below(16) {
        0 => *random.pick(&[2, 3, 128, 255]),
        _ => mostly_up_to(random, 1),
    }
}

/// Fields of a Global_Control to write, as `any_set_slave_adr`.
pub fn any_global_control<'a>(random: &mut Random, lent: &'a [u8]) -> GlobalControl<'a> {
    GlobalControl {
        command: mostly_within(random, COMMAND_BITS),
        groups: random.byte(),
        rest: any_rest(random, lent),
    }
}

/// Mostly nothing.
fn any_rest<'a>(random: &mut Random, lent: &'a [u8]) -> &'a [u8] {
    match random.below(16) {
        0 => &lent[..random.between(1, 300)],
        1 => &lent[..1],
        _ => &[],
    }
}

#[cfg(test)]
mod tests {
    use super::*;
    use crate::reference::control::{
        read_global_control, read_set_slave_adr, write_global_control, write_set_slave_adr,
    };
    use std::collections::BTreeSet;

    #[test]
    fn valid_ones_are_read() {
        let random = &mut Random::new(1);
        let mut addresses = all_set_slave_adr(random);
        let mut commands = all_global_control(random);
        assert_eq!((addresses.len(), commands.len()), (252, 64));
        addresses.extend((0..1000).map(|_| set_slave_adr(random)));
        commands.extend((0..1000).map(|_| global_control(random)));
        assert!(addresses
            .iter()
            .all(|bytes| read_set_slave_adr(bytes).is_ok()));
        assert!(commands
            .iter()
            .all(|bytes| read_global_control(bytes).is_ok()));
    }

    #[test]
    fn wrong_bytes_get_their_number() {
        let random = &mut Random::new(2);
        for _ in 0..2000 {
            let bytes = set_slave_adr_wrong(random);
            assert_eq!(read_set_slave_adr(&bytes), Err(21), "{bytes:02X?}");
            let bytes = global_control_wrong(random);
            assert_eq!(read_global_control(&bytes), Err(21), "{bytes:02X?}");
        }
    }

    #[test]
    fn any_damage_and_any_fields_reach_every_number() {
        let random = &mut Random::new(3);
        let lent = random.bytes(300);
        let mut outcomes = [const { BTreeSet::new() }; 4];
        for _ in 0..2000 {
            let [read_address, read_command, write_address, write_command] = &mut outcomes;
            read_address.insert(read_set_slave_adr(&damaged_set_slave_adr(random)).err());
            read_command.insert(read_global_control(&damaged_global_control(random)).err());
            let fields = any_set_slave_adr(random, &lent);
            write_address.insert(write_set_slave_adr(&fields, &mut [0; 4]).err());
            let fields = any_global_control(random, &lent);
            write_command.insert(write_global_control(&fields, &mut [0; 2]).err());
        }
        let expected = BTreeSet::from([None, Some(20), Some(21)]);
        assert!(
            outcomes.iter().all(|found| *found == expected),
            "{outcomes:?}"
        );
    }
}

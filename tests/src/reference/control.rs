//! The data of Set_Slave_Adr and Global_Control, which have fixed lengths.
//!
//! Nothing follows either, but what follows is lent like a telegram's user data:
//! reading lends the empty end of the bytes, and writing refuses more.

use super::{refusal, store};

/// The bytes of Set_Slave_Adr; the empty rest starts after them.
pub const SET_SLAVE_ADR_LENGTH: usize = 4;
/// The bytes of Global_Control; the empty rest starts after them.
pub const GLOBAL_CONTROL_LENGTH: usize = 2;

/// The highest address that a slave can be given.
const LAST_ADDRESS: u8 = 125;
/// The highest that the byte of the lock can be.
const LOCKED: u8 = 1;
/// The bits of a command that are 0.
const FIXED_COMMAND_BITS: u8 = 0b1100_0001;

/// A slave's new address.
#[derive(Clone, Copy, Debug, PartialEq, Eq)]
pub struct SetSlaveAdr<'a> {
    /// The address, 0..=125.
    pub address: u8,
    /// The ident number of the slave that is meant.
    pub ident: u16,
    /// 1 where the address cannot be changed again, else 0.
    pub locked: u8,
    /// What follows: nothing, in data that is right.
    pub rest: &'a [u8],
}

impl SetSlaveAdr<'_> {
    /// Refuses a wrong byte; which one it is does not change the number.
    fn judge(&self) -> Result<(), u8> {
        if self.address > LAST_ADDRESS || self.locked > LOCKED {
            return Err(refusal::BITS);
        }
        Ok(())
    }
}

/// A command to groups of slaves.
#[derive(Clone, Copy, Debug, PartialEq, Eq)]
pub struct GlobalControl<'a> {
    /// The command's bits.
    pub command: u8,
    /// A bit for each group that is meant.
    pub groups: u8,
    /// What follows: nothing, in data that is right.
    pub rest: &'a [u8],
}

/// Reads a Set_Slave_Adr, or answers its refusal number.
pub fn read_set_slave_adr(bytes: &[u8]) -> Result<SetSlaveAdr<'_>, u8> {
    let ([address, high, low, locked], rest) = split(bytes)?;
    let data = SetSlaveAdr {
        address,
        ident: u16::from_be_bytes([high, low]),
        locked,
        rest,
    };
    data.judge()?;
    Ok(data)
}

/// Reads a Global_Control, or answers its refusal number.
pub fn read_global_control(bytes: &[u8]) -> Result<GlobalControl<'_>, u8> {
    let ([command, groups], rest) = split(bytes)?;
    if command & FIXED_COMMAND_BITS != 0 {
        return Err(refusal::BITS);
    }
    Ok(GlobalControl {
        command,
        groups,
        rest,
    })
}

/// The bytes and their empty rest, when they are exactly as many as asked for.
fn split<const N: usize>(bytes: &[u8]) -> Result<([u8; N], &[u8]), u8> {
    match bytes.split_first_chunk() {
        Some((data, rest)) if rest.is_empty() => Ok((*data, rest)),
        _ => Err(refusal::DATA_LENGTH),
    }
}

/// Writes a Set_Slave_Adr to the front of `out` and answers its length, or
/// answers the refusal number and stores nothing.
pub fn write_set_slave_adr(data: &SetSlaveAdr<'_>, out: &mut [u8]) -> Result<usize, u8> {
    if !data.rest.is_empty() {
        return Err(refusal::DATA_LENGTH);
    }
    data.judge()?;
    let [high, low] = data.ident.to_be_bytes();
    let bytes: [u8; SET_SLAVE_ADR_LENGTH] = [data.address, high, low, data.locked];
    store([&bytes], out)
}

/// Writes a Global_Control, as `write_set_slave_adr` does.
pub fn write_global_control(data: &GlobalControl<'_>, out: &mut [u8]) -> Result<usize, u8> {
    if !data.rest.is_empty() {
        return Err(refusal::DATA_LENGTH);
    }
    if data.command & FIXED_COMMAND_BITS != 0 {
        return Err(refusal::BITS);
    }
    let bytes: [u8; GLOBAL_CONTROL_LENGTH] = [data.command, data.groups];
    store([&bytes], out)
}

#[cfg(test)]
mod tests {
    use super::*;
    use crate::random::Random;
    use crate::reference::expect;
    use crate::samples::control as sample;

    #[test]
    fn fields_stand_where_document_01_puts_them() {
        let set_slave_adr = SetSlaveAdr {
            address: 125,
            ident: 0x1234,
            locked: 1,
            rest: &[],
        };
        assert_eq!(read_set_slave_adr(&[125, 0x12, 0x34, 1]), Ok(set_slave_adr));
        let global_control = GlobalControl {
            command: 0x3E,
            groups: 0xFF,
            rest: &[],
        };
        assert_eq!(read_global_control(&[0x3E, 0xFF]), Ok(global_control));
    }

    #[test]
    fn every_byte_at_every_place() {
        for byte in 0..=255_u8 {
            let is_low = byte < 126;
            let is_flag = byte == 0 || byte == 1;
            let is_command = byte.is_multiple_of(2) && byte < 0x40;
            for (bytes, is_right) in [
                ([byte, 0, 0, 0], is_low),
                ([125, byte, byte, 1], true),
                ([0, 0, 0, byte], is_flag),
            ] {
                let number = (!is_right).then_some(refusal::BITS);
                assert_eq!(read_set_slave_adr(&bytes).err(), number, "{bytes:02X?}");
            }
            for (bytes, is_right) in [([byte, 0], is_command), ([0, byte], true)] {
                let number = (!is_right).then_some(refusal::BITS);
                assert_eq!(read_global_control(&bytes).err(), number, "{bytes:02X?}");
            }
        }
    }

    #[test]
    fn length_comes_first() {
        for length in 0..=300 {
            let bytes = vec![0xFF; length];
            let number = if length == 4 { 21 } else { 20 };
            assert_eq!(read_set_slave_adr(&bytes), Err(number), "{length}");
            let number = if length == 2 { 21 } else { 20 };
            assert_eq!(read_global_control(&bytes), Err(number), "{length}");
        }
    }

    #[test]
    fn written_as_read() {
        let random = &mut Random::new(1);
        for bytes in sample::all_set_slave_adr(random) {
            let data = read_set_slave_adr(&bytes).expect("valid");
            assert!(std::ptr::eq(data.rest, &bytes[SET_SLAVE_ADR_LENGTH..]));
            expect::written(&bytes, |out| write_set_slave_adr(&data, out));
        }
        for bytes in sample::all_global_control(random) {
            let data = read_global_control(&bytes).expect("valid");
            assert!(std::ptr::eq(data.rest, &bytes[GLOBAL_CONTROL_LENGTH..]));
            expect::written(&bytes, |out| write_global_control(&data, out));
        }
    }

    #[test]
    fn every_last_byte_of_set_slave_adr_in_writing() {
        for locked in 0..=255 {
            let data = SetSlaveAdr {
                address: 125,
                ident: 0x1234,
                locked,
                rest: &[],
            };
            if locked < 2 {
                let bytes = [125, 0x12, 0x34, locked];
                expect::written(&bytes, |out| write_set_slave_adr(&data, out));
            } else {
                expect::refused(21, |out| write_set_slave_adr(&data, out));
            }
        }
    }

    #[test]
    fn any_fields_are_read_back_or_left_unwritten() {
        let random = &mut Random::new(2);
        let lent = random.bytes(300);
        for _ in 0..10_000 {
            let data = sample::any_set_slave_adr(random, &lent);
            let mut out = [0; SET_SLAVE_ADR_LENGTH];
            match write_set_slave_adr(&data, &mut out) {
                Ok(_) => assert_eq!(read_set_slave_adr(&out), Ok(data)),
                Err(number) => expect::refused(number, |out| write_set_slave_adr(&data, out)),
            }
            let data = sample::any_global_control(random, &lent);
            let mut out = [0; GLOBAL_CONTROL_LENGTH];
            match write_global_control(&data, &mut out) {
                Ok(_) => assert_eq!(read_global_control(&out), Ok(data)),
                Err(number) => expect::refused(number, |out| write_global_control(&data, out)),
            }
        }
    }

    #[test]
    fn rest_comes_before_the_fields_in_writing() {
        for (address, locked, rest, number) in [
            (126, 0, &[][..], 21),
            (255, 1, &[], 21),
            (0, 2, &[], 21),
            (125, 255, &[], 21),
            (126, 2, &[], 21),
            (255, 0, &[0], 20),
            (125, 2, &[0], 20),
            (255, 255, &[0; 300], 20),
            (0, 0, &[0], 20),
        ] {
            let data = SetSlaveAdr {
                address,
                ident: 0,
                locked,
                rest,
            };
            expect::refused(number, |out| write_set_slave_adr(&data, out));
        }
        for (command, rest, number) in [
            (0x01, &[][..], 21),
            (0x40, &[], 21),
            (0x80, &[], 21),
            (0x80, &[0], 20),
            (0x00, &[0], 20),
        ] {
            let data = GlobalControl {
                command,
                groups: 0,
                rest,
            };
            expect::refused(number, |out| write_global_control(&data, out));
        }
    }
}

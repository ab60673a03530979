//! The data of Set_Prm: how the slave is watched and what it is to expect.

use super::{refusal, store, LONGEST_DATA};

/// The bytes that both modes have before the rest.
const HEAD_LENGTH: usize = 7;
/// The lowest response time that a slave takes.
const SHORTEST_RESPONSE: u8 = 11;

/// Which status bytes the caller expects.
#[derive(Clone, Copy, Debug, PartialEq, Eq)]
pub enum Mode {
    /// None: all bytes after the groups are the user's.
    Dpv0,
    /// Three, before the user's bytes.
    Dpv1,
}

/// A time in bits on the line; not to be taken for milliseconds.
#[derive(Clone, Copy, Debug, PartialEq, Eq)]
pub struct BitTimes(pub u8);

/// A time in milliseconds; not to be taken for bit times.
#[derive(Clone, Copy, Debug, PartialEq, Eq)]
pub struct Milliseconds(pub u32);

/// The parameters; the user's bytes are borrowed.
#[derive(Clone, Copy, Debug, PartialEq, Eq)]
pub struct Parameters<'a> {
    /// Byte 1.
    pub flags: u8,
    /// The first factor of the watchdog time.
    pub factor1: u8,
    /// The second factor of the watchdog time.
    pub factor2: u8,
    /// The least time before the slave answers.
    pub response: BitTimes,
    /// The ident number.
    pub ident: u16,
    /// A bit for each group that the slave belongs to.
    pub groups: u8,
    /// Bytes 8, 9 and 10 in mode DPV1, and none in DPV0.
    pub status: Option<[u8; 3]>,
    /// The rest.
    pub user: &'a [u8],
}

impl Parameters<'_> {
    /// The watchdog time: both factors in steps of 10 ms, or of 1 ms when the
    /// first status byte says so.
    pub fn watchdog(&self) -> Milliseconds {
        let step = match self.status {
            Some([first, ..]) if first & 0x04 != 0 => 1,
            _ => 10,
        };
        Milliseconds(u32::from(self.factor1) * u32::from(self.factor2) * step)
    }

    /// Whether the watchdog has expired: the time since the last call has
    /// reached the watchdog time.
    pub fn has_expired(&self, elapsed: Milliseconds) -> bool {
        elapsed.0 >= self.watchdog().0
    }

    /// Refuses a wrong length, then a wrong byte; which one it is does not
    /// change the number.
    fn judge(&self) -> Result<(), u8> {
        let head_length = HEAD_LENGTH + self.status.map_or(0, |status| status.len());
        if head_length + self.user.len() > LONGEST_DATA {
            return Err(refusal::DATA_LENGTH);
        }
        let [first, second, third] = self.status.unwrap_or_default();
        let is_right = self.flags & 0b0000_0111 == 0
            && self.response.0 >= SHORTEST_RESPONSE
            && first & 0b0001_1011 == 0
            && second & 0b0000_0010 == 0
            && third & 0b0110_0000 == 0;
        is_right.then_some(()).ok_or(refusal::BITS)
    }
}

/// Reads parameters, or answers their refusal number.
pub fn read(bytes: &[u8], mode: Mode) -> Result<Parameters<'_>, u8> {
    let parameters = split(bytes, mode).ok_or(refusal::DATA_LENGTH)?;
    parameters.judge()?;
    Ok(parameters)
}

/// The fields of the bytes, right or wrong, when there are enough for them.
fn split(bytes: &[u8], mode: Mode) -> Option<Parameters<'_>> {
    let (head, rest) = bytes.split_first_chunk()?;
    let [flags, factor1, factor2, response, high, low, groups] = *head;
    let (status, user) = match mode {
        Mode::Dpv0 => (None, rest),
        Mode::Dpv1 => {
            let (status, user) = rest.split_first_chunk()?;
            (Some(*status), user)
        }
    };
    Some(Parameters {
        flags,
        factor1,
        factor2,
        response: BitTimes(response),
        ident: u16::from_be_bytes([high, low]),
        groups,
        status,
        user,
    })
}

/// Writes parameters to the front of `out` and answers their length, or answers
/// the refusal number and stores nothing.
pub fn write(parameters: &Parameters<'_>, out: &mut [u8]) -> Result<usize, u8> {
    parameters.judge()?;
    let [high, low] = parameters.ident.to_be_bytes();
    let head: [u8; HEAD_LENGTH] = [
        parameters.flags,
        parameters.factor1,
        parameters.factor2,
        parameters.response.0,
        high,
        low,
        parameters.groups,
    ];
    let status = parameters.status.as_slice().as_flattened();
    store([&head, status, parameters.user], out)
}

#[cfg(test)]
mod tests {
    use super::*;
    use crate::random::Random;
    use crate::reference::expect;
    use crate::samples::parameters as sample;

    /// The lowest right DPV1 bytes and two of the user's; in DPV0 five are.
    const GOOD: [u8; 12] = [0, 2, 3, 11, 0x12, 0x34, 1, 0, 0, 0, 8, 9];

    #[test]
    fn fields_stand_where_document_01_puts_them() {
        let bytes = [
            0xB8, 20, 5, 255, 0x12, 0x34, 0x81, 0xE4, 0xFD, 0x9F, 0xAB, 0xCD,
        ];
        let dpv0 = Parameters {
            flags: 0xB8,
            factor1: 20,
            factor2: 5,
            response: BitTimes(255),
            ident: 0x1234,
            groups: 0x81,
            status: None,
            user: &bytes[7..],
        };
        let dpv1 = Parameters {
            status: Some([0xE4, 0xFD, 0x9F]),
            user: &bytes[10..],
            ..dpv0
        };
        assert_eq!(read(&bytes, Mode::Dpv0), Ok(dpv0));
        assert_eq!(read(&bytes, Mode::Dpv1), Ok(dpv1));
    }

    #[test]
    fn watchdog_is_in_milliseconds() {
        let mut bytes = GOOD;
        for (factors, first, dpv0, dpv1) in [
            ([2, 3], 0x00, 60, 60),
            ([2, 3], 0x04, 60, 6),
            ([2, 3], 0xE0, 60, 60),
            ([255, 255], 0x00, 650_250, 650_250),
            ([255, 255], 0x04, 650_250, 65_025),
            ([0, 255], 0x00, 0, 0),
        ] {
            bytes[1..3].copy_from_slice(&factors);
            bytes[7] = first;
            let watchdog = |mode| read(&bytes, mode).map(|parameters| parameters.watchdog());
            assert_eq!(watchdog(Mode::Dpv0), Ok(Milliseconds(dpv0)));
            assert_eq!(watchdog(Mode::Dpv1), Ok(Milliseconds(dpv1)));
        }
    }

    #[test]
    fn a_watchdog_expires_at_its_time() {
        let mut bytes = GOOD;
        bytes[1..3].copy_from_slice(&[20, 5]);
        bytes[7] = 0x04;
        for (mode, time) in [(Mode::Dpv0, 1000), (Mode::Dpv1, 100)] {
            let expired = |elapsed| {
                read(&bytes, mode).map(|parameters| parameters.has_expired(Milliseconds(elapsed)))
            };
            assert_eq!(expired(time - 1), Ok(false));
            assert_eq!(expired(time), Ok(true));
            assert_eq!(expired(time + 1), Ok(true));
        }
    }

    #[test]
    fn every_byte_at_every_place() {
        let is_right = |place: usize, byte: u8, mode| match (place, mode) {
            (0, _) => byte.is_multiple_of(8),
            (3, _) => byte > 10,
            (7, Mode::Dpv1) => [0x01, 0x02, 0x08, 0x10].iter().all(|bit| byte & bit == 0),
            (8, Mode::Dpv1) => byte & 0x02 == 0,
            (9, Mode::Dpv1) => byte & 0x20 == 0 && byte & 0x40 == 0,
            _ => true,
        };
        for mode in sample::MODES {
            for place in 0..GOOD.len() {
                for byte in 0..=255 {
                    let mut bytes = GOOD;
                    bytes[place] = byte;
                    let outcome = (!is_right(place, byte, mode)).then_some(refusal::BITS);
                    assert_eq!(read(&bytes, mode).err(), outcome, "{bytes:02X?}");
                }
            }
        }
    }

    #[test]
    fn length_comes_first() {
        for (mode, shortest) in [(Mode::Dpv0, 7), (Mode::Dpv1, 10)] {
            for length in 0..300 {
                let right = (shortest..=244).contains(&length);
                let number = if right { 21 } else { 20 };
                assert_eq!(read(&vec![0xFF; length], mode), Err(number), "{length}");
            }
        }
    }

    #[test]
    fn written_as_read() {
        let random = &mut Random::new(1);
        for mode in sample::MODES {
            for bytes in sample::all_forms(random, mode) {
                let parameters = read(&bytes, mode).expect("valid");
                let start = bytes.len() - parameters.user.len();
                assert_eq!(start, sample::shortest(mode));
                assert!(std::ptr::eq(parameters.user, &bytes[start..]));
                expect::written(&bytes, |out| write(&parameters, out));
            }
        }
    }

    #[test]
    fn writing_refuses_what_reading_refuses() {
        let random = &mut Random::new(2);
        for mode in sample::MODES {
            for _ in 0..10_000 {
                let bytes = sample::damaged(random, mode);
                let Some(parameters) = split(&bytes, mode) else {
                    assert_eq!(read(&bytes, mode), Err(refusal::DATA_LENGTH));
                    continue;
                };
                match read(&bytes, mode) {
                    Ok(_) => expect::written(&bytes, |out| write(&parameters, out)),
                    Err(number) => expect::refused(number, |out| write(&parameters, out)),
                }
            }
        }
    }

    #[test]
    fn any_fields_are_read_back_or_left_unwritten() {
        let random = &mut Random::new(3);
        let lent = random.bytes(300);
        for mode in sample::MODES {
            for _ in 0..10_000 {
                let fields = sample::any_fields(random, mode, &lent);
                let mut out = [0; 300];
                match write(&fields, &mut out) {
                    Ok(length) => assert_eq!(read(&out[..length], mode), Ok(fields)),
                    Err(number) => expect::refused(number, |out| write(&fields, out)),
                }
            }
        }
    }
}

//! Telegrams: the classes of the function code, reading and writing.

use super::refusal;
use std::cmp::Ordering;
use std::ops::RangeInclusive;

/// Start byte of a frame without data.
pub const SD1: u8 = 0x10;
/// Start byte of a frame with 1..246 PDU bytes; it stands twice.
pub const SD2: u8 = 0x68;
/// Start byte of a frame with eight PDU bytes.
pub const SD3: u8 = 0xA2;
/// Start byte of a token.
pub const SD4: u8 = 0xDC;
/// The single byte of a short confirmation.
pub const SC: u8 = 0xE5;
/// End byte of every frame.
pub const ED: u8 = 0x16;

/// The bit of a call that alternates.
pub(super) const FCB: u8 = 0x20;
/// The bits of a function code that say what is asked for or answered.
pub(super) const FUNCTION: u8 = 0x0F;

/// Bit 7 of DA or SA: a SAP stands in the PDU.
const EXTENSION_FLAG: u8 = 0x80;
/// The highest address of a single station; a DA may also be 127, to all.
pub(super) const LAST_STATION: u8 = 126;
const BROADCAST: u8 = 127;
const LAST_SAP: u8 = 63;

/// DA, SA and FC.
const HEADER_LENGTH: usize = 3;
/// FCS and ED.
const TRAILER_LENGTH: usize = 2;
/// What LE may be: it counts DA through the last PDU byte, which FCS adds up.
const SD2_BODIES: RangeInclusive<usize> = 4..=249;
const SD3_BODY: usize = 11;
/// How many bytes of a checksum are added at once.
const CHUNK: usize = 64;

/// What a function code is, of the six classes of document 01.
#[derive(Clone, Copy, Debug, PartialEq, Eq)]
pub enum Class {
    /// A call that begins the alternation of FCB.
    Opening,
    /// A call whose FCB counts.
    Counted,
    /// A call without FCB.
    Uncounted,
    /// An answer without data.
    Bare,
    /// An answer with data.
    Data,
    /// No function code at all.
    Reserved,
}

/// The class of a function code.
pub const fn class(fc: u8) -> Class {
    CLASSES[fc as usize]
}

/// The rule worked out at compile time: reading asks it for every frame.
static CLASSES: [Class; 256] = {
    let mut table = [Class::Reserved; 256];
    let mut fc = 0;
    while fc < 256 {
        table[fc] = class_by_bits(fc as u8);
        fc += 1;
    }
    table
};

const fn class_by_bits(fc: u8) -> Class {
    match (fc & 0x80 != 0, fc & 0x40 != 0) {
        (false, true) => call_class(fc),
        (false, false) => answer_class(fc),
        // Bit 7 is set in the clock value alone.
        (true, _) if fc == 0xC0 => Class::Uncounted,
        (true, _) => Class::Reserved,
    }
}

const fn call_class(fc: u8) -> Class {
    let fcb = fc & FCB != 0;
    let fcv = fc & 0x10 != 0;
    match (fc & FUNCTION, fcv, fcb) {
        (3 | 5 | 7 | 12 | 13, false, true) => Class::Opening,
        (3 | 5 | 7 | 12 | 13, true, _) => Class::Counted,
        (0 | 4 | 6 | 9 | 14 | 15, false, false) => Class::Uncounted,
        _ => Class::Reserved,
    }
}

/// Bits 5 and 4 name the station type and leave the class alone.
const fn answer_class(fc: u8) -> Class {
    match fc & FUNCTION {
        0..=3 | 9 => Class::Bare,
        8 | 10 | 12 | 13 => Class::Data,
        _ => Class::Reserved,
    }
}

/// The three forms of a frame.
#[derive(Clone, Copy, Debug, PartialEq, Eq)]
pub enum Format {
    /// No PDU.
    Sd1,
    /// A PDU of 1..246 bytes, with its length.
    Sd2,
    /// A PDU of eight bytes.
    Sd3,
}

/// One telegram; its user data is borrowed.
#[derive(Clone, Copy, Debug, PartialEq, Eq)]
pub enum Telegram<'a> {
    /// SC.
    ShortConfirmation,
    /// SD4.
    Token {
        /// The station that gets the token.
        da: u8,
        /// The station that gives it.
        sa: u8,
    },
    /// SD1, SD2 or SD3.
    Frame {
        /// Which of the three.
        format: Format,
        /// Destination, the low seven bits.
        da: u8,
        /// Source, the low seven bits.
        sa: u8,
        /// Function code.
        fc: u8,
        /// Destination SAP; bit 7 of DA says whether there is one.
        dsap: Option<u8>,
        /// Source SAP; bit 7 of SA says whether there is one.
        ssap: Option<u8>,
        /// The PDU after the SAPs.
        user: &'a [u8],
    },
}

impl<'a> Telegram<'a> {
    /// The user data; empty for a telegram that cannot have any.
    pub fn user(&self) -> &'a [u8] {
        match *self {
            Telegram::Frame { user, .. } => user,
            Telegram::ShortConfirmation | Telegram::Token { .. } => &[],
        }
    }

    /// Where the user data stands in the telegram's bytes. An empty one stands
    /// at the FCS; a telegram that cannot have any answers 0.
    pub fn user_start(&self) -> usize {
        let Telegram::Frame {
            format, dsap, ssap, ..
        } = self
        else {
            return 0;
        };
        let pdu_start = match format {
            Format::Sd1 | Format::Sd3 => 1 + HEADER_LENGTH,
            Format::Sd2 => 4 + HEADER_LENGTH,
        };
        pdu_start + usize::from(dsap.is_some()) + usize::from(ssap.is_some())
    }
}

/// Reads the whole slice as one telegram, or answers its refusal number.
///
/// It is put into whoever calls it: handing the answer over in memory costs more than
/// most telegrams do.
#[inline(always)]
pub fn read(bytes: &[u8]) -> Result<Telegram<'_>, u8> {
    match *bytes {
        [] => Err(refusal::SHORT),
        [SD1, ..] => read_frame(Format::Sd1, &whole(bytes, 6)?[1..]),
        [SD2, le, ler, second, ..] => {
            let length = usize::from(le);
            if !SD2_BODIES.contains(&length) || le != ler || second != SD2 {
                return Err(refusal::LENGTH);
            }
            read_frame(Format::Sd2, &whole(bytes, length + 6)?[4..])
        }
        [SD2, ..] => Err(refusal::SHORT),
        [SD3, ..] => read_frame(Format::Sd3, &whole(bytes, 14)?[1..]),
        // A token has no flags: bit 7 of its bytes belongs to the address.
        [SD4, da, sa] if da.max(sa) <= LAST_STATION => Ok(Telegram::Token { da, sa }),
        [SD4, _, _] => Err(refusal::ADDRESS),
        [SD4, _, _, ..] => Err(refusal::TRAILING),
        [SD4, ..] => Err(refusal::SHORT),
        [SC] => Ok(Telegram::ShortConfirmation),
        [SC, ..] => Err(refusal::TRAILING),
        _ => Err(refusal::START),
    }
}

/// The bytes, when they are exactly as many as there must be.
pub(super) fn whole(bytes: &[u8], length: usize) -> Result<&[u8], u8> {
    match bytes.len().cmp(&length) {
        Ordering::Less => Err(refusal::SHORT),
        Ordering::Equal => Ok(bytes),
        Ordering::Greater => Err(refusal::TRAILING),
    }
}

/// Reads the frame that stands after its start bytes, from DA through ED.
#[inline]
fn read_frame(format: Format, frame: &[u8]) -> Result<Telegram<'_>, u8> {
    let [da, sa, fc, pdu @ .., fcs, end] = frame else {
        // No form is as short as this, but only its length says so.
        return Err(refusal::SHORT);
    };
    if *end != ED {
        return Err(refusal::END);
    }
    if checksum(&frame[..HEADER_LENGTH + pdu.len()]) != *fcs {
        return Err(refusal::CHECKSUM);
    }
    // Every DA is in range: its low seven bits reach 127 at most.
    if sa & !EXTENSION_FLAG > LAST_STATION {
        return Err(refusal::ADDRESS);
    }
    if class(*fc) == Class::Reserved {
        return Err(refusal::FUNCTION);
    }
    let (dsap, pdu) = read_sap(*da, pdu)?;
    let (ssap, user) = read_sap(*sa, pdu)?;
    Ok(Telegram::Frame {
        format,
        da: da & !EXTENSION_FLAG,
        sa: sa & !EXTENSION_FLAG,
        fc: *fc,
        dsap,
        ssap,
        user,
    })
}

/// The SAP that an address byte announces, and the PDU after it.
fn read_sap(address: u8, pdu: &[u8]) -> Result<(Option<u8>, &[u8]), u8> {
    if address & EXTENSION_FLAG == 0 {
        return Ok((None, pdu));
    }
    match pdu {
        [sap, rest @ ..] if *sap <= LAST_SAP => Ok((Some(*sap), rest)),
        _ => Err(refusal::EXTENSION),
    }
}

/// The sum modulo 256 of the bytes. The compiler adds a whole chunk at once; most
/// telegrams are short, and have less than one.
#[inline]
fn checksum(bytes: &[u8]) -> u8 {
    if bytes.len() < CHUNK {
        return checksum_of_few(bytes);
    }
    let (chunks, rest) = bytes.as_chunks();
    let sum_of = |chunk: &[u8; CHUNK]| -> u32 { chunk.iter().map(|byte| u32::from(*byte)).sum() };
    let sum: u32 = chunks.iter().map(sum_of).sum();
    (sum as u8).wrapping_add(checksum_of_few(rest))
}

/// The sum modulo 256 of less than a chunk, added eight bytes at a time. The bytes
/// left over are taken from the last eight, with those already counted shifted out.
fn checksum_of_few(bytes: &[u8]) -> u8 {
    let Some(last) = bytes.last_chunk() else {
        return bytes.iter().fold(0, |sum, byte| sum.wrapping_add(*byte));
    };
    let (words, rest) = bytes.as_chunks();
    let rest = u64::from_le_bytes(*last)
        .checked_shr(64 - 8 * rest.len() as u32)
        .unwrap_or(0);
    let lanes = words.iter().fold(add_pairs(rest), |lanes, word| {
        lanes + add_pairs(u64::from_le_bytes(*word))
    });
    // The product's highest lane is the sum of all four.
    (lanes.wrapping_mul(0x0001_0001_0001_0001) >> 48) as u8
}

/// The eight bytes of a word, added in pairs into four lanes of 16 bits.
fn add_pairs(word: u64) -> u64 {
    const EVEN_BYTES: u64 = 0x00FF_00FF_00FF_00FF;
    (word & EVEN_BYTES) + ((word >> 8) & EVEN_BYTES)
}

/// Writes a telegram to the front of `out` and answers its length, or answers
/// the refusal number and stores nothing.
pub fn write(telegram: &Telegram<'_>, out: &mut [u8]) -> Result<usize, u8> {
    match *telegram {
        Telegram::ShortConfirmation => store([SC], out),
        Telegram::Token { da, sa } if da.max(sa) > LAST_STATION => Err(refusal::FIELD),
        Telegram::Token { da, sa } => store([SD4, da, sa], out),
        Telegram::Frame {
            format,
            da,
            sa,
            fc,
            dsap,
            ssap,
            user,
        } => {
            // No SAP compares as less than any SAP.
            if da > BROADCAST
                || sa > LAST_STATION
                || class(fc) == Class::Reserved
                || dsap.max(ssap) > Some(LAST_SAP)
            {
                return Err(refusal::FIELD);
            }
            write_frame(format, Head::new(da, sa, fc, dsap, ssap), user, out)
        }
    }
}

/// What stands between the start bytes and the user data.
struct Head {
    /// DA, SA, FC and the SAPs there are; the places of the others hold 0, which
    /// leaves the checksum as it is.
    bytes: [u8; HEADER_LENGTH + 2],
    /// How many of the bytes belong to the telegram.
    length: usize,
}

impl Head {
    fn new(da: u8, sa: u8, fc: u8, dsap: Option<u8>, ssap: Option<u8>) -> Self {
        let da_flag = dsap.map_or(0, |_| EXTENSION_FLAG);
        let sa_flag = ssap.map_or(0, |_| EXTENSION_FLAG);
        let (first, second, saps) = match (dsap, ssap) {
            (Some(dsap), Some(ssap)) => (dsap, ssap, 2),
            (Some(sap), None) | (None, Some(sap)) => (sap, 0, 1),
            (None, None) => (0, 0, 0),
        };
        Head {
            bytes: [da | da_flag, sa | sa_flag, fc, first, second],
            length: HEADER_LENGTH + saps,
        }
    }
}

/// Writes a frame whose head is right, when its length is right too.
fn write_frame(format: Format, head: Head, user: &[u8], out: &mut [u8]) -> Result<usize, u8> {
    let [da, sa, fc, first, second] = head.bytes;
    let length = head.length + user.len();
    match format {
        Format::Sd1 if length == HEADER_LENGTH => {
            store([SD1, da, sa, fc, checksum(&head.bytes), ED], out)
        }
        Format::Sd2 if SD2_BODIES.contains(&length) => {
            let le = length as u8;
            let front = [SD2, le, le, SD2, da, sa, fc, first, second];
            store_frame(front, 4, head, user, out)
        }
        Format::Sd3 if length == SD3_BODY => {
            store_frame([SD3, da, sa, fc, first, second], 1, head, user, out)
        }
        _ => Err(refusal::FIELD),
    }
}

/// Stores a frame with a PDU: `start_length` start bytes, then the head.
///
/// `front` is both with the places of absent SAPs, so that its length is fixed.
/// It never reaches past the telegram, and the bytes after it hide such places.
fn store_frame<const N: usize>(
    front: [u8; N],
    start_length: usize,
    head: Head,
    user: &[u8],
    out: &mut [u8],
) -> Result<usize, u8> {
    let user_start = start_length + head.length;
    let user_end = user_start + user.len();
    let total = user_end + TRAILER_LENGTH;
    let out = out.get_mut(..total).ok_or(refusal::OUTPUT)?;
    out[..N].copy_from_slice(&front);
    out[user_start..user_end].copy_from_slice(user);
    let fcs = checksum(&head.bytes).wrapping_add(checksum(user));
    out[user_end..].copy_from_slice(&[fcs, ED]);
    Ok(total)
}

/// A frame but for its user data; the SAPs are both there or neither.
pub(super) struct Around {
    pub(super) format: Format,
    pub(super) da: u8,
    pub(super) sa: u8,
    pub(super) fc: u8,
    pub(super) saps: Option<[u8; 2]>,
    /// How many bytes of user data there are.
    pub(super) length: usize,
}

impl Around {
    /// Writes the frame, which the caller has judged right, to the front of `out`.
    /// `put` stores the user data in their place or refuses, and its refusal comes
    /// before that of too small an output.
    pub(super) fn write(
        &self,
        out: &mut [u8],
        put: impl Fn(&mut [u8]) -> Result<usize, u8>,
    ) -> Result<usize, u8> {
        // The header hides the start bytes that a format does not have.
        let (start, start_length) = match self.format {
            Format::Sd1 => ([SD1; 4], 1),
            Format::Sd2 => {
                let le = self.body_length() as u8;
                ([SD2, le, le, SD2], 4)
            }
            Format::Sd3 => ([SD3; 4], 1),
        };
        let user_end = start_length + self.body_length();
        let total = user_end + TRAILER_LENGTH;
        let Some(out) = out.get_mut(..total) else {
            put(&mut [0; *SD2_BODIES.end()][..self.length])?;
            return Err(refusal::OUTPUT);
        };
        put(&mut out[user_end - self.length..user_end])?;
        let flag = self.saps.map_or(0, |_| EXTENSION_FLAG);
        let header = [self.da | flag, self.sa | flag, self.fc];
        out[..4].copy_from_slice(&start);
        out[start_length..][..HEADER_LENGTH].copy_from_slice(&header);
        if let Some(saps) = self.saps {
            out[start_length + HEADER_LENGTH..][..2].copy_from_slice(&saps);
        }
        let fcs = checksum(&out[start_length..user_end]);
        out[user_end..].copy_from_slice(&[fcs, ED]);
        Ok(total)
    }

    /// How many bytes there are from DA through the user data.
    fn body_length(&self) -> usize {
        HEADER_LENGTH + self.saps.map_or(0, |saps| saps.len()) + self.length
    }
}

/// Stores a telegram of fixed length.
fn store<const N: usize>(bytes: [u8; N], out: &mut [u8]) -> Result<usize, u8> {
    *out.first_chunk_mut().ok_or(refusal::OUTPUT)? = bytes;
    Ok(N)
}

#[cfg(test)]
mod tests {
    use super::*;
    use crate::random::Random;
    use crate::samples;

    /// What stands in the output before a write.
    const UNTOUCHED: [u8; 300] = [0xAA; 300];

    /// An SD2 with both SAPs and five bytes of user data.
    const GOOD: Telegram<'static> = Telegram::Frame {
        format: Format::Sd2,
        da: 7,
        sa: 2,
        fc: 0x5C,
        dsap: Some(51),
        ssap: Some(51),
        user: &[0x5F, 1, 7, 1, 9],
    };

    #[test]
    fn class_totals() {
        let total = |wanted| (0..=255).filter(|fc| class(*fc) == wanted).count();
        let classes = [
            Class::Opening,
            Class::Counted,
            Class::Uncounted,
            Class::Bare,
            Class::Data,
            Class::Reserved,
        ];
        assert_eq!(classes.map(total), [5, 10, 7, 20, 16, 198]);
    }

    #[test]
    fn class_of_every_written_out_code() {
        let codes = samples::FUNCTION_CODES;
        for (range, expected) in [
            (0..5, Class::Opening),
            (5..15, Class::Counted),
            (15..22, Class::Uncounted),
            (22..42, Class::Bare),
            (42..58, Class::Data),
        ] {
            for fc in &codes[range] {
                assert_eq!(class(*fc), expected, "{fc:02X}");
            }
        }
    }

    #[test]
    fn reserved_codes_are_refused_both_ways() {
        let random = &mut Random::new(1);
        for fc in 0..=255 {
            let bytes = samples::sd1_with_fc(random, fc);
            let fields = Telegram::Frame {
                format: Format::Sd1,
                da: 7,
                sa: 2,
                fc,
                dsap: None,
                ssap: None,
                user: &[],
            };
            let written = write(&fields, &mut [0; 6]);
            if class(fc) == Class::Reserved {
                assert_eq!(read(&bytes), Err(refusal::FUNCTION), "{fc:02X}");
                assert_eq!(written, Err(refusal::FIELD), "{fc:02X}");
            } else {
                assert!(read(&bytes).is_ok(), "{fc:02X}");
                assert_eq!(written, Ok(6), "{fc:02X}");
            }
        }
    }

    #[test]
    fn worked_rows() {
        let fdl_status = Telegram::Frame {
            format: Format::Sd1,
            da: 7,
            sa: 2,
            fc: 0x49,
            dsap: None,
            ssap: None,
            user: &[],
        };
        let outcomes = [
            Ok(Telegram::ShortConfirmation),
            Ok(Telegram::Token { da: 2, sa: 2 }),
            Ok(fdl_status),
            Err(6),
            Err(5),
            Err(1),
            Err(1),
            Err(3),
            Err(7),
            Err(9),
        ];
        assert_eq!(samples::worked_rows().len(), outcomes.len());
        for ((name, bytes), outcome) in samples::worked_rows().iter().zip(outcomes) {
            assert_eq!(read(bytes), outcome, "{name}");
        }
        assert!(read(&samples::largest()).is_ok());
        assert_eq!(read(&samples::largest_with_le_250()), Err(3));
        assert_eq!(read(&samples::one_longer_than_largest()), Err(3));
    }

    #[test]
    fn user_data_is_lent_from_its_start() {
        for bytes in samples::all_forms(&mut Random::new(2)) {
            let telegram = read(&bytes).expect("valid");
            if let Telegram::Frame { user, .. } = telegram {
                let start = telegram.user_start();
                let expected = &bytes[start..bytes.len() - TRAILER_LENGTH];
                assert!(std::ptr::eq(user, expected), "{bytes:02X?}");
            } else {
                assert_eq!(telegram.user_start(), 0);
            }
        }
    }

    #[test]
    fn flags_say_which_saps_there_are() {
        let random = &mut Random::new(3);
        for saps in samples::Saps::ALL {
            let bytes = samples::sd3(random, saps);
            let Ok(Telegram::Frame {
                dsap, ssap, user, ..
            }) = read(&bytes)
            else {
                panic!("refused {bytes:02X?}");
            };
            let mut expected = bytes[4..].iter().copied();
            assert_eq!(dsap, saps.dsap.then(|| expected.next().unwrap()));
            assert_eq!(ssap, saps.ssap.then(|| expected.next().unwrap()));
            assert_eq!(user.len(), 8 - saps.count());
        }
    }

    /// Adds the faults of a frame in the reverse of document 01's order: each
    /// must hide those before it.
    fn expect_each_fault_to_hide_the_later_ones(mut frame: Vec<u8>, da: usize) {
        let last = frame.len() - 1;
        frame[da] |= EXTENSION_FLAG;
        if frame.len() > 6 {
            frame[da + 3] = LAST_SAP + 1;
        }
        samples::mend(&mut frame);
        assert_eq!(read(&frame), Err(refusal::EXTENSION));
        frame[da + 2] = 0x41;
        samples::mend(&mut frame);
        assert_eq!(read(&frame), Err(refusal::FUNCTION));
        frame[da + 1] = 0xFF;
        samples::mend(&mut frame);
        assert_eq!(read(&frame), Err(refusal::ADDRESS));
        frame[last - 1] ^= 1;
        assert_eq!(read(&frame), Err(refusal::CHECKSUM));
        frame[last] = 0;
        assert_eq!(read(&frame), Err(refusal::END));
        frame.push(ED);
        assert_eq!(read(&frame), Err(refusal::TRAILING));
        frame.truncate(last);
        assert_eq!(read(&frame), Err(refusal::SHORT));
        frame[0] = 0;
        assert_eq!(read(&frame), Err(refusal::START));
    }

    #[test]
    fn faults_in_order() {
        let random = &mut Random::new(4);
        for saps in samples::Saps::ALL {
            expect_each_fault_to_hide_the_later_ones(samples::sd1(random), 1);
            expect_each_fault_to_hide_the_later_ones(samples::sd2(random, 9, saps), 4);
            expect_each_fault_to_hide_the_later_ones(samples::sd3(random, saps), 1);
        }
    }

    #[test]
    fn sd2_length_bytes_before_the_length() {
        for (bytes, outcome) in [
            (&[SD2][..], refusal::SHORT),
            (&[SD2, 3, 9, 0], refusal::LENGTH),
            (&[SD2, 3, 9], refusal::SHORT),
            (&[SD2, 3, 3, SD2, 0, 0, 0, 0, ED, 0], refusal::LENGTH),
            (&[SD2, 250, 250, SD2], refusal::LENGTH),
            (&[SD2, 9, 8, SD2], refusal::LENGTH),
            (&[SD2, 9, 9, SD1], refusal::LENGTH),
            (&[SD2, 9, 9, SD2], refusal::SHORT),
            (&[SD2, 4, 4, SD2, 0, 0, 0, 0, 0, ED, 0], refusal::TRAILING),
        ] {
            assert_eq!(read(bytes), Err(outcome), "{bytes:02X?}");
        }
    }

    #[test]
    fn token_and_short_confirmation_outcomes() {
        for (bytes, outcome) in [
            (&[SD4][..], Err(refusal::SHORT)),
            (&[SD4, 255], Err(refusal::SHORT)),
            (&[SD4, 126, 0], Ok(Telegram::Token { da: 126, sa: 0 })),
            (&[SD4, 127, 0], Err(refusal::ADDRESS)),
            (&[SD4, 0, 127], Err(refusal::ADDRESS)),
            (&[SD4, 0x82, 2], Err(refusal::ADDRESS)),
            (&[SD4, 2, 0x82], Err(refusal::ADDRESS)),
            (&[SD4, 255, 255, 0], Err(refusal::TRAILING)),
            (&[SC, SC], Err(refusal::TRAILING)),
        ] {
            assert_eq!(read(bytes), outcome, "{bytes:02X?}");
        }
    }

    #[test]
    fn written_as_read() {
        for bytes in samples::all_forms(&mut Random::new(5)) {
            let telegram = read(&bytes).expect("valid");
            let mut out = UNTOUCHED;
            assert_eq!(write(&telegram, &mut out), Ok(bytes.len()));
            let (front, rest) = out.split_at(bytes.len());
            assert_eq!(front, bytes);
            assert_eq!(rest, &UNTOUCHED[bytes.len()..]);

            let mut exact = vec![0xAA; bytes.len()];
            assert_eq!(write(&telegram, &mut exact), Ok(bytes.len()));
            assert_eq!(exact, bytes);
        }
    }

    #[test]
    fn too_small_an_output_is_left_alone() {
        for bytes in samples::all_forms(&mut Random::new(6)) {
            let telegram = read(&bytes).expect("valid");
            for length in [0, bytes.len() / 2, bytes.len() - 1] {
                let mut out = UNTOUCHED;
                let written = write(&telegram, &mut out[..length]);
                assert_eq!(written, Err(refusal::OUTPUT), "{bytes:02X?}");
                assert_eq!(out, UNTOUCHED, "{bytes:02X?}");
            }
        }
    }

    #[test]
    fn any_fields_are_read_back_or_left_unwritten() {
        let random = &mut Random::new(7);
        let lent = random.bytes(300);
        for _ in 0..50_000 {
            let telegram = samples::any_fields(random, &lent);
            let mut out = UNTOUCHED;
            match write(&telegram, &mut out) {
                Ok(length) => assert_eq!(read(&out[..length]), Ok(telegram)),
                Err(number) => {
                    assert_eq!(number, refusal::FIELD, "{telegram:?}");
                    assert_eq!(out, UNTOUCHED, "{telegram:?}");
                    // A bad field comes before too small an output.
                    assert_eq!(write(&telegram, &mut []), Err(refusal::FIELD));
                }
            }
        }
    }

    /// The good telegram with some of its fields changed.
    macro_rules! frame {
        ($($field:ident: $value:expr),*) => {{
            let mut telegram = GOOD;
            let Telegram::Frame { $($field),*, .. } = &mut telegram else {
                unreachable!()
            };
            $(*$field = $value;)*
            telegram
        }};
    }

    #[test]
    fn fields_at_their_limits_are_written() {
        let bytes = [0; 300];
        for telegram in [
            GOOD,
            Telegram::Token { da: 126, sa: 126 },
            frame!(da: 127, sa: 126),
            frame!(dsap: Some(63), ssap: Some(63)),
            frame!(dsap: Some(0), ssap: None, user: &[]),
            frame!(dsap: None, ssap: None, user: &bytes[..1]),
            frame!(dsap: None, ssap: None, user: &bytes[..246]),
            frame!(dsap: None, user: &bytes[..245]),
            frame!(user: &bytes[..244]),
            // The class of the function code is not tied to the format.
            frame!(fc: 0x00),
            frame!(format: Format::Sd3, user: &bytes[..6]),
            frame!(format: Format::Sd3, ssap: None, user: &bytes[..7]),
            frame!(format: Format::Sd3, dsap: None, ssap: None, user: &bytes[..8]),
            frame!(format: Format::Sd1, dsap: None, ssap: None, user: &[]),
        ] {
            let mut out = UNTOUCHED;
            let length = write(&telegram, &mut out).expect("written");
            assert_eq!(read(&out[..length]), Ok(telegram));
        }
    }

    #[test]
    fn fields_past_their_limits_are_refused() {
        let bytes = [0; 300];
        for telegram in [
            Telegram::Token { da: 127, sa: 0 },
            Telegram::Token { da: 0, sa: 127 },
            frame!(da: 128),
            frame!(sa: 127),
            frame!(fc: 0x4C),
            frame!(dsap: Some(64)),
            frame!(ssap: Some(64)),
            frame!(dsap: None, ssap: None, user: &[]),
            frame!(dsap: None, ssap: None, user: &bytes[..247]),
            frame!(dsap: None, user: &bytes[..246]),
            frame!(user: &bytes[..245]),
            frame!(user: &bytes),
            frame!(format: Format::Sd3, user: &bytes[..5]),
            frame!(format: Format::Sd3, user: &bytes[..7]),
            frame!(format: Format::Sd3, dsap: None, ssap: None, user: &bytes[..9]),
            frame!(format: Format::Sd1, user: &[]),
            frame!(format: Format::Sd1, dsap: None, user: &[]),
            frame!(format: Format::Sd1, dsap: None, ssap: None, user: &bytes[..1]),
        ] {
            let mut out = UNTOUCHED;
            assert_eq!(
                write(&telegram, &mut out),
                Err(refusal::FIELD),
                "{telegram:?}"
            );
            assert_eq!(out, UNTOUCHED, "{telegram:?}");
        }
    }

    #[test]
    fn no_changed_byte_is_accepted() {
        let random = &mut Random::new(8);
        let mut telegrams = vec![samples::short_confirmation(), samples::largest()];
        telegrams.extend((0..100).map(|_| samples::any_frame(random)));
        for telegram in telegrams {
            assert!(read(&telegram).is_ok(), "{telegram:02X?}");
            for place in 0..telegram.len() {
                let mut changed = telegram.clone();
                for offset in 1..=255 {
                    changed[place] = telegram[place].wrapping_add(offset);
                    assert!(read(&changed).is_err(), "{changed:02X?}");
                }
            }
        }
    }

    #[test]
    fn checksum_of_every_length() {
        let random = &mut Random::new(9);
        for length in 0..=*SD2_BODIES.end() {
            for bytes in [random.bytes(length), vec![0xFF; length]] {
                let sum: usize = bytes.iter().map(|byte| usize::from(*byte)).sum();
                assert_eq!(usize::from(checksum(&bytes)), sum % 256, "{bytes:02X?}");
            }
        }
    }
}

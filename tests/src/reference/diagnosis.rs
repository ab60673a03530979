//! The answer to Slave_Diag: a header of six bytes and the blocks after it.

use super::{refusal, store, LONGEST_DATA};
use std::ops::RangeInclusive;

/// The bytes before the blocks.
pub const HEADER_LENGTH: usize = 6;

/// Bits 7-6 of a block's header: device, module and channel; 11 is reserved.
const DEVICE: u8 = 0x00;
const MODULE: u8 = 0x40;
const CHANNEL: u8 = 0x80;
/// The other bits of a block's header: its length, or the module of a channel.
const LOW_SIX: u8 = 0x3F;
/// What the length of a device or module block may be, its header included.
const COUNTED_LENGTHS: RangeInclusive<usize> = 2..=63;

/// What stands before the blocks.
#[derive(Clone, Copy, Debug, PartialEq, Eq)]
pub struct Header {
    /// Station status 1; its bit 3 is Ext_Diag.
    pub status1: u8,
    /// Station status 2.
    pub status2: u8,
    /// Station status 3.
    pub status3: u8,
    /// The master that parameterized the slave, or 255 for none.
    pub master: u8,
    /// The ident number.
    pub ident: u16,
}

impl Header {
    /// The fields of the bytes, right or wrong.
    pub fn from_bytes(bytes: [u8; HEADER_LENGTH]) -> Self {
        let [status1, status2, status3, master, high, low] = bytes;
        Header {
            status1,
            status2,
            status3,
            master,
            ident: u16::from_be_bytes([high, low]),
        }
    }

    /// The bytes of the fields, right or wrong.
    pub fn to_bytes(self) -> [u8; HEADER_LENGTH] {
        let [high, low] = self.ident.to_be_bytes();
        let [first, second, third] = [self.status1, self.status2, self.status3];
        [first, second, third, self.master, high, low]
    }

    fn has_ext_diag(self) -> bool {
        self.status1 & 0x08 != 0
    }

    /// Refuses a wrong byte; which one it is does not change the number.
    fn judge(self) -> Result<(), u8> {
        let is_right = self.status1 & 0b1010_0001 == 0
            && self.status2 & 0b1100_0100 == 0b0000_0100
            && self.status3 & 0b0111_1111 == 0
            && matches!(self.master, 0..=125 | 255);
        is_right.then_some(()).ok_or(refusal::BITS)
    }
}

/// One block; its bytes are borrowed.
#[derive(Clone, Copy, Debug, PartialEq, Eq)]
pub enum Block<'a> {
    /// What the device itself reports: the bytes after the header.
    Device(&'a [u8]),
    /// Which modules report something.
    Module(ModuleMap<'a>),
    /// What is wrong with one channel.
    Channel(Channel),
}

/// A bit for each module, set when it reports something; module 0 is bit 0 of
/// the first byte.
///
/// Its two answers are worked out when asked for: reading only counts blocks.
#[derive(Clone, Copy, Debug, PartialEq, Eq)]
pub struct ModuleMap<'a>(pub &'a [u8]);

impl ModuleMap<'_> {
    /// How many modules report.
    pub fn reporting(self) -> u32 {
        self.0.iter().map(|byte| byte.count_ones()).sum()
    }

    /// The lowest module that reports, unless none does.
    pub fn lowest(self) -> Option<u32> {
        let modules_before = (0..).step_by(8);
        let mut reporting = self.0.iter().zip(modules_before);
        let (byte, before) = reporting.find(|(byte, _)| **byte != 0)?;
        Some(before + byte.trailing_zeros())
    }
}

/// The fields of a channel block, in its order.
#[derive(Clone, Copy, Debug, PartialEq, Eq)]
pub struct Channel {
    /// The module that the channel belongs to, 0..=63.
    pub module: u8,
    /// 1 input, 2 output, 3 both.
    pub direction: u8,
    /// The channel of the module, 0..=63.
    pub channel: u8,
    /// The channel's type, 1..=6.
    pub kind: u8,
    /// The error, 1..=9 or 16..=31.
    pub error: u8,
}

impl Channel {
    /// The fields of the bytes: all fit, but codes may be reserved.
    fn from_bytes([first, second, third]: [u8; 3]) -> Self {
        Channel {
            module: first & LOW_SIX,
            direction: second >> 6,
            channel: second & LOW_SIX,
            kind: third >> 5,
            error: third & 0x1F,
        }
    }

    /// The bytes of fields that fit.
    fn to_bytes(self) -> [u8; 3] {
        [
            CHANNEL | self.module,
            self.direction << 6 | self.channel,
            self.kind << 5 | self.error,
        ]
    }

    /// Byte by byte. Fields that do not fit cannot make a byte, so they come
    /// before the codes of the same byte.
    fn judge(self) -> Result<(), u8> {
        let has_kind = matches!(self.kind, 1..=6);
        let has_error = matches!(self.error, 1..=9 | 16..=31);
        judge_fit(self.module, 6)?;
        judge_fit(self.direction, 2)?;
        judge_fit(self.channel, 6)?;
        judge_code(self.direction != 0)?;
        judge_fit(self.kind, 3)?;
        judge_fit(self.error, 5)?;
        judge_code(has_kind && has_error)
    }
}

fn judge_fit(field: u8, bits: u32) -> Result<(), u8> {
    if field >> bits != 0 {
        return Err(refusal::BITS);
    }
    Ok(())
}

fn judge_code(has_meaning: bool) -> Result<(), u8> {
    if !has_meaning {
        return Err(refusal::CHANNEL_CODE);
    }
    Ok(())
}

/// Reads a diagnosis and answers its header and how many blocks it has, or its
/// refusal number.
pub fn read(bytes: &[u8]) -> Result<(Header, usize), u8> {
    let (header, blocks) = bytes.split_first_chunk().ok_or(refusal::DATA_LENGTH)?;
    let header = Header::from_bytes(*header);
    let count = judge(header, blocks)?;
    Ok((header, count))
}

/// How many blocks there are, when they and the header are a right diagnosis.
fn judge(header: Header, blocks: &[u8]) -> Result<usize, u8> {
    if blocks.len() > LONGEST_DATA - HEADER_LENGTH {
        return Err(refusal::DATA_LENGTH);
    }
    header.judge()?;
    let mut count = 0;
    let mut rest = blocks;
    while let Some((first, after)) = rest.split_first() {
        rest = after_block(*first, after)?;
        count += 1;
    }
    if header.has_ext_diag() != (count > 0) {
        return Err(refusal::EXT_DIAG);
    }
    Ok(count)
}

/// The block at a position and the position after it, or nothing at the end of
/// the bytes. This block alone is judged.
pub fn walk(bytes: &[u8], position: usize) -> Result<Option<(Block<'_>, usize)>, u8> {
    if position < HEADER_LENGTH {
        return Err(refusal::FIELD);
    }
    let rest = bytes.get(position..).ok_or(refusal::FIELD)?;
    let Some((first, after)) = rest.split_first() else {
        return Ok(None);
    };
    let (block, rest) = split_block(*first, after)?;
    Ok(Some((block, bytes.len() - rest.len())))
}

/// The block that begins with a header, and what stands after it.
fn split_block(header: u8, after: &[u8]) -> Result<(Block<'_>, &[u8]), u8> {
    match header & !LOW_SIX {
        DEVICE => {
            let (data, rest) = split_counted(header, after)?;
            Ok((Block::Device(data), rest))
        }
        MODULE => {
            let (map, rest) = split_counted(header, after)?;
            Ok((Block::Module(ModuleMap(map)), rest))
        }
        CHANNEL => {
            let (codes, rest) = after.split_first_chunk().ok_or(refusal::PAST_END)?;
            let [second, third] = *codes;
            let channel = Channel::from_bytes([header, second, third]);
            channel.judge()?;
            Ok((Block::Channel(channel), rest))
        }
        _ => Err(refusal::BLOCK_HEADER),
    }
}

/// What stands after the block that begins with a header.
///
/// Device and module are one case here: which of them comes next cannot be told
/// before, and each case costs a branch.
fn after_block(header: u8, after: &[u8]) -> Result<&[u8], u8> {
    if header & CHANNEL == 0 {
        let (_, rest) = split_counted(header, after)?;
        return Ok(rest);
    }
    let (_, rest) = split_block(header, after)?;
    Ok(rest)
}

/// Splits after a block whose header counts its bytes.
fn split_counted(header: u8, after: &[u8]) -> Result<(&[u8], &[u8]), u8> {
    let length = usize::from(header & LOW_SIX);
    if !COUNTED_LENGTHS.contains(&length) {
        return Err(refusal::BLOCK_HEADER);
    }
    after.split_at_checked(length - 1).ok_or(refusal::PAST_END)
}

/// Writes a device block around its data to the front of `out` and answers its
/// length, or answers the refusal number and stores nothing.
pub fn write_device(data: &[u8], out: &mut [u8]) -> Result<usize, u8> {
    write_counted(DEVICE, data, out)
}

/// Writes a module block around its map, as `write_device` does.
pub fn write_module(map: &[u8], out: &mut [u8]) -> Result<usize, u8> {
    write_counted(MODULE, map, out)
}

fn write_counted(kind: u8, data: &[u8], out: &mut [u8]) -> Result<usize, u8> {
    let length = 1 + data.len();
    if length < *COUNTED_LENGTHS.start() {
        return Err(refusal::BLOCK_HEADER);
    }
    // More does not fit the bits that count it.
    if length > *COUNTED_LENGTHS.end() {
        return Err(refusal::BITS);
    }
    store([&[kind | length as u8], data], out)
}

/// Writes a channel block, as `write_device` does.
pub fn write_channel(channel: &Channel, out: &mut [u8]) -> Result<usize, u8> {
    channel.judge()?;
    store([&channel.to_bytes()], out)
}

/// Writes a diagnosis from its header and the bytes of its blocks, as
/// `write_device` does; it refuses what reading would refuse.
pub fn write(header: &Header, blocks: &[u8], out: &mut [u8]) -> Result<usize, u8> {
    judge(*header, blocks)?;
    store([&header.to_bytes(), blocks], out)
}

#[cfg(test)]
mod tests {
    use super::*;
    use crate::random::Random;
    use crate::reference::expect;
    use crate::samples::{self, diagnosis as sample};

    const GOOD: Channel = Channel {
        module: 2,
        direction: 1,
        channel: 3,
        kind: 1,
        error: 6,
    };

    /// The header and the blocks of bytes that have both.
    fn split(bytes: &[u8]) -> Option<(Header, &[u8])> {
        let (header, blocks) = bytes.split_first_chunk()?;
        Some((Header::from_bytes(*header), blocks))
    }

    #[test]
    fn worked_row() {
        let bytes = sample::WORKED_ROW;
        let header = Header {
            status1: 0x08,
            status2: 0x0C,
            status3: 0x00,
            master: 2,
            ident: 0x1234,
        };
        assert_eq!(read(&bytes), Ok((header, 1)));
        assert_eq!(walk(&bytes, 6), Ok(Some((Block::Channel(GOOD), 9))));
        expect::written(&bytes[6..], |out| write_channel(&GOOD, out));
        expect::written(&bytes, |out| write(&header, &bytes[6..], out));
    }

    #[test]
    fn walk_stays_between_the_header_and_the_end() {
        let bytes = sample::WORKED_ROW;
        assert_eq!(walk(&bytes, 9), Ok(None));
        for position in (0..6).chain([10, 244, usize::MAX]) {
            assert_eq!(walk(&bytes, position), Err(refusal::FIELD), "{position}");
        }
        for length in 0..6 {
            assert_eq!(walk(&bytes[..length], length), Err(refusal::FIELD));
        }
        assert_eq!(walk(&bytes[..6], 6), Ok(None));
    }

    /// Writes each block again and puts them together.
    fn rewritten(bytes: &[u8]) -> Vec<u8> {
        let mut blocks = Vec::new();
        let mut position = HEADER_LENGTH;
        while let Some((block, next)) = walk(bytes, position).expect("valid") {
            let own = &bytes[position..next];
            expect::written(own, |out| match block {
                Block::Device(data) => write_device(data, out),
                Block::Module(map) => write_module(map.0, out),
                Block::Channel(channel) => write_channel(&channel, out),
            });
            blocks.extend(own);
            position = next;
        }
        blocks
    }

    #[test]
    fn written_as_read() {
        for bytes in sample::all_forms(&mut Random::new(1)) {
            let (header, _) = read(&bytes).expect("valid");
            let blocks = rewritten(&bytes);
            expect::written(&bytes, |out| write(&header, &blocks, out));
        }
    }

    #[test]
    fn each_kind_of_block_is_what_its_bytes_say() {
        for (block, expected) in [
            (&[0x02, 0xFF][..], Block::Device(&[0xFF])),
            (&[0x43, 0x00, 0x81], Block::Module(ModuleMap(&[0x00, 0x81]))),
            (
                &[0xBF, 0xC0, 0xD0],
                Block::Channel(Channel {
                    module: 63,
                    direction: 3,
                    channel: 0,
                    kind: 6,
                    error: 16,
                }),
            ),
            (
                &[0x80, 0xBF, 0x29],
                Block::Channel(Channel {
                    module: 0,
                    direction: 2,
                    channel: 63,
                    kind: 1,
                    error: 9,
                }),
            ),
        ] {
            let bytes = [&[0; HEADER_LENGTH], block].concat();
            assert_eq!(walk(&bytes, 6), Ok(Some((expected, bytes.len()))));
        }
    }

    #[test]
    fn module_maps_answer_their_bits() {
        let mut map = [0; 62];
        assert_eq!(ModuleMap(&map).reporting(), 0);
        assert_eq!(ModuleMap(&map).lowest(), None);
        // From the highest down: each one set is the lowest then.
        for (count, module) in (1..).zip((0..496).rev()) {
            map[module / 8] |= 1 << (module % 8);
            assert_eq!(ModuleMap(&map).reporting(), count);
            assert_eq!(ModuleMap(&map).lowest(), Some(module as u32));
        }
    }

    #[test]
    fn every_header_byte() {
        let is_right = |place: usize, byte: u8| match place {
            0 => byte & 0x01 == 0 && byte & 0x20 == 0 && byte & 0x80 == 0,
            1 => byte & 0x04 != 0 && byte & 0x40 == 0 && byte & 0x80 == 0,
            2 => byte == 0 || byte == 0x80,
            3 => byte < 126 || byte == 255,
            _ => true,
        };
        for place in 0..HEADER_LENGTH {
            for byte in 0..=255 {
                let mut bytes = sample::WORKED_ROW;
                bytes[place] = byte;
                let outcome = match (is_right(place, byte), bytes[0] & 0x08 != 0) {
                    (false, _) => Some(refusal::BITS),
                    (true, false) => Some(refusal::EXT_DIAG),
                    (true, true) => None,
                };
                assert_eq!(read(&bytes).err(), outcome, "{bytes:02X?}");
            }
        }
    }

    #[test]
    fn every_block_header_with_every_number_of_bytes_after_it() {
        for (header, count) in (0..=255).flat_map(|header| (0..64).map(move |n| (header, n))) {
            let mut bytes = vec![0; HEADER_LENGTH];
            bytes.push(header);
            // Right codes, should the block be a channel's.
            bytes.extend(vec![0x41; count]);
            let length = match header {
                0x00..0x40 => usize::from(header),
                0x40..0x80 => usize::from(header) - 0x40,
                0x80..0xC0 => 3,
                0xC0.. => 0,
            };
            let outcome = match walk(&bytes, HEADER_LENGTH) {
                Ok(block) => Ok(block.expect("a block").1 - HEADER_LENGTH),
                Err(number) => Err(number),
            };
            let expected = match length {
                0 | 1 => Err(refusal::BLOCK_HEADER),
                _ if length > count + 1 => Err(refusal::PAST_END),
                _ => Ok(length),
            };
            assert_eq!(outcome, expected, "{bytes:02X?}");
        }
    }

    #[test]
    fn every_channel_code() {
        let mut bytes = sample::WORKED_ROW;
        for (second, third) in (0..=255).flat_map(|byte| (0..=255).map(move |n| (byte, n))) {
            bytes[7..].copy_from_slice(&[second, third]);
            let is_right = second >= 0x40
                && (0x20..0xE0).contains(&third)
                && sample::ERRORS.contains(&(third % 0x20));
            let outcome = (!is_right).then_some(refusal::CHANNEL_CODE);
            assert_eq!(read(&bytes).err(), outcome, "{bytes:02X?}");
        }
    }

    #[test]
    fn each_fault_hides_the_later_ones() {
        let mut bytes = sample::WORKED_ROW.to_vec();
        bytes[0] = 0x00;
        assert_eq!(read(&bytes), Err(refusal::EXT_DIAG));
        bytes.extend([0x82, 0x43]);
        assert_eq!(read(&bytes), Err(refusal::PAST_END));
        bytes[7] = 0x03;
        assert_eq!(read(&bytes), Err(refusal::CHANNEL_CODE));
        bytes.splice(6..6, [0x40, 0x3F]);
        assert_eq!(read(&bytes), Err(refusal::BLOCK_HEADER));
        bytes[6] = 0x3F;
        assert_eq!(read(&bytes), Err(refusal::PAST_END));
        bytes[2] = 0x01;
        assert_eq!(read(&bytes), Err(refusal::BITS));
        assert_eq!(read(&bytes[..5]), Err(refusal::DATA_LENGTH));
        bytes.resize(245, 0);
        assert_eq!(read(&bytes), Err(refusal::DATA_LENGTH));
    }

    #[test]
    fn writing_refuses_what_reading_refuses() {
        let random = &mut Random::new(2);
        for _ in 0..20_000 {
            let bytes = sample::damaged(random);
            let Some((header, blocks)) = split(&bytes) else {
                assert_eq!(read(&bytes), Err(refusal::DATA_LENGTH));
                continue;
            };
            match read(&bytes) {
                Ok(_) => expect::written(&bytes, |out| write(&header, blocks, out)),
                Err(number) => expect::refused(number, |out| write(&header, blocks, out)),
            }
        }
    }

    /// How many blocks a walk over all of them meets.
    fn walked(bytes: &[u8]) -> Result<usize, u8> {
        let mut count = 0;
        let mut position = HEADER_LENGTH;
        while let Some((_, next)) = walk(bytes, position)? {
            assert!(next > position && next <= bytes.len());
            count += 1;
            position = next;
        }
        Ok(count)
    }

    #[test]
    fn walking_refuses_what_reading_refuses_at_a_block() {
        let random = &mut Random::new(3);
        for _ in 0..20_000 {
            let bytes = sample::noise_after_header(random);
            match read(&bytes) {
                Ok((_, count)) => assert_eq!(walked(&bytes), Ok(count)),
                // These two are no block's.
                Err(refusal::DATA_LENGTH) => assert!(bytes.len() > LONGEST_DATA),
                Err(refusal::EXT_DIAG) => assert!(walked(&bytes).is_ok()),
                Err(number) => assert_eq!(walked(&bytes), Err(number)),
            }
        }
    }

    #[test]
    fn walking_judges_one_block_alone() {
        let random = &mut Random::new(4);
        for _ in 0..20_000 {
            let bytes = samples::noise(random);
            let position = random.between(0, 310);
            let alone = bytes.get(position..).map(|rest| {
                // A right header, and nothing before the block.
                [&sample::WORKED_ROW[..HEADER_LENGTH], rest].concat()
            });
            let expected = match &alone {
                Some(alone) if position >= HEADER_LENGTH => walk(alone, HEADER_LENGTH),
                _ => Err(refusal::FIELD),
            };
            let expected = expected
                .map(|walked| walked.map(|(block, next)| (block, next + position - HEADER_LENGTH)));
            assert_eq!(walk(&bytes, position), expected, "{bytes:02X?} {position}");
        }
    }

    #[test]
    fn counted_blocks_have_2_to_63_bytes() {
        let random = &mut Random::new(5);
        for length in 0..=70 {
            let data = random.bytes(length);
            if !(1..=62).contains(&length) {
                let number = if length == 0 { 23 } else { 21 };
                expect::refused(number, |out| write_device(&data, out));
                expect::refused(number, |out| write_module(&data, out));
                continue;
            }
            let header = 1 + length as u8;
            let device = [&[header], &data[..]].concat();
            expect::written(&device, |out| write_device(&data, out));
            let module = [&[0x40 | header], &data[..]].concat();
            expect::written(&module, |out| write_module(&data, out));
        }
    }

    /// The good channel with some of its fields changed.
    macro_rules! channel {
        ($($field:ident: $value:expr),*) => {
            Channel { $($field: $value,)* ..GOOD }
        };
    }

    #[test]
    fn channel_fields_are_judged_in_their_order() {
        for (channel, number) in [
            (channel!(module: 64), 21),
            (channel!(direction: 0), 25),
            (channel!(direction: 4), 21),
            (channel!(channel: 64), 21),
            (channel!(kind: 0), 25),
            (channel!(kind: 7), 25),
            (channel!(kind: 8), 21),
            (channel!(error: 0), 25),
            (channel!(error: 10), 25),
            (channel!(error: 15), 25),
            (channel!(error: 32), 21),
            (channel!(module: 255, direction: 0), 21),
            (channel!(direction: 0, channel: 64), 21),
            (channel!(channel: 64, kind: 0), 21),
            (channel!(kind: 0, error: 32), 21),
            (channel!(kind: 8, error: 0), 21),
        ] {
            expect::refused(number, |out| write_channel(&channel, out));
        }
    }

    #[test]
    fn any_channel_is_read_back_or_left_unwritten() {
        let random = &mut Random::new(6);
        for _ in 0..20_000 {
            let channel = sample::any_channel(random);
            let mut bytes = sample::WORKED_ROW;
            match write_channel(&channel, &mut bytes[HEADER_LENGTH..]) {
                Ok(length) => {
                    assert_eq!(length, 3);
                    let expected = Some((Block::Channel(channel), 9));
                    assert_eq!(walk(&bytes, HEADER_LENGTH), Ok(expected));
                }
                Err(number) => expect::refused(number, |out| write_channel(&channel, out)),
            }
        }
    }
}

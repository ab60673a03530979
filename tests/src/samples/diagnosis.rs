//! Samples of a diagnosis, at most 300 bytes each.

use super::{changed_cut_or_lengthened, mostly_up_to, often_up_to};
use crate::random::Random;
use crate::reference::diagnosis::Channel;

/// Document 01's row: module 2, input channel 3, bit, wire break.
pub const WORKED_ROW: [u8; 9] = [0x08, 0x0C, 0x00, 0x02, 0x12, 0x34, 0x82, 0x43, 0x26];

const HEADER_LENGTH: usize = 6;
const LONGEST: usize = 244;
const LONGEST_BLOCK: usize = 63;
const EXT_DIAG: u8 = 0x08;

/// The channel errors that are not reserved, written out from document 01.
#[rustfmt::skip]
pub const ERRORS: [u8; 25] = [
    1, 2, 3, 4, 5, 6, 7, 8, 9,
    16, 17, 18, 19, 20, 21, 22, 23,
    24, 25, 26, 27, 28, 29, 30, 31,
];
const RESERVED_ERRORS: [u8; 7] = [0, 10, 11, 12, 13, 14, 15];

/// The lengths that a diagnosis can have: no block has one byte.
pub fn lengths() -> impl Iterator<Item = usize> {
    (HEADER_LENGTH..=LONGEST).filter(|length| *length != HEADER_LENGTH + 1)
}

/// A diagnosis of one of these lengths; a greater one gives one right in all
/// but its length.
pub fn of_length(random: &mut Random, length: usize) -> Vec<u8> {
    let blocks = blocks(random, length - HEADER_LENGTH);
    around(random, &blocks)
}

/// A valid diagnosis, every second one short and some without blocks.
pub fn any_valid(random: &mut Random) -> Vec<u8> {
    if random.below(16) == 0 {
        return around(random, &[]);
    }
    let blocks = any_blocks(random);
    around(random, &blocks)
}

/// Valid diagnoses of every length, each block of every length and with every
/// code alone, and the most blocks that there can be.
pub fn all_forms(random: &mut Random) -> Vec<Vec<u8>> {
    let mut forms: Vec<Vec<Vec<u8>>> = lengths()
        .map(|length| blocks(random, length - HEADER_LENGTH))
        .collect();
    for length in 2..=LONGEST_BLOCK {
        forms.push(vec![device_block(random, length)]);
        forms.push(vec![module_block(random, length)]);
    }
    for second in 0x40..=0xFF {
        let [first, _, third] = channel_bytes(random);
        forms.push(vec![vec![first, second, third]]);
    }
    for (kind, error) in (1..=6).flat_map(|kind| ERRORS.map(|error| (kind, error))) {
        let [first, second, _] = channel_bytes(random);
        forms.push(vec![vec![first, second, kind << 5 | error]]);
    }
    forms.push(most_blocks(random));
    forms.iter().map(|blocks| around(random, blocks)).collect()
}

/// Valid diagnoses of each shape: without blocks, with the shortest and the
/// longest block of each kind alone, with no module reporting, with a channel of
/// each direction, the longest, with the most blocks, and some of any shape.
pub fn few_forms(random: &mut Random) -> Vec<Vec<u8>> {
    let mut forms = vec![Vec::new(), vec![vec![0x42, 0x00]]];
    for length in [2, LONGEST_BLOCK] {
        forms.push(vec![device_block(random, length)]);
        forms.push(vec![module_block(random, length)]);
    }
    for direction in 1..=3 {
        let [first, second, third] = channel_bytes(random);
        forms.push(vec![vec![first, direction << 6 | second & 0x3F, third]]);
    }
    forms.push(blocks(random, LONGEST - HEADER_LENGTH));
    forms.push(most_blocks(random));
    forms.extend((0..4).map(|_| any_blocks(random)));
    forms.iter().map(|blocks| around(random, blocks)).collect()
}

/// As many blocks as a diagnosis has room for.
fn most_blocks(random: &mut Random) -> Vec<Vec<u8>> {
    (0..119).map(|_| device_block(random, 2)).collect()
}

/// A right header, with Ext_Diag as the blocks are, and the blocks.
fn around(random: &mut Random, blocks: &[Vec<u8>]) -> Vec<u8> {
    let mut bytes = header(random, !blocks.is_empty()).to_vec();
    bytes.extend(blocks.concat());
    bytes
}

fn header(random: &mut Random, has_ext_diag: bool) -> [u8; HEADER_LENGTH] {
    let ext_diag = if has_ext_diag { EXT_DIAG } else { 0 };
    let master = match random.below(127) as u8 {
        126 => 255,
        address => address,
    };
    [
        random.byte() & 0b0101_0110 | ext_diag,
        random.byte() & 0b0011_1011 | 0b0000_0100,
        random.byte() & 0b1000_0000,
        master,
        random.byte(),
        random.byte(),
    ]
}

/// One block at least, and room for more to be added.
fn any_blocks(random: &mut Random) -> Vec<Vec<u8>> {
    let length = often_up_to(random, 2, 20, 170);
    blocks(random, length)
}

/// Blocks that have this many bytes together, which are not one byte.
fn blocks(random: &mut Random, length: usize) -> Vec<Vec<u8>> {
    let mut blocks = Vec::new();
    let mut room = length;
    while room > 0 {
        let block = block_within(random, room);
        room -= block.len();
        blocks.push(block);
    }
    blocks
}

/// A block of any kind that fills the room or leaves two bytes at least.
fn block_within(random: &mut Random, room: usize) -> Vec<u8> {
    let is_good = |length: &usize| *length == room || *length + 2 <= room;
    let longest = *random.pick(&[6, LONGEST_BLOCK]);
    let lengths: Vec<usize> = (2..=room.min(longest)).filter(is_good).collect();
    let length = *random.pick(&lengths);
    match random.below(3) {
        0 if is_good(&3) => channel_bytes(random).to_vec(),
        1 => module_block(random, length),
        _ => device_block(random, length),
    }
}

fn device_block(random: &mut Random, length: usize) -> Vec<u8> {
    let mut block = random.bytes(length);
    block[0] = length as u8;
    block
}

/// A module block in which any modules, one module or none report.
fn module_block(random: &mut Random, length: usize) -> Vec<u8> {
    let mut block = random.bytes(length);
    if random.below(2) == 0 {
        block.fill(0);
        let place = random.between(1, length - 1);
        block[place] = *random.pick(&[0x00, 0x01, 0x10, 0x80]);
    }
    block[0] = 0x40 | length as u8;
    block
}

fn channel_bytes(random: &mut Random) -> [u8; 3] {
    [
        0x80 | random.below(64) as u8,
        random.between(0x40, 0xFF) as u8,
        (random.between(1, 6) as u8) << 5 | *random.pick(&ERRORS),
    ]
}

/// Too few or too many bytes: reading gives 20.
pub fn length_wrong(random: &mut Random) -> Vec<u8> {
    if random.below(2) == 0 {
        let length = random.below(HEADER_LENGTH);
        return header(random, false)[..length].to_vec();
    }
    let length = random.between(LONGEST + 1, 300);
    of_length(random, length)
}

/// One wrong byte in the header: reading gives 21.
pub fn header_wrong(random: &mut Random) -> Vec<u8> {
    let mut bytes = any_valid(random);
    match random.below(4) {
        0 => bytes[0] ^= random.pick(&[0x01, 0x20, 0x80]),
        1 => bytes[1] ^= random.pick(&[0x04, 0x40, 0x80]),
        2 => bytes[2] ^= 1 << random.below(7),
        _ => bytes[3] = random.between(126, 254) as u8,
    }
    bytes
}

/// Ext_Diag with no block, or blocks without Ext_Diag: reading gives 22.
pub fn ext_diag_flipped(random: &mut Random) -> Vec<u8> {
    let mut bytes = any_valid(random);
    bytes[0] ^= EXT_DIAG;
    bytes
}

/// One block with a reserved header or a length below 2: reading gives 23.
pub fn block_header_wrong(random: &mut Random) -> Vec<u8> {
    let mut blocks = any_blocks(random);
    let place = random.below(blocks.len());
    blocks[place][0] = match random.below(2) {
        0 => 0xC0 | random.byte(),
        _ => *random.pick(&[0x00, 0x01, 0x40, 0x41]),
    };
    around(random, &blocks)
}

/// The last block cut short after its header or later: reading gives 24, also
/// where a reserved code is left of a channel block.
pub fn block_past_end(random: &mut Random) -> Vec<u8> {
    let mut blocks = any_blocks(random);
    let mut last = block_within(random, LONGEST_BLOCK);
    last.truncate(random.between(1, last.len() - 1));
    random.fill(&mut last[1..]);
    blocks.push(last);
    around(random, &blocks)
}

/// One channel block with a reserved code: reading gives 25.
pub fn channel_code_reserved(random: &mut Random) -> Vec<u8> {
    let [first, mut second, mut third] = channel_bytes(random);
    match random.below(3) {
        0 => second &= 0x3F,
        1 => third = third & 0x1F | random.pick(&[0x00, 0xE0]),
        _ => third = third & 0xE0 | random.pick(&RESERVED_ERRORS),
    }
    let mut blocks = any_blocks(random);
    let place = random.between(0, blocks.len());
    blocks.insert(place, vec![first, second, third]);
    around(random, &blocks)
}

/// A right header and any bytes after it, often short enough to be blocks.
pub fn noise_after_header(random: &mut Random) -> Vec<u8> {
    let has_ext_diag = random.below(4) > 0;
    let length = often_up_to(random, 0, 9, 240);
    [&header(random, has_ext_diag)[..], &random.bytes(length)].concat()
}

/// Damage in one place, of any kind.
pub fn damaged(random: &mut Random) -> Vec<u8> {
    match random.below(8) {
        0 => length_wrong(random),
        1 => header_wrong(random),
        2 => ext_diag_flipped(random),
        3 => block_header_wrong(random),
        4 => block_past_end(random),
        5 => channel_code_reserved(random),
        6 => noise_after_header(random),
        _ => {
            let bytes = any_valid(random);
            changed_cut_or_lengthened(random, &bytes)
        }
    }
}

/// The fields of a channel block to write, often with a reserved code and
/// sometimes too great for their bits.
pub fn any_channel(random: &mut Random) -> Channel {
    Channel {
        module: mostly_up_to(random, 63),
        direction: mostly_up_to(random, 3),
        channel: mostly_up_to(random, 63),
        kind: mostly_up_to(random, 7),
        error: mostly_up_to(random, 31),
    }
}

#[cfg(test)]
mod tests {
    use super::*;
    use crate::reference::diagnosis::{read, walk, write_channel, Block};
    use std::collections::BTreeSet;

    #[test]
    fn valid_ones_are_read_and_have_every_length_and_kind_of_block() {
        let random = &mut Random::new(1);
        let forms = all_forms(random);
        let found: BTreeSet<usize> = forms.iter().map(Vec::len).collect();
        assert_eq!(found, lengths().collect());
        assert_eq!((found.len(), found.last()), (238, Some(&LONGEST)));
        let mut kinds = BTreeSet::new();
        let any = (0..2000).map(|_| any_valid(random));
        for bytes in forms.into_iter().chain(any) {
            let (_, count) = read(&bytes).expect("valid");
            let mut position = HEADER_LENGTH;
            for _ in 0..count {
                let (block, next) = walk(&bytes, position).expect("valid").expect("a block");
                kinds.insert(match block {
                    Block::Device(_) => "device".into(),
                    Block::Module(map) => format!("module {}", map.reporting().min(2)),
                    Block::Channel(_) => "channel".into(),
                });
                position = next;
            }
        }
        let expected = ["channel", "device", "module 0", "module 1", "module 2"];
        assert!(kinds.iter().eq(&expected), "{kinds:?}");
    }

    #[test]
    fn each_damage_gets_its_number() {
        type Make = fn(&mut Random) -> Vec<u8>;
        let random = &mut Random::new(2);
        let damages: [(Make, u8); 6] = [
            (length_wrong, 20),
            (header_wrong, 21),
            (ext_diag_flipped, 22),
            (block_header_wrong, 23),
            (block_past_end, 24),
            (channel_code_reserved, 25),
        ];
        for (make, number) in damages {
            for _ in 0..3000 {
                let bytes = make(random);
                assert_eq!(read(&bytes), Err(number), "{bytes:02X?}");
                assert!(bytes.len() <= 300);
            }
        }
    }

    #[test]
    fn any_damage_and_noise_reach_every_number() {
        let random = &mut Random::new(3);
        let mut damages = BTreeSet::new();
        let mut noises = BTreeSet::new();
        for _ in 0..10_000 {
            damages.insert(read(&damaged(random)).err());
            noises.insert(read(&noise_after_header(random)).err());
        }
        let mut expected: BTreeSet<Option<u8>> = (20..=25).map(Some).collect();
        expected.insert(None);
        assert_eq!(damages, expected);
        // The header is right.
        expected.remove(&Some(21));
        assert_eq!(noises, expected);
    }

    #[test]
    fn any_channel_is_right_and_wrong() {
        let random = &mut Random::new(4);
        let outcomes: BTreeSet<Option<u8>> = (0..2000)
            .map(|_| write_channel(&any_channel(random), &mut [0; 3]).err())
            .collect();
        assert_eq!(outcomes, BTreeSet::from([None, Some(21), Some(25)]));
    }
}

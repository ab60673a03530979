//! What is lent to a call, with memory on either side that is not: all that the
//! call changed can be seen, and compared with what it should have.

use rabtunex_tests::random::Random;
use std::array;

/// The most room that is lent to a seeded writing.
pub const MOST_ROOM: usize = 300;
/// Bytes before and after what is lent, which are not lent: as many as the
/// longest telegram, which may be stored there by mistake.
const MARGIN: usize = 255;
/// The same for fields, which are few.
const BESIDE: usize = 8;

/// What stands in memory before a call: bytes next to each other are different,
/// since one may be stored that stood there before.
fn untouched(place: usize) -> u8 {
    0xA5 ^ place as u8
}

/// Lent fields, with a margin on either side.
#[derive(Clone, Copy, Debug, PartialEq, Eq)]
#[repr(C)]
pub struct Lent<const N: usize> {
    before: [u8; BESIDE],
    /// What is lent.
    pub fields: [u8; N],
    after: [u8; BESIDE],
}

impl<const N: usize> Lent<N> {
    /// As it is lent.
    pub fn untouched() -> Self {
        Lent::holding(array::from_fn(|place| untouched(BESIDE + place)))
    }

    /// As it must be when these fields were stored.
    pub fn holding(fields: [u8; N]) -> Self {
        Lent {
            before: array::from_fn(untouched),
            fields,
            after: array::from_fn(|place| untouched(BESIDE + N + place)),
        }
    }
}

/// A lent buffer of any length, with a margin on either side.
#[derive(Clone, Debug, PartialEq, Eq)]
pub struct Buffer {
    memory: Vec<u8>,
}

impl Buffer {
    /// As it is lent.
    pub fn untouched(room: usize) -> Self {
        let memory = (0..MARGIN + room + MARGIN).map(untouched).collect();
        Buffer { memory }
    }

    /// What is lent.
    pub fn lent(&mut self) -> &mut [u8] {
        let end = self.memory.len() - MARGIN;
        &mut self.memory[MARGIN..end]
    }
}

/// A lent count, and a number on either side that is not lent.
#[derive(Clone, Copy, Debug, PartialEq, Eq)]
pub struct Count([usize; 3]);

impl Count {
    /// As it is lent.
    pub const UNSTORED: Self = Count::holding(usize::MAX - 1);

    /// As it must be when this was stored.
    pub const fn holding(count: usize) -> Self {
        Count([usize::MAX - 2, count, usize::MAX])
    }

    /// What is lent.
    pub fn lent(&mut self) -> &mut usize {
        &mut self.0[1]
    }
}

/// All that a writing may have changed.
#[derive(Debug, PartialEq, Eq)]
pub struct Written {
    number: u8,
    stored: Count,
    memory: Buffer,
}

impl Written {
    /// Nothing, but for the number that was answered.
    pub fn nothing(number: u8, room: usize) -> Self {
        Written {
            number,
            stored: Count::UNSTORED,
            memory: Buffer::untouched(room),
        }
    }

    /// These bytes, their count and 0.
    pub fn bytes(bytes: &[u8], room: usize) -> Self {
        let mut written = Written::nothing(0, room);
        written.stored = Count::holding(bytes.len());
        written.memory.lent()[..bytes.len()].copy_from_slice(bytes);
        written
    }

    /// What a call changes that is lent so much room, and a count.
    pub fn by(room: usize, write: impl FnOnce(&mut [u8], &mut usize) -> u8) -> Self {
        let mut written = Written::nothing(0, room);
        written.number = write(written.memory.lent(), written.stored.lent());
        written
    }
}

/// No room, one byte too little, just enough, more, or any.
pub fn any_room(random: &mut Random, needed: usize) -> usize {
    let any = random.between(0, MOST_ROOM);
    *random.pick(&[0, needed.saturating_sub(1), needed, needed + 1, any])
}

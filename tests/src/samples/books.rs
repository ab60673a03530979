//! Samples of template books, the ways to damage one, and fields to write.

use super::{changed_cut_or_lengthened, mostly_up_to, often_up_to};
use crate::random::Random;

/// Document 01's book: three bytes for slot seven.
pub const WORKED_BOOK: [u8; 6] = [1, 7, 3, 0x41, 0x42, 0x43];

/// Two bytes for slot 3 and one for slot 15.
pub const SMALL_BOOK: [u8; 8] = [2, 3, 2, 15, 1, 0x41, 0x42, 0x43];

/// The longest book: 16 templates of 200 bytes.
pub const LONGEST: usize = 1 + 2 * MOST + MOST * LONGEST_BODY;

const MOST: usize = 16;
const LONGEST_BODY: usize = 200;

/// What a book is written from, right or wrong.
#[derive(Clone, Debug, PartialEq, Eq)]
pub struct Fields {
    /// The slot of each template.
    pub slots: Vec<u8>,
    /// The length of each template.
    pub lengths: Vec<u8>,
    /// The bodies, one after the other.
    pub bodies: Vec<u8>,
}

impl Fields {
    /// The bytes that they stand for; at most 255 slots, and as many lengths.
    pub fn bytes(&self) -> Vec<u8> {
        let count = u8::try_from(self.slots.len()).expect("the count is one byte");
        let mut bytes = vec![count];
        for (slot, length) in self.slots.iter().zip(&self.lengths) {
            bytes.extend([*slot, *length]);
        }
        bytes.extend(&self.bodies);
        bytes
    }
}

/// Fields of a right book with this many templates, 1..=16, half of them short.
pub fn fields_of(random: &mut Random, count: usize) -> Fields {
    let mut slots: Vec<u8> = (0..MOST as u8).collect();
    while slots.len() > count {
        slots.remove(random.below(slots.len()));
    }
    let lengths: Vec<u8> = (0..count)
        .map(|_| often_up_to(random, 1, 4, LONGEST_BODY) as u8)
        .collect();
    let bodies = random.bytes(lengths.iter().map(|length| usize::from(*length)).sum());
    Fields {
        slots,
        lengths,
        bodies,
    }
}

/// Fields of a right book.
pub fn any_fields_that_are_right(random: &mut Random) -> Fields {
    let count = random.between(1, MOST);
    fields_of(random, count)
}

/// A valid book.
pub fn any_valid(random: &mut Random) -> Vec<u8> {
    any_fields_that_are_right(random).bytes()
}

/// Valid books of every count, with every slot and every length alone, and the
/// shortest and the longest.
pub fn all_forms(random: &mut Random) -> Vec<Vec<u8>> {
    let mut forms = vec![WORKED_BOOK.to_vec()];
    forms.extend((1..=MOST).map(|count| fields_of(random, count).bytes()));
    for slot in 0..MOST as u8 {
        forms.push(vec![1, slot, 1, random.byte()]);
    }
    for length in 1..=LONGEST_BODY {
        let slot = random.below(MOST) as u8;
        let body = random.bytes(length);
        forms.push([&[1, slot, length as u8][..], &body].concat());
    }
    forms.push(longest(random).bytes());
    forms
}

fn longest(random: &mut Random) -> Fields {
    Fields {
        slots: (0..MOST as u8).collect(),
        lengths: vec![LONGEST_BODY as u8; MOST],
        bodies: random.bytes(MOST * LONGEST_BODY),
    }
}

/// No bytes at all: reading gives 1.
pub fn no_count(_: &mut Random) -> Vec<u8> {
    Vec::new()
}

/// A count of 0 or above 16, and what follows as it was: reading gives 32.
pub fn count_wrong(random: &mut Random) -> Vec<u8> {
    let mut bytes = any_valid(random);
    bytes[0] = match random.below(2) {
        0 => *random.pick(&[0, MOST as u8 + 1]),
        _ => random.between(MOST + 1, 255) as u8,
    };
    bytes
}

/// A table that ends before its last pair does, right or wrong until there:
/// reading gives 1.
pub fn table_cut(random: &mut Random) -> Vec<u8> {
    let mut bytes = any_valid(random);
    bytes.truncate(random.between(1, 2 * usize::from(bytes[0])));
    if random.below(2) == 0 {
        random.fill(&mut bytes[1..]);
    }
    bytes
}

/// One slot above 15: reading gives 32.
pub fn slot_above_15(random: &mut Random) -> Vec<u8> {
    let mut fields = any_fields_that_are_right(random);
    let count = fields.slots.len();
    // Only the last can be so and the slots rise all the same.
    let place = match random.below(2) {
        0 => count - 1,
        _ => random.below(count),
    };
    let highest = *random.pick(&[16, 255]);
    fields.slots[place] = random.between(16, highest) as u8;
    fields.bytes()
}

/// A slot that is the one before it or below that: reading gives 32.
pub fn slots_not_rising(random: &mut Random) -> Vec<u8> {
    let count = random.between(2, MOST);
    let mut fields = fields_of(random, count);
    let place = random.between(1, count - 1);
    let before = fields.slots[place - 1];
    fields.slots[place] = match random.below(2) {
        0 => before,
        _ => random.between(0, before.into()) as u8,
    };
    fields.bytes()
}

/// A length of 0 or above 200, with the bodies that the table asks for: reading
/// gives 32.
pub fn length_wrong(random: &mut Random) -> Vec<u8> {
    let mut fields = any_fields_that_are_right(random);
    let place = random.below(fields.lengths.len());
    fields.lengths[place] = match random.below(2) {
        0 => 0,
        _ => random.between(LONGEST_BODY + 1, 255) as u8,
    };
    let asked_for = fields.lengths.iter().map(|length| usize::from(*length));
    fields.bodies = random.bytes(asked_for.sum());
    fields.bytes()
}

/// Bodies without at least their last byte: reading gives 1.
pub fn bodies_cut(random: &mut Random) -> Vec<u8> {
    let mut fields = any_fields_that_are_right(random);
    fields.bodies.truncate(random.below(fields.bodies.len()));
    fields.bytes()
}

/// A book with bytes after it: reading gives 4.
pub fn lengthened(random: &mut Random) -> Vec<u8> {
    let bytes = any_valid(random);
    super::lengthened(random, &bytes)
}

/// A way to make a damaged book.
pub type Make = fn(&mut Random) -> Vec<u8>;

/// Each kind of damage and the number that reading gives.
pub const DAMAGES: [(Make, u8); 8] = [
    (no_count, 1),
    (count_wrong, 32),
    (table_cut, 1),
    (slot_above_15, 32),
    (slots_not_rising, 32),
    (length_wrong, 32),
    (bodies_cut, 1),
    (lengthened, 4),
];

/// Damage in one place, of any kind.
pub fn damaged(random: &mut Random) -> Vec<u8> {
    if random.below(4) == 0 {
        let bytes = any_valid(random);
        return changed_cut_or_lengthened(random, &bytes);
    }
    let (make, _) = random.pick(&DAMAGES);
    make(random)
}

/// Fields to write, every second time right: else with a slot or a length out
/// of range, with one slot, length or body byte too many or too few, or with
/// many more templates than a book has.
pub fn any_fields(random: &mut Random) -> Fields {
    let mut fields = any_fields_that_are_right(random);
    let place = random.below(fields.slots.len());
    match random.below(16) {
        0 => fields.slots[place] = mostly_up_to(random, 15),
        1 => fields.lengths[place] = mostly_up_to(random, 200),
        2 => fields.slots.truncate(place),
        3 => fields.lengths.truncate(place),
        4 => fields.bodies.truncate(place),
        5 => fields.bodies.push(random.byte()),
        6 => {
            fields.slots.clear();
            fields.lengths.clear();
            fields.bodies.clear();
        }
        7 => {
            let count = random.between(17, 300);
            fields.slots = (0..count).map(|slot| slot as u8).collect();
            fields.lengths = vec![1; count];
            fields.bodies = random.bytes(count);
        }
        _ => {}
    }
    fields
}

#[cfg(test)]
mod tests {
    use super::*;
    use crate::reference::book::{read, write};
    use std::collections::BTreeSet;

    #[test]
    fn valid_ones_are_read_and_have_every_count_slot_and_length() {
        let random = &mut Random::new(1);
        let mut counts = BTreeSet::new();
        let mut slots = BTreeSet::new();
        let mut lengths = BTreeSet::new();
        let any: Vec<Vec<u8>> = (0..2000).map(|_| any_valid(random)).collect();
        for bytes in all_forms(random).into_iter().chain(any) {
            let book = read(&bytes).expect("valid");
            assert!(bytes.len() <= LONGEST);
            counts.insert(book.count());
            for k in 1..=book.count() {
                let template = book.template(k).expect("there");
                slots.insert(template.slot);
                lengths.insert(template.body.len());
            }
        }
        assert_eq!(counts, (1..=16).collect());
        assert_eq!(slots, (0..=15).collect());
        assert_eq!(lengths, (1..=200).collect());
    }

    #[test]
    fn each_damage_gets_its_number() {
        let random = &mut Random::new(2);
        for (place, (make, number)) in DAMAGES.into_iter().enumerate() {
            for _ in 0..3000 {
                let bytes = make(random);
                assert_eq!(read(&bytes), Err(number), "damage {place}: {bytes:02X?}");
            }
        }
    }

    #[test]
    fn any_damage_and_any_fields_reach_every_number() {
        let random = &mut Random::new(3);
        let mut readings = BTreeSet::new();
        let mut writings = BTreeSet::new();
        for _ in 0..3000 {
            readings.insert(read(&damaged(random)).err());
            let fields = any_fields(random);
            let room = random.below(LONGEST);
            let out = &mut [0; LONGEST][..room];
            writings.insert(write(&fields.slots, &fields.lengths, &fields.bodies, out).err());
        }
        assert_eq!(readings, BTreeSet::from([None, Some(1), Some(4), Some(32)]));
        assert_eq!(writings, BTreeSet::from([None, Some(11), Some(32)]));
    }
}

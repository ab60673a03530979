//! Template books: how many templates there are, a table of their slots and
//! lengths, and their bodies one after the other.

use super::{refusal, store, telegram};
use std::ops::RangeInclusive;

/// How many templates a book may have.
const COUNTS: RangeInclusive<usize> = 1..=16;
/// The highest slot of a template.
const LAST_SLOT: u8 = 15;
/// How long a template may be.
const LENGTHS: RangeInclusive<u8> = 1..=200;

/// A slot and a length, as the table has them.
type Pair = [u8; 2];

/// One template; its body is borrowed from the book.
#[derive(Clone, Copy, Debug, PartialEq, Eq)]
pub struct Template<'a> {
    /// The slot of the printer that it belongs into, 0..=15.
    pub slot: u8,
    /// Its 1..=200 bytes.
    pub body: &'a [u8],
}

/// A book that was judged right.
#[derive(Clone, Copy, Debug, PartialEq, Eq)]
pub struct Book<'a> {
    table: &'a [Pair],
    bodies: &'a [u8],
}

impl<'a> Book<'a> {
    /// How many templates there are, 1..=16.
    pub fn count(&self) -> usize {
        self.table.len()
    }

    /// Template `k`, counted from 1, when there is one.
    pub fn template(&self, k: usize) -> Option<Template<'a>> {
        let (&[slot, length], before) = self.table.get(..k)?.split_last()?;
        let start = before.iter().map(body_length).sum();
        let body = self.bodies.get(start..)?.get(..usize::from(length))?;
        Some(Template { slot, body })
    }
}

/// Reads the whole slice as one book, or answers its refusal number.
pub fn read(bytes: &[u8]) -> Result<Book<'_>, u8> {
    let (count, rest) = bytes.split_first().ok_or(refusal::SHORT)?;
    let count = usize::from(*count);
    if !COUNTS.contains(&count) {
        return Err(refusal::BOOK_TABLE);
    }
    let table_length = count * size_of::<Pair>();
    let table = rest.get(..table_length).ok_or(refusal::SHORT)?;
    let (table, _) = table.as_chunks();
    let length = judge(table)?;
    let bodies = telegram::whole(&rest[table_length..], length)?;
    Ok(Book { table, bodies })
}

/// Template `k` of a book, counted from 1. The book's own refusal comes first:
/// without it there is no saying how many templates there are.
pub fn template(bytes: &[u8], k: usize) -> Result<Template<'_>, u8> {
    read(bytes)?.template(k).ok_or(refusal::FIELD)
}

/// How many bytes the bodies of a table have together, when it is right.
///
/// It has a few pairs at most, and going over all of them costs less than a branch
/// at each.
fn judge(table: &[Pair]) -> Result<usize, u8> {
    let mut is_right = COUNTS.contains(&table.len());
    let mut lowest = 0;
    for [slot, length] in table {
        is_right &= (lowest..=LAST_SLOT).contains(slot) & LENGTHS.contains(length);
        lowest = slot.saturating_add(1);
    }
    if !is_right {
        return Err(refusal::BOOK_TABLE);
    }
    Ok(table.iter().map(body_length).sum())
}

fn body_length([_, length]: &Pair) -> usize {
    usize::from(*length)
}

/// Writes a book to the front of `out` and answers its length, or answers the
/// refusal number and stores nothing. The bodies stand one after the other.
pub fn write(slots: &[u8], lengths: &[u8], bodies: &[u8], out: &mut [u8]) -> Result<usize, u8> {
    let mut table = [[0; 2]; *COUNTS.end()];
    let table = table.get_mut(..slots.len()).ok_or(refusal::BOOK_TABLE)?;
    for (pair, (slot, length)) in table.iter_mut().zip(slots.iter().zip(lengths)) {
        *pair = [*slot, *length];
    }
    if lengths.len() != slots.len() || judge(table)? != bodies.len() {
        return Err(refusal::BOOK_TABLE);
    }
    store([&[table.len() as u8], table.as_flattened(), bodies], out)
}

#[cfg(test)]
mod tests {
    use super::*;
    use crate::random::Random;
    use crate::reference::expect;
    use crate::samples::books as sample;

    const GOOD: [u8; 8] = sample::SMALL_BOOK;

    #[test]
    fn worked_book() {
        let book = sample::WORKED_BOOK;
        let read = read(&book).expect("valid");
        assert_eq!(read.count(), 1);
        let body = b"ABC";
        assert_eq!(template(&book, 1), Ok(Template { slot: 7, body }));
        expect::written(&book, |out| write(&[7], &[3], body, out));
    }

    #[test]
    fn bodies_stand_in_the_order_of_the_table() {
        let first = template(&GOOD, 1).expect("there");
        let second = template(&GOOD, 2).expect("there");
        assert_eq!((first.slot, second.slot), (3, 15));
        assert!(std::ptr::eq(first.body, &GOOD[5..7]));
        assert!(std::ptr::eq(second.body, &GOOD[7..8]));
    }

    #[test]
    fn template_0_and_those_above_n_are_12_and_a_refused_book_keeps_its_number() {
        for k in [0, 3, 4, 16, 17, 255, 256, usize::MAX] {
            assert_eq!(template(&GOOD, k), Err(12), "{k}");
        }
        for k in [0, 1, 2, 3] {
            assert_eq!(template(&[], k), Err(1));
            assert_eq!(template(&[0], k), Err(32));
            assert_eq!(template(&GOOD[..7], k), Err(1));
            assert_eq!(template(&[&GOOD[..], &[0]].concat(), k), Err(4));
        }
    }

    #[test]
    fn each_fault_hides_the_later_ones() {
        for (bytes, number) in [
            (&[][..], 1),
            // Count: whatever follows, nothing or too much.
            (&[0], 32),
            (&[17], 32),
            (&[255, 16, 0, 16, 0], 32),
            // Table cut: whatever of it is there.
            (&[1], 1),
            (&[1, 16], 1),
            (&[2, 16, 0], 1),
            (&[2, 3, 2, 3], 1),
            // Table: whatever bodies there are.
            (&[1, 16, 1], 32),
            (&[1, 0, 0], 32),
            (&[1, 0, 201, 9], 32),
            (&[2, 3, 1, 3, 1, 9, 9, 9], 32),
            (&[2, 4, 1, 3, 1, 9, 9], 32),
            // Bodies.
            (&[1, 0, 1], 1),
            (&GOOD[..7], 1),
            (&[1, 0, 1, 9, 9], 4),
        ] {
            assert_eq!(read(bytes), Err(number), "{bytes:02X?}");
        }
    }

    #[test]
    fn every_pair_and_every_count() {
        for slot in 0..=255 {
            for length in 0..=255 {
                let bytes = [&[1, slot, length][..], &vec![9; length.into()]].concat();
                let is_right = slot < 16 && length > 0 && length < 201;
                let number = (!is_right).then_some(32);
                assert_eq!(read(&bytes).err(), number, "{slot} {length}");
            }
            for next in 0..=255 {
                let bytes = [2, slot, 1, next, 1, 8, 9];
                let number = (slot >= next || next > 15).then_some(32);
                assert_eq!(read(&bytes).err(), number, "{slot} {next}");
            }
        }
        for count in 0..=255 {
            let table = (0..count).flat_map(|slot| [slot, 1]);
            let mut bytes = vec![count];
            bytes.extend(table.chain((0..count).map(|_| 9)));
            let number = (!(1..=16).contains(&count)).then_some(32);
            assert_eq!(read(&bytes).err(), number, "{count}");
        }
    }

    #[test]
    fn written_as_read() {
        let random = &mut Random::new(1);
        let any = (0..2000).map(|_| sample::any_fields_that_are_right(random));
        for fields in any.collect::<Vec<_>>() {
            let bytes = fields.bytes();
            let book = read(&bytes).expect("valid");
            assert_eq!(book.count(), fields.slots.len());
            let templates: Vec<Template<'_>> = (1..=book.count())
                .map(|k| template(&bytes, k).expect("there"))
                .collect();
            assert!(templates
                .iter()
                .map(|one| one.slot)
                .eq(fields.slots.clone()));
            let lengths = templates.iter().map(|one| one.body.len());
            assert!(lengths.eq(fields.lengths.iter().map(|length| usize::from(*length))));
            let bodies: Vec<&[u8]> = templates.iter().map(|one| one.body).collect();
            assert_eq!(bodies.concat(), fields.bodies);
            expect::written(&bytes, |out| {
                write(&fields.slots, &fields.lengths, &fields.bodies, out)
            });
        }
    }

    #[test]
    fn wrong_tables_and_bodies_are_32_in_writing() {
        let seventeen: Vec<u8> = (0..17).collect();
        for (slots, lengths, bodies) in [
            (&[][..], &[][..], &[][..]),
            (&seventeen, &[1; 17], &[9; 17]),
            (&[16], &[1], &[9]),
            (&[3, 3], &[1, 1], &[9, 9]),
            (&[4, 3], &[1, 1], &[9, 9]),
            (&[3], &[0], &[]),
            (&[3], &[201], &[9; 201]),
            // As many slots as lengths.
            (&[3], &[1, 1], &[9]),
            (&[3, 4], &[1], &[9]),
            // Bodies that the lengths do not add up to.
            (&[3], &[1], &[]),
            (&[3], &[1], &[9, 9]),
            (&[3, 4], &[200, 200], &[9; 144]),
        ] {
            expect::refused(32, |out| write(slots, lengths, bodies, out));
        }
    }

    #[test]
    fn any_fields_are_read_back_or_left_unwritten() {
        let random = &mut Random::new(2);
        let mut refusals = 0;
        for _ in 0..20_000 {
            let fields = sample::any_fields(random);
            let write = |out: &mut [u8]| write(&fields.slots, &fields.lengths, &fields.bodies, out);
            let mut out = [0; sample::LONGEST];
            match write(&mut out) {
                Ok(length) => {
                    assert_eq!(out[..length], fields.bytes());
                    assert!(read(&out[..length]).is_ok());
                }
                Err(number) => {
                    refusals += 1;
                    assert_eq!(number, 32);
                    expect::refused(32, write);
                    if fields.slots.len() == fields.lengths.len() && fields.slots.len() < 256 {
                        assert!(read(&fields.bytes()).is_err(), "{fields:?}");
                    }
                }
            }
        }
        assert!((2000..18_000).contains(&refusals), "{refusals}");
    }
}

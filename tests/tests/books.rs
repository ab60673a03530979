//! The proved library and the reference on the same template books, through the
//! C interface: every number and every lent place must be the same, and a refusal
//! must leave all as it was.

#![deny(unsafe_code)]

mod archive;
// Of what it lends, books need the output alone.
#[allow(dead_code)]
mod memory;
mod tally;

use archive::Outcome::{Accepted, Refused};
use archive::{inputs, pairs, Outcome, CASES};
use memory::Written;
use rabtunex_tests::random::Random;
use rabtunex_tests::reference::book;
use rabtunex_tests::reference::service_text::Service;
use rabtunex_tests::samples::books::{self as samples, Fields, LONGEST};
use tally::Tally;

/// The library's functions for books, `include/rabtunex.h`.
#[allow(unsafe_code)]
mod library {
    extern "C" {
        fn rabtunex_read_book(bytes: *const u8, bytes_len: usize, count: *mut usize) -> u8;

        fn rabtunex_book_template(
            bytes: *const u8,
            bytes_len: usize,
            k: usize,
            fields: *mut [usize; 3],
        ) -> u8;

        fn rabtunex_write_book(
            slots: *const u8,
            slots_len: usize,
            lengths: *const u8,
            lengths_len: usize,
            bodies: *const u8,
            bodies_len: usize,
            out: *mut u8,
            out_len: usize,
            stored: *mut usize,
        ) -> u8;
    }

    /// Reads the bytes as one book and stores how many templates it has; 0 or the
    /// refusal number.
    pub fn read_book(bytes: &[u8], count: &mut usize) -> u8 {
        // SAFETY: both come from references, which an empty slice has too: neither
        // is null, each leads to its length, and they do not overlap.
        unsafe { rabtunex_read_book(bytes.as_ptr(), bytes.len(), count) }
    }

    /// Stores the slot of template `k`, and start and length of its body; 0 or the
    /// refusal number.
    pub fn book_template(bytes: &[u8], k: usize, fields: &mut [usize; 3]) -> u8 {
        // SAFETY: as above.
        unsafe { rabtunex_book_template(bytes.as_ptr(), bytes.len(), k, fields) }
    }

    /// Writes the book of the slots, lengths and bodies to the front of `out` and
    /// its length to `stored`; 0 or the refusal number.
    pub fn write_book(
        [slots, lengths, bodies]: [&[u8]; 3],
        out: &mut [u8],
        stored: &mut usize,
    ) -> u8 {
        // SAFETY: as above.
        unsafe {
            rabtunex_write_book(
                slots.as_ptr(),
                slots.len(),
                lengths.as_ptr(),
                lengths.len(),
                bodies.as_ptr(),
                bodies.len(),
                out.as_mut_ptr(),
                out.len(),
                stored,
            )
        }
    }
}

/// What stands in lent numbers before a call: no call stores it.
const UNTOUCHED: usize = usize::MAX;
/// Numbers before and after those that are lent, which are not lent.
const MARGIN: usize = 8;

const BOOK: Outcome = Accepted("book");
const TEMPLATE: Outcome = Accepted("template");

/// Every number of a template that a book can have, and those beside them.
const TEMPLATES: std::ops::RangeInclusive<usize> = 0..=17;
/// In one, two and four bytes these are template 1.
const FAR_TEMPLATES: [usize; 5] = [
    1 + (1 << 8),
    1 + (1 << 16),
    1 + (1 << 32),
    1 + (1 << 63),
    usize::MAX,
];

/// Lent numbers, with a margin on either side.
#[derive(Clone, Copy, Debug, PartialEq, Eq)]
#[repr(C)]
struct Lent<const N: usize> {
    before: [usize; MARGIN],
    numbers: [usize; N],
    after: [usize; MARGIN],
}

impl<const N: usize> Lent<N> {
    const UNTOUCHED: Self = Self::holding([UNTOUCHED; N]);

    const fn holding(numbers: [usize; N]) -> Self {
        Lent {
            before: [UNTOUCHED; MARGIN],
            numbers,
            after: [UNTOUCHED; MARGIN],
        }
    }
}

/// Reads a book through both.
fn check_book(bytes: &[u8]) -> Outcome {
    let mut count = Lent::UNTOUCHED;
    let number = library::read_book(bytes, &mut count.numbers[0]);
    let (outcome, expected) = match book::read(bytes) {
        Ok(book) => (BOOK, (0, Lent::holding([book.count()]))),
        Err(refusal) => (Refused(refusal), (refusal, Lent::UNTOUCHED)),
    };
    assert_eq!((number, count), expected, "{bytes:02X?}");
    outcome
}

/// Finds a template through both.
fn check_template(bytes: &[u8], k: usize) -> Outcome {
    let mut fields = Lent::UNTOUCHED;
    let number = library::book_template(bytes, k, &mut fields.numbers);
    let (outcome, expected) = match book::template(bytes, k) {
        Ok(template) => {
            let start = template.body.as_ptr() as usize - bytes.as_ptr() as usize;
            let fields = [template.slot.into(), start, template.body.len()];
            (TEMPLATE, (0, Lent::holding(fields)))
        }
        Err(refusal) => (Refused(refusal), (refusal, Lent::UNTOUCHED)),
    };
    assert_eq!((number, fields), expected, "{k} {bytes:02X?}");
    outcome
}

/// Writes a book through both into so much room.
fn check_writing(fields: &Fields, room: usize) -> Outcome {
    let Fields {
        slots,
        lengths,
        bodies,
    } = fields;
    let written = Written::by(room, |out, stored| {
        library::write_book([slots, lengths, bodies], out, stored)
    });
    let mut out = vec![0; room];
    let (outcome, expected) = match book::write(slots, lengths, bodies, &mut out) {
        Ok(length) => (BOOK, Written::bytes(&out[..length], room)),
        Err(refusal) => (Refused(refusal), Written::nothing(refusal, room)),
    };
    assert_eq!(written, expected, "{room} {fields:02X?}");
    outcome
}

/// What a book that was read is written from.
fn fields_of(bytes: &[u8]) -> Fields {
    let [mut slots, mut lengths, mut bodies] = [const { Vec::new() }; 3];
    let mut fields = [0; 3];
    let mut k = 1;
    while library::book_template(bytes, k, &mut fields) == 0 {
        let [slot, start, length] = fields;
        slots.push(slot as u8);
        lengths.push(length as u8);
        bodies.extend(&bytes[start..start + length]);
        k += 1;
    }
    Fields {
        slots,
        lengths,
        bodies,
    }
}

/// No room, one byte too little, just enough, more, or any.
fn any_room(random: &mut Random, fields: &Fields) -> usize {
    let needed = 1 + fields.slots.len() + fields.lengths.len() + fields.bodies.len();
    let any = random.between(0, LONGEST + 100);
    *random.pick(&[0, needed - 1, needed, needed + 1, any])
}

/// Document 01's book, with every number written out.
#[test]
fn worked_book() {
    let bytes = samples::WORKED_BOOK;
    let mut count = UNTOUCHED;
    assert_eq!(library::read_book(&bytes, &mut count), 0);
    assert_eq!(count, 1);
    let mut fields = [UNTOUCHED; 3];
    assert_eq!(library::book_template(&bytes, 1, &mut fields), 0);
    assert_eq!(fields, [7, 3, 3]);
    for k in [0, 2] {
        assert_eq!(library::book_template(&bytes, k, &mut fields), 12);
    }
    assert_eq!(fields, [7, 3, 3]);
    let written = Written::by(6, |out, stored| {
        library::write_book([&[7], &[3], b"ABC"], out, stored)
    });
    assert_eq!(written, Written::bytes(&bytes, 6));
    let written = Written::by(5, |out, stored| {
        library::write_book([&[7], &[3], b"ABC"], out, stored)
    });
    assert_eq!(written, Written::nothing(11, 5));
}

#[test]
fn seeded_books_are_read_alike() {
    let mut tally = Tally::new("seeded books read");
    for bytes in inputs(&mut Random::new(1), Service::Book) {
        tally.add(check_book(&bytes));
    }
    tally.expect_only(&[BOOK, Refused(1), Refused(4), Refused(32)]);
    assert!(tally.total() >= CASES);
}

/// The ways to damage a book that its samples have, each with its number.
#[test]
fn damaged_books_are_refused_alike() {
    const OF_EACH: usize = 5000;
    let random = &mut Random::new(2);
    let mut tally = Tally::new("damaged books read");
    for (make, number) in samples::DAMAGES {
        for _ in 0..OF_EACH {
            let outcome = check_book(&make(random));
            assert_eq!(outcome, Refused(number));
            tally.add(outcome);
        }
    }
    tally.expect_only(&[Refused(1), Refused(4), Refused(32)]);
}

#[test]
fn every_template_of_seeded_books_is_found_alike() {
    let mut tally = Tally::new("templates 0 to 17 of seeded books");
    let mut books = 0;
    for bytes in inputs(&mut Random::new(3), Service::Book) {
        for k in TEMPLATES {
            tally.add(check_template(&bytes, k));
        }
        books += 1;
    }
    tally.expect_only(&[TEMPLATE, Refused(1), Refused(4), Refused(12), Refused(32)]);
    assert!(books >= CASES);
}

#[test]
fn templates_far_away_are_found_alike() {
    const SAMPLES: usize = 2000;
    let random = &mut Random::new(4);
    let mut tally = Tally::new("templates that no book has");
    for _ in 0..SAMPLES {
        let bytes = samples::any_valid(random);
        for k in FAR_TEMPLATES {
            tally.add(check_template(&bytes, k));
        }
    }
    tally.expect_counts([(Refused(12), SAMPLES * FAR_TEMPLATES.len())]);
}

/// The template beside it is looked at too: the damage may have moved it there.
fn add_book(tally: &mut Tally<Outcome>, bytes: &[u8]) {
    tally.add(check_book(bytes));
    for k in 0..=3 {
        check_template(bytes, k);
    }
}

/// Document 01's book with each of its bytes made every byte.
#[test]
fn every_byte_of_the_worked_book() {
    let titles = ["count", "slot", "length", "body", "body", "body"];
    let tallies = titles.iter().enumerate().map(|(place, title)| {
        let mut tally = Tally::new(format!("byte {place}, {title}, every value"));
        for byte in 0..=255 {
            let mut bytes = samples::WORKED_BOOK;
            bytes[place] = byte;
            add_book(&mut tally, &bytes);
        }
        tally
    });
    let [count, slot, length, body1, body2, body3] =
        <[_; 6]>::try_from(tallies.collect::<Vec<_>>())
            .ok()
            .expect("six");
    // Two pairs end before the last byte, and the second has 41 hex for a slot.
    count.expect_counts([(BOOK, 1), (Refused(1), 14), (Refused(32), 1 + 1 + 239)]);
    slot.expect_counts([(BOOK, 16), (Refused(32), 240)]);
    length.expect_counts([
        (BOOK, 1),
        (Refused(1), 197),
        (Refused(4), 2),
        (Refused(32), 1 + 55),
    ]);
    for body in [body1, body2, body3] {
        body.expect_counts([(BOOK, 256)]);
    }
}

/// A book of two and one of three templates with each byte of the table made every
/// byte, the bodies as they were.
#[test]
fn every_byte_of_small_tables() {
    let two = &[2, 3, 2, 9, 1, 0x41, 0x42, 0x43][..];
    let three = &[3, 0, 1, 7, 2, 15, 3, 1, 2, 3, 4, 5, 6][..];
    let mut tally = Tally::new("tables of two and three templates, every value of each byte");
    for book in [two, three] {
        for place in 0..=2 * usize::from(book[0]) {
            for byte in 0..=255 {
                let mut bytes = book.to_vec();
                bytes[place] = byte;
                add_book(&mut tally, &bytes);
            }
        }
    }
    tally.expect_only(&[BOOK, Refused(1), Refused(4), Refused(32)]);
    assert_eq!(tally.total(), (5 + 7) * 256);
}

/// Every slot with every length, every two slots and every two lengths, each with
/// the bodies that the table asks for.
#[test]
fn every_pair_of_table_bytes() {
    const ALL: usize = 256 * 256;
    let bodies = &[0x5A; 2 * 255][..];
    let mut of_one = Tally::new("every slot with every length, read and written");
    let mut of_slots = Tally::new("every two slots, read and written");
    let mut of_lengths = Tally::new("every two lengths, read and written");
    for (first, second) in pairs() {
        for (tally, slots, lengths) in [
            (&mut of_one, &[first][..], &[second][..]),
            (&mut of_slots, &[first, second], &[1, 2]),
            (&mut of_lengths, &[4, 5], &[first, second]),
        ] {
            let count = lengths.iter().map(|length| usize::from(*length)).sum();
            let fields = Fields {
                slots: slots.to_vec(),
                lengths: lengths.to_vec(),
                bodies: bodies[..count].to_vec(),
            };
            let bytes = fields.bytes();
            let outcome = check_writing(&fields, bytes.len());
            assert_eq!(check_book(&bytes), outcome, "{bytes:02X?}");
            tally.add(outcome);
        }
    }
    let rising = 16 * 15 / 2;
    for (tally, right) in [
        (of_one, 16 * 200),
        (of_slots, rising),
        (of_lengths, 200 * 200),
    ] {
        tally.expect_counts([(BOOK, right), (Refused(32), ALL - right)]);
    }
}

/// Every count with a table and bodies that fit it, as far as slots go.
#[test]
fn every_count_of_templates() {
    let mut tally = Tally::new("every count of templates, read and written");
    for count in 0..=255 {
        let fields = Fields {
            slots: (0..count).collect(),
            lengths: vec![1; count.into()],
            bodies: (0..count).collect(),
        };
        let bytes = fields.bytes();
        let outcome = check_writing(&fields, bytes.len());
        assert_eq!(check_book(&bytes), outcome, "{bytes:02X?}");
        tally.add(outcome);
    }
    tally.expect_counts([(BOOK, 16), (Refused(32), 240)]);
}

#[test]
fn seeded_fields_are_written_alike() {
    const WRITINGS: usize = 2 * CASES;
    let random = &mut Random::new(5);
    let mut tally = Tally::new("seeded books written");
    for _ in 0..WRITINGS {
        let fields = samples::any_fields(random);
        let room = any_room(random, &fields);
        tally.add(check_writing(&fields, room));
    }
    tally.expect_only(&[BOOK, Refused(11), Refused(32)]);
    assert_eq!(tally.total(), WRITINGS);
}

#[test]
fn every_room_of_small_books() {
    const SAMPLES: usize = 2000;
    const MOST: usize = 40;
    let random = &mut Random::new(6);
    let mut tally = Tally::new("small books written into every room");
    let mut count = 0;
    while count < SAMPLES {
        let fields = samples::any_fields_that_are_right(random);
        let length = fields.bytes().len();
        if length > MOST {
            continue;
        }
        for room in 0..=MOST {
            let outcome = check_writing(&fields, room);
            let is_enough = room >= length;
            assert_eq!(outcome, if is_enough { BOOK } else { Refused(11) });
            tally.add(outcome);
        }
        count += 1;
    }
    tally.expect_only(&[BOOK, Refused(11)]);
}

/// What the library reads, it writes again from what it found.
#[test]
fn books_that_were_read_are_written_again() {
    let mut tally = Tally::new("books read and written again");
    for bytes in inputs(&mut Random::new(7), Service::Book) {
        let outcome = check_book(&bytes);
        if outcome != BOOK {
            continue;
        }
        let fields = fields_of(&bytes);
        let written = Written::by(bytes.len(), |out, stored| {
            library::write_book(
                [&fields.slots, &fields.lengths, &fields.bodies],
                out,
                stored,
            )
        });
        assert_eq!(written, Written::bytes(&bytes, bytes.len()));
        tally.add(outcome);
    }
    tally.expect_only(&[BOOK]);
    assert!(tally.total() >= CASES / 2);
}

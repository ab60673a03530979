//! Telegrams read and written.

use crate::library;
use crate::measure::{called, Load, Row};
use rabtunex_tests::random::Random;
use rabtunex_tests::reference::fields::{self, Fields};
use rabtunex_tests::reference::printer::BUFFER_ROOM;
use rabtunex_tests::reference::telegram::{self, Telegram};
use rabtunex_tests::samples::{self, Saps, LONGEST_PDU};
use std::hint::black_box;

/// So many that no processor remembers the way through all of them.
pub const MIX: usize = 2000;

/// Telegrams of every kind.
fn mix() -> Vec<Vec<u8>> {
    let random = &mut Random::new(1);
    (0..MIX).map(|_| samples::any_valid(random)).collect()
}

/// SD2 telegrams of 255 bytes, with both access points.
fn largest() -> Vec<Vec<u8>> {
    const COUNT: usize = 64;
    let random = &mut Random::new(2);
    let largest = |_| samples::sd2(random, LONGEST_PDU, Saps::BOTH);
    (0..COUNT).map(largest).collect()
}

/// Telegrams without data.
fn short() -> Vec<Vec<u8>> {
    let random = &mut Random::new(3);
    let short = |_| match random.below(3) {
        0 => samples::short_confirmation(),
        1 => samples::token(random),
        _ => samples::sd1(random),
    };
    (0..MIX).map(short).collect()
}

/// Reads each telegram.
pub struct Reading {
    name: &'static str,
    telegrams: Vec<Vec<u8>>,
}

impl Reading {
    /// A mix.
    pub fn mix() -> Self {
        Reading::of("reading a mix", mix())
    }

    /// The largest.
    pub fn largest() -> Self {
        Reading::of("reading the largest SD2", largest())
    }

    /// The shortest.
    pub fn short() -> Self {
        Reading::of("reading SD1, SC and tokens", short())
    }

    fn of(name: &'static str, telegrams: Vec<Vec<u8>>) -> Self {
        for bytes in &telegrams {
            let read = telegram::read(bytes).expect("valid");
            let mut fields = Fields::default();
            assert_eq!(library::read_telegram(bytes, &mut fields), 0);
            assert_eq!(fields, fields::of(&read), "{bytes:02X?}");
        }
        Reading { name, telegrams }
    }
}

impl Row for Reading {
    fn name(&self) -> String {
        self.name.into()
    }

    fn load(&self) -> Load {
        Load::of(self.telegrams.iter().map(Vec::as_slice))
    }

    fn library(&mut self) {
        let mut fields = Fields::default();
        for bytes in &self.telegrams {
            black_box(library::read_telegram(black_box(bytes), &mut fields));
            black_box(&fields);
        }
    }

    fn rust(&mut self) {
        for bytes in &self.telegrams {
            let bytes = black_box(bytes);
            black_box(&called(move || telegram::read(bytes)));
        }
    }
}

/// What is written: the same telegram for each side.
struct Given {
    fields: Fields,
    telegram: Telegram<'static>,
    bytes: &'static [u8],
}

/// Writes each telegram.
pub struct Writing {
    name: &'static str,
    given: Vec<Given>,
}

impl Writing {
    /// A mix.
    pub fn mix() -> Self {
        Writing::of("writing a mix", mix())
    }

    /// The largest.
    pub fn largest() -> Self {
        Writing::of("writing the largest SD2", largest())
    }

    fn of(name: &'static str, telegrams: Vec<Vec<u8>>) -> Self {
        let given = telegrams.into_iter().map(Given::of).collect();
        Writing { name, given }
    }
}

impl Given {
    fn of(bytes: Vec<u8>) -> Self {
        let bytes: &[u8] = bytes.leak();
        let telegram = telegram::read(bytes).expect("valid");
        let fields = fields::of(&telegram);
        let mut out = [0; BUFFER_ROOM];
        let mut stored = 0;
        let number = library::write_telegram(&fields, telegram.user(), &mut out, &mut stored);
        assert_eq!((number, &out[..stored]), (0, bytes));
        let mut out = [0; BUFFER_ROOM];
        let stored = telegram::write(&telegram, &mut out).expect("valid");
        assert_eq!(&out[..stored], bytes);
        Given {
            fields,
            telegram,
            bytes,
        }
    }
}

impl Row for Writing {
    fn name(&self) -> String {
        self.name.into()
    }

    fn load(&self) -> Load {
        Load::of(self.given.iter().map(|given| given.bytes))
    }

    fn library(&mut self) {
        let mut out = [0; BUFFER_ROOM];
        let mut stored = 0;
        for given in &self.given {
            let Given {
                fields, telegram, ..
            } = black_box(given);
            let out = black_box(&mut out[..]);
            black_box(library::write_telegram(
                fields,
                telegram.user(),
                out,
                &mut stored,
            ));
            black_box(stored);
        }
    }

    fn rust(&mut self) {
        let mut out = [0; BUFFER_ROOM];
        for given in &self.given {
            let Given { telegram, .. } = black_box(given);
            let out = black_box(&mut out[..]);
            black_box(&called(move || telegram::write(telegram, out)));
        }
    }
}

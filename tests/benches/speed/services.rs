//! Service telegrams read and written, in version DPV1.

use crate::measure::{called, Load, Row};
use crate::service_library as library;
use crate::telegrams::MIX;
use rabtunex_tests::random::Random;
use rabtunex_tests::reference::parameters::Mode;
use rabtunex_tests::reference::printer::BUFFER_ROOM;
use rabtunex_tests::reference::service::{self, ServiceTelegram};
use rabtunex_tests::reference::service_fields::{self, version_of, Fields, COUNT};
use rabtunex_tests::samples::service_telegrams;
use std::hint::black_box;

/// FCS and ED, before which the part ends.
const TRAILER_LENGTH: usize = 2;

/// A telegram, and what it says for each side.
struct Given {
    bytes: &'static [u8],
    fields: Fields,
    telegram: ServiceTelegram<'static>,
}

/// Telegrams of all services, both ways.
fn mix() -> Vec<Given> {
    let random = &mut Random::new(4);
    let any = |_| Given::of(service_telegrams::any_valid(random, Mode::Dpv1));
    (0..MIX).map(any).collect()
}

fn load_of(given: &[Given]) -> Load {
    Load::of(given.iter().map(|given| given.bytes))
}

impl Given {
    fn of(bytes: Vec<u8>) -> Self {
        let bytes: &[u8] = bytes.leak();
        let telegram = service::read(bytes, Mode::Dpv1).expect("valid");
        let start = bytes.len() - TRAILER_LENGTH - telegram.part.len();
        let fields = service_fields::of(&telegram, start);
        Given {
            bytes,
            fields,
            telegram,
        }
    }
}

/// Reads each telegram.
pub struct Reading(Vec<Given>);

impl Reading {
    /// A mix.
    pub fn mix() -> Self {
        let given = mix();
        for Given { bytes, fields, .. } in &given {
            let mut read = [0; COUNT];
            let number = library::read_service(bytes, version_of(Mode::Dpv1), &mut read);
            assert_eq!((number, &read), (0, fields), "{bytes:02X?}");
        }
        Reading(given)
    }
}

impl Row for Reading {
    fn name(&self) -> String {
        "reading a mix of services".into()
    }

    fn load(&self) -> Load {
        load_of(&self.0)
    }

    fn library(&mut self) {
        let version = version_of(Mode::Dpv1);
        let mut fields = [0; COUNT];
        for given in &self.0 {
            let bytes = black_box(given.bytes);
            black_box(library::read_service(bytes, version, &mut fields));
            black_box(&fields);
        }
    }

    fn rust(&mut self) {
        for given in &self.0 {
            let bytes = black_box(given.bytes);
            let mode = black_box(Mode::Dpv1);
            black_box(&called(move || service::read(bytes, mode)));
        }
    }
}

/// Writes each telegram.
pub struct Writing(Vec<Given>);

impl Writing {
    /// A mix.
    pub fn mix() -> Self {
        let given = mix();
        for given in &given {
            let mut out = [0; BUFFER_ROOM];
            let mut stored = 0;
            let number = given.write_by_library(&mut out, &mut stored);
            assert_eq!((number, &out[..stored]), (0, given.bytes));
            let mut out = [0; BUFFER_ROOM];
            let stored = service::write(&given.telegram, &mut out).expect("valid");
            assert_eq!(&out[..stored], given.bytes);
        }
        Writing(given)
    }
}

impl Given {
    fn write_by_library(&self, out: &mut [u8], stored: &mut usize) -> u8 {
        let version = version_of(Mode::Dpv1);
        library::write_service(&self.fields, version, self.telegram.part, out, stored)
    }
}

impl Row for Writing {
    fn name(&self) -> String {
        "writing a mix of services".into()
    }

    fn load(&self) -> Load {
        load_of(&self.0)
    }

    fn library(&mut self) {
        let mut out = [0; BUFFER_ROOM];
        let mut stored = 0;
        for given in &self.0 {
            let out = black_box(&mut out[..]);
            black_box(black_box(given).write_by_library(out, &mut stored));
            black_box(stored);
        }
    }

    fn rust(&mut self) {
        let mut out = [0; BUFFER_ROOM];
        for given in &self.0 {
            let out = black_box(&mut out[..]);
            let telegram = &black_box(given).telegram;
            black_box(&called(move || service::write(telegram, out)));
        }
    }
}

//! Data of services: a diagnosis walked over, and the offsets of a configuration.

use crate::data_library as library;
use crate::measure::{called, Load, Row};
use rabtunex_tests::random::Random;
use rabtunex_tests::reference::configuration::{self, Totals};
use rabtunex_tests::reference::diagnosis::{self, Block, Channel, ModuleMap, HEADER_LENGTH};
use rabtunex_tests::samples::diagnosis as samples;
use rabtunex_tests::samples::service_telegrams::with_saps;
use std::hint::black_box;

/// The longest data of a service, and the most modules of a configuration.
const LONGEST: usize = 244;
/// How many samples there are.
const COUNT: usize = 64;
/// The function code of an answer with data, and the access points of both services.
const ANSWER: u8 = 0x08;
const SLAVE_DIAG: [u8; 2] = [62, 60];
const GET_CFG: [u8; 2] = [62, 59];
/// The kind of a block that is none, and what stands for no module.
const NO_BLOCK: usize = 0;
const NO_MODULE: usize = 65_535;

/// The load of the telegrams that carry the data.
fn load_of(samples: &[Vec<u8>], saps: [u8; 2]) -> Load {
    let telegram = |data: &Vec<u8>| with_saps(ANSWER, saps, data);
    let telegrams: Vec<Vec<u8>> = samples.iter().map(telegram).collect();
    Load::of(telegrams.iter().map(Vec::as_slice))
}

/// Reads each diagnosis, and then block after block.
pub struct Diagnoses(Vec<Vec<u8>>);

impl Diagnoses {
    /// As long as they can be, with blocks of all kinds.
    pub fn new() -> Self {
        let random = &mut Random::new(5);
        let samples = (0..COUNT).map(|_| samples::of_length(random, LONGEST));
        let diagnoses = Diagnoses(samples.collect());
        for bytes in &diagnoses.0 {
            let (mut library, mut rust) = (Vec::new(), Vec::new());
            walk_library(bytes, |block| library.push(*block));
            walk_rust(bytes, |seen| rust.push(numbers_of(seen, bytes)));
            assert_eq!(library, rust, "{bytes:02X?}");
        }
        diagnoses
    }
}

/// The numbers of a block as the C interface has them (`include/rabtunex.h`).
fn numbers_of(seen: &Seen<'_>, bytes: &[u8]) -> [usize; 6] {
    let place = |part: &[u8]| part.as_ptr().addr() - bytes.as_ptr().addr();
    match seen.block {
        Block::Device(data) => [1, place(data), data.len(), 0, 0, 0],
        Block::Module(ModuleMap(map)) => {
            let (reporting, lowest) = seen.map.expect("it is a map");
            let lowest = lowest.map_or(NO_MODULE, |lowest| lowest as usize);
            [2, place(map), map.len(), reporting as usize, lowest, 0]
        }
        Block::Channel(Channel {
            module,
            direction,
            channel,
            kind,
            error,
        }) => [3, module, direction, channel, kind, error].map(usize::from),
    }
}

/// A block, and how many modules report and the lowest of them, if it is a map:
/// the library has both of every map that it steps over.
struct Seen<'a> {
    block: Block<'a>,
    map: Option<(u32, Option<u32>)>,
    /// Where the next one begins.
    next: usize,
}

fn walk_rust(bytes: &[u8], mut seen: impl FnMut(&Seen<'_>)) {
    let (header, count) = called(move || diagnosis::read(bytes)).expect("valid");
    black_box((header, count));
    let mut position = HEADER_LENGTH;
    while let Some(step) = called(move || step_rust(bytes, position)) {
        seen(&step);
        position = step.next;
    }
}

fn step_rust(bytes: &[u8], position: usize) -> Option<Seen<'_>> {
    let (block, next) = diagnosis::walk(bytes, position).expect("valid")?;
    let map = match block {
        Block::Module(map) => Some((map.reporting(), map.lowest())),
        Block::Device(_) | Block::Channel(_) => None,
    };
    Some(Seen { block, map, next })
}

fn walk_library(bytes: &[u8], mut seen: impl FnMut(&[usize; 6])) {
    let mut fields = [0; 6];
    assert_eq!(library::read_diagnosis(bytes, &mut fields), 0);
    black_box(&fields);
    let mut position = HEADER_LENGTH;
    let mut block = [0; 6];
    loop {
        assert_eq!(library::next_block(bytes, &mut position, &mut block), 0);
        if block[0] == NO_BLOCK {
            break;
        }
        seen(&block);
    }
}

impl Row for Diagnoses {
    fn name(&self) -> String {
        "walking over a diagnosis of 244 bytes".into()
    }

    fn load(&self) -> Load {
        load_of(&self.0, SLAVE_DIAG)
    }

    fn library(&mut self) {
        for bytes in &self.0 {
            walk_library(black_box(bytes), |block| {
                black_box(block);
            });
        }
    }

    fn rust(&mut self) {
        for bytes in &self.0 {
            walk_rust(black_box(bytes), |block| {
                black_box(block);
            });
        }
    }
}

/// Works out the offsets of each configuration.
pub struct Configurations {
    samples: Vec<Vec<u8>>,
    offsets: Offsets,
}

/// Where the bytes of each module begin among the inputs and the outputs.
#[derive(Clone, Debug, PartialEq, Eq)]
struct Offsets {
    inputs: [u16; LONGEST],
    outputs: [u16; LONGEST],
}

impl Configurations {
    /// As many modules as there can be: with no byte, an input, an output or both.
    pub fn new() -> Self {
        const MODULES: [u8; 4] = [0x00, 0x10, 0x20, 0x30];
        let random = &mut Random::new(6);
        let sample = |_| (0..LONGEST).map(|_| *random.pick(&MODULES)).collect();
        let configurations = Configurations {
            samples: (0..COUNT).map(sample).collect(),
            offsets: Offsets {
                inputs: [0; LONGEST],
                outputs: [0; LONGEST],
            },
        };
        for bytes in &configurations.samples {
            let mut library = configurations.offsets.clone();
            let mut rust = library.clone();
            assert_eq!(library.by_library(bytes), rust.by_rust(bytes));
            assert_eq!(library, rust, "{bytes:02X?}");
        }
        configurations
    }
}

impl Offsets {
    fn by_library(&mut self, bytes: &[u8]) -> [usize; 3] {
        let Offsets { inputs, outputs } = self;
        let mut totals = [0; 3];
        let number = library::configuration_offsets(bytes, inputs, outputs, &mut totals);
        assert_eq!(number, 0);
        totals
    }

    fn by_rust(&mut self, bytes: &[u8]) -> [usize; 3] {
        let Offsets { inputs, outputs } = self;
        let totals = called(move || configuration::read(bytes, inputs, outputs)).expect("valid");
        let Totals {
            modules,
            inputs,
            outputs,
        } = totals;
        [modules, inputs.into(), outputs.into()]
    }
}

impl Row for Configurations {
    fn name(&self) -> String {
        "offsets of a configuration of 244 modules".into()
    }

    fn load(&self) -> Load {
        load_of(&self.samples, GET_CFG)
    }

    fn library(&mut self) {
        for bytes in &self.samples {
            black_box(&self.offsets.by_library(black_box(bytes)));
            black_box(&self.offsets);
        }
    }

    fn rust(&mut self) {
        for bytes in &self.samples {
            black_box(&self.offsets.by_rust(black_box(bytes)));
            black_box(&self.offsets);
        }
    }
}

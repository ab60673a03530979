//! The proved library and the reference on the same diagnoses and
//! configurations, through the C interface: every number and every lent place
//! must be the same, and a refusal must leave all as it was.

#![deny(unsafe_code)]

mod archive;
#[allow(unsafe_code)]
mod data_library;
mod tally;

use archive::Outcome::{Accepted, Refused};
use archive::{inputs, pairs, Outcome, CASES};
use data_library as library;
use rabtunex_tests::random::Random;
use rabtunex_tests::reference::configuration;
use rabtunex_tests::reference::diagnosis::{self, Block, Channel, ModuleMap};
use rabtunex_tests::reference::service_text::Service;
use rabtunex_tests::samples::configuration as module_samples;
use rabtunex_tests::samples::diagnosis as block_samples;
use tally::Tally;

/// What stands in lent numbers and lists before a call: no call stores it.
const UNTOUCHED: usize = usize::MAX;
const UNTOUCHED_OFFSET: u16 = 0xAAAA;
/// Places before and after what is lent, which are not lent.
const MARGIN: usize = 8;

/// Where the first block stands.
const FIRST_BLOCK: usize = 6;
/// The kinds of block, by their numbers; the first is no block.
const KINDS: [&str; 4] = ["end", "device", "module", "channel"];
/// Stands for the lowest reporting module where none reports.
const NO_MODULE: usize = 65_535;

const DIAGNOSIS: Outcome = Accepted("diagnosis");
const CONFIGURATION: Outcome = Accepted("configuration");

/// Lent numbers, with a margin on either side.
#[derive(Clone, Copy, Debug, PartialEq, Eq)]
#[repr(C)]
struct Lent<const N: usize> {
    before: [usize; MARGIN],
    numbers: [usize; N],
    after: [usize; MARGIN],
}

impl<const N: usize> Lent<N> {
    const UNTOUCHED: Self = Self::holding([UNTOUCHED; N]);

    const fn holding(numbers: [usize; N]) -> Self {
        Lent {
            before: [UNTOUCHED; MARGIN],
            numbers,
            after: [UNTOUCHED; MARGIN],
        }
    }
}

/// Reads a diagnosis through both.
fn check_diagnosis(bytes: &[u8]) -> Outcome {
    let mut fields = Lent::UNTOUCHED;
    let number = library::read_diagnosis(bytes, &mut fields.numbers);
    let (outcome, expected) = match diagnosis::read(bytes) {
        Ok((header, blocks)) => {
            let fields = [
                header.status1.into(),
                header.status2.into(),
                header.status3.into(),
                header.master.into(),
                header.ident.into(),
                blocks,
            ];
            (DIAGNOSIS, (0, Lent::holding(fields)))
        }
        Err(refusal) => (Refused(refusal), (refusal, Lent::UNTOUCHED)),
    };
    assert_eq!((number, fields), expected, "{bytes:02X?}");
    outcome
}

/// One step from a position through both, and the position after it.
fn check_step(bytes: &[u8], position: usize) -> (Outcome, usize) {
    let mut at = Lent::holding([position]);
    let mut block = Lent::UNTOUCHED;
    let number = library::next_block(bytes, &mut at.numbers[0], &mut block.numbers);
    let (expected, next, lent) = match diagnosis::walk(bytes, position) {
        Ok(Some((block, next))) => (0, next, Lent::holding(block_numbers(&block, next))),
        Ok(None) => (0, position, Lent::holding([0; 6])),
        Err(refusal) => (refusal, position, Lent::UNTOUCHED),
    };
    let expected = (expected, Lent::holding([next]), lent);
    assert_eq!((number, at, block), expected, "{position} {bytes:02X?}");
    let outcome = match number {
        0 => Accepted(KINDS[block.numbers[0]]),
        refusal => Refused(refusal),
    };
    (outcome, next)
}

/// The numbers of a block that ends where the next one begins.
fn block_numbers(block: &Block<'_>, next: usize) -> [usize; 6] {
    match *block {
        Block::Device(data) => [1, next - data.len(), data.len(), 0, 0, 0],
        Block::Module(map) => {
            let ModuleMap(bytes) = map;
            let reporting = map.reporting() as usize;
            let lowest = map.lowest().map_or(NO_MODULE, |module| module as usize);
            let (start, length) = (next - bytes.len(), bytes.len());
            [2, start, length, reporting, lowest, 0]
        }
        Block::Channel(Channel {
            module,
            direction,
            channel,
            kind,
            error,
        }) => [3, module, direction, channel, kind, error].map(usize::from),
    }
}

/// Walks from the first block on, as long as there is another.
fn check_walk(bytes: &[u8], tally: &mut Tally<Outcome>) {
    let mut position = FIRST_BLOCK;
    loop {
        let (outcome, next) = check_step(bytes, position);
        tally.add(outcome);
        // A block moves the position; the end and a refusal do not.
        if next == position {
            return;
        }
        position = next;
    }
}

/// All that reading a configuration may have changed.
#[derive(Debug, PartialEq, Eq)]
struct Offsets {
    number: u8,
    /// The lists, with a margin on either side.
    inputs: Vec<u16>,
    outputs: Vec<u16>,
    totals: Lent<3>,
}

impl Offsets {
    /// Nothing, with room for so many inputs and outputs.
    fn nothing(rooms: [usize; 2]) -> Self {
        let [inputs, outputs] = rooms.map(|room| vec![UNTOUCHED_OFFSET; MARGIN + room + MARGIN]);
        Offsets {
            number: 0,
            inputs,
            outputs,
            totals: Lent::UNTOUCHED,
        }
    }

    /// What is lent of the lists.
    fn lists(&mut self) -> [&mut [u16]; 2] {
        [&mut self.inputs, &mut self.outputs].map(|list| {
            let end = list.len() - MARGIN;
            &mut list[MARGIN..end]
        })
    }

    fn by_library(bytes: &[u8], rooms: [usize; 2]) -> Self {
        let mut offsets = Offsets::nothing(rooms);
        let mut totals = offsets.totals;
        let [inputs, outputs] = offsets.lists();
        let number = library::configuration_offsets(bytes, inputs, outputs, &mut totals.numbers);
        Offsets {
            number,
            totals,
            ..offsets
        }
    }

    fn by_reference(bytes: &[u8], rooms: [usize; 2]) -> Self {
        let mut offsets = Offsets::nothing(rooms);
        let [inputs, outputs] = offsets.lists();
        match configuration::read(bytes, inputs, outputs) {
            Ok(totals) => {
                let (inputs, outputs) = (totals.inputs.into(), totals.outputs.into());
                offsets.totals = Lent::holding([totals.modules, inputs, outputs]);
            }
            Err(refusal) => offsets.number = refusal,
        }
        offsets
    }
}

/// Reads a configuration through both.
fn check_configuration(bytes: &[u8], rooms: [usize; 2]) -> Outcome {
    let offsets = Offsets::by_library(bytes, rooms);
    let expected = Offsets::by_reference(bytes, rooms);
    assert_eq!(offsets, expected, "{rooms:?} {bytes:02X?}");
    match expected.number {
        0 => CONFIGURATION,
        refusal => Refused(refusal),
    }
}

/// Document 01's rows, with every number written out.
#[test]
fn worked_rows() {
    let bytes = block_samples::WORKED_ROW;
    let mut fields = [UNTOUCHED; 6];
    assert_eq!(library::read_diagnosis(&bytes, &mut fields), 0);
    assert_eq!(fields, [0x08, 0x0C, 0x00, 2, 0x1234, 1]);
    let mut position = FIRST_BLOCK;
    for (expected, next) in [([3, 2, 1, 3, 1, 6], 9), ([0; 6], 9)] {
        let mut block = [UNTOUCHED; 6];
        assert_eq!(library::next_block(&bytes, &mut position, &mut block), 0);
        assert_eq!((block, position), (expected, next));
    }
    let bytes = module_samples::WORKED_ROW;
    let offsets = Offsets::by_library(&bytes, [3, 4]);
    let mut expected = Offsets::nothing([3, 4]);
    expected.inputs[MARGIN..][..3].copy_from_slice(&[0, 4, 4]);
    expected.outputs[MARGIN..][..3].copy_from_slice(&[0, 0, 12]);
    expected.totals = Lent::holding([3, 36, 20]);
    assert_eq!(offsets, expected);
}

#[test]
fn seeded_diagnoses_are_read_alike() {
    let mut tally = Tally::new("seeded diagnoses read");
    for bytes in inputs(&mut Random::new(1), Service::Diagnosis) {
        tally.add(check_diagnosis(&bytes));
    }
    let refused = [20, 21, 22, 23, 24, 25].map(Refused);
    tally.expect_only(&[&[DIAGNOSIS][..], &refused].concat());
    assert!(tally.total() >= CASES);
}

#[test]
fn seeded_diagnoses_are_walked_alike() {
    let mut tally = Tally::new("steps over seeded diagnoses");
    for bytes in inputs(&mut Random::new(2), Service::Diagnosis) {
        check_walk(&bytes, &mut tally);
    }
    // Fewer bytes than a header have no first position.
    let refused = [12, 23, 24, 25].map(Refused);
    tally.expect_only(&[&KINDS.map(Accepted)[..], &refused].concat());
    assert!(tally.total() >= CASES);
}

#[test]
fn every_position_is_walked_alike() {
    const SAMPLES: usize = 2000;
    // In one, two and four bytes these are the first position and the one after.
    const FAR: [usize; 7] = [
        FIRST_BLOCK + (1 << 8),
        FIRST_BLOCK + (1 << 16),
        FIRST_BLOCK + 1 + (1 << 16),
        FIRST_BLOCK + (1 << 32),
        FIRST_BLOCK + 1 + (1 << 32),
        FIRST_BLOCK + (1 << 63),
        usize::MAX,
    ];
    let random = &mut Random::new(3);
    let mut tally = Tally::new("steps from every position");
    for place in 0..SAMPLES {
        let bytes = match place % 2 {
            0 => block_samples::any_valid(random),
            _ => block_samples::damaged(random),
        };
        for position in (0..=bytes.len() + 2).chain(FAR) {
            tally.add(check_step(&bytes, position).0);
        }
    }
    let refused = [12, 23, 24, 25].map(Refused);
    tally.expect_only(&[&KINDS.map(Accepted)[..], &refused].concat());
    assert!(tally.total() >= CASES);
}

/// The walk judges no length, so a position and a start can need many bits.
#[test]
fn long_bytes_are_walked_alike() {
    let random = &mut Random::new(4);
    let bytes = block_samples::of_length(random, 70_000);
    let mut tally = Tally::new("steps over 70,000 bytes");
    check_walk(&bytes, &mut tally);
    tally.expect_only(&KINDS.map(Accepted));
    for position in (65_000..=70_002).chain([usize::MAX]) {
        check_step(&bytes, position);
    }
}

#[test]
fn every_pair_of_header_bytes() {
    const ALL: usize = 256 * 256;
    let mut status = Tally::new("status 1 and 2 read");
    let mut others = Tally::new("status 3 and master read");
    for (first, second) in pairs() {
        status.add(check_diagnosis(&[first, second, 0, 2, 0x12, 0x34]));
        others.add(check_diagnosis(&[0, 4, first, second, 0x12, 0x34]));
    }
    // Five bits of each are free; without blocks Ext_Diag is not.
    let (free, without_ext_diag) = (32 * 32, 16 * 32);
    status.expect_counts([
        (DIAGNOSIS, without_ext_diag),
        (Refused(21), ALL - free),
        (Refused(22), free - without_ext_diag),
    ]);
    let right = 2 * (126 + 1);
    others.expect_counts([(DIAGNOSIS, right), (Refused(21), ALL - right)]);
}

#[test]
fn every_pair_of_block_bytes() {
    let mut headers = Tally::new("block headers and second bytes walked");
    let mut codes = Tally::new("channel codes walked");
    for (first, second) in pairs() {
        let header = [8, 4, 0, 2, 0x12, 0x34];
        headers.add(check_step(&[&header[..], &[first, second, 0x26]].concat(), FIRST_BLOCK).0);
        codes.add(check_step(&[&header[..], &[0x82, first, second]].concat(), FIRST_BLOCK).0);
    }
    // Of 64 lengths two are too short, two fit three bytes and 60 do not.
    headers.expect_counts([
        (Accepted("device"), 2 * 256),
        (Accepted("module"), 2 * 256),
        (Accepted("channel"), 64 * 192),
        (Refused(23), 2 * 2 * 256 + 64 * 256),
        (Refused(24), 2 * 60 * 256),
        (Refused(25), 64 * 64),
    ]);
    let right = 192 * 6 * block_samples::ERRORS.len();
    codes.expect_counts([
        (Accepted("channel"), right),
        (Refused(25), 256 * 256 - right),
    ]);
}

#[test]
fn seeded_configurations_are_read_alike() {
    let random = &mut Random::new(5);
    let mut tally = Tally::new("seeded configurations read");
    for bytes in inputs(random, Service::Configuration) {
        let rooms = any_rooms(random, &bytes);
        tally.add(check_configuration(&bytes, rooms));
    }
    let refused = [11, 20, 24, 26, 27].map(Refused);
    tally.expect_only(&[&[CONFIGURATION][..], &refused].concat());
    assert!(tally.total() >= CASES);
}

/// For each list mostly just enough room or more; else one place too few, none
/// or any.
fn any_rooms(random: &mut Random, bytes: &[u8]) -> [usize; 2] {
    const MOST_MODULES: usize = 244;
    let totals = configuration::totals(bytes);
    let needed = totals.map_or(MOST_MODULES, |totals| totals.modules);
    [(); 2].map(|()| match random.below(16) {
        0 => 0,
        1 => needed - 1,
        2 => random.between(0, MOST_MODULES + 1),
        3..=8 => needed,
        _ => needed + random.between(1, 20),
    })
}

#[test]
fn lists_too_short_are_left_as_they_were() {
    let random = &mut Random::new(6);
    let mut tally = Tally::new("configurations read into short lists");
    let mut samples = module_samples::all_forms(random);
    samples.extend((0..2000).map(|_| module_samples::any_valid(random)));
    for sample in &samples {
        let all = sample.modules;
        for short in [all - 1, 0] {
            for rooms in [[short, all], [all, short], [short, short]] {
                tally.add(check_configuration(&sample.bytes, rooms));
            }
        }
        tally.add(check_configuration(&sample.bytes, [all, all]));
    }
    tally.expect_counts([
        (CONFIGURATION, samples.len()),
        (Refused(11), 6 * samples.len()),
    ]);
}

/// Lengths and rooms that in one or two bytes are too small, or right.
#[test]
fn lengths_that_a_short_number_would_not_show() {
    let random = &mut Random::new(7);
    let mut tally = Tally::new("configurations with 2^8 and 2^16 places more");
    for sample in module_samples::few_forms(random) {
        for more in [1 << 8, 1 << 16] {
            let rooms = [more, more + sample.modules];
            tally.add(check_configuration(&sample.bytes, rooms));
            let longer = [sample.bytes.as_slice(), &vec![0; more]].concat();
            tally.add(check_configuration(&longer, rooms));
            let diagnosis = [&block_samples::WORKED_ROW[..], &vec![2; more]].concat();
            assert_eq!(check_diagnosis(&diagnosis), Refused(20));
        }
    }
    tally.expect_only(&[CONFIGURATION, Refused(20)]);
}

#[test]
fn every_pair_of_configuration_bytes() {
    let mut tally = Tally::new("configurations of two bytes read");
    for (first, second) in pairs() {
        tally.add(check_configuration(&[first, second], [2, 2]));
    }
    // The modules that begin with a byte: 192 are general and one byte long, as
    // is one special one; three have two bytes; of the others four have the vendor
    // count 15 and the rest are longer.
    let of_one_byte = 192 + 1;
    let longer = 256 - of_one_byte - 3 - 4;
    tally.expect_counts([
        (CONFIGURATION, of_one_byte * of_one_byte + 3 * 256),
        (Refused(24), of_one_byte * (3 + longer) + longer * 256),
        (Refused(26), of_one_byte * 4 + 4 * 256),
    ]);
}

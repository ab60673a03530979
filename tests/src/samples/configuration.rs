//! Samples of a configuration, at most 300 bytes each.

use super::{changed_cut_or_lengthened, mostly_up_to, often_up_to};
use crate::random::Random;
use crate::reference::configuration::{Identifier, Module, Side};

/// Document 01's row: 3 modules, 36 input and 20 output bytes.
pub const WORKED_ROW: [u8; 6] = [0x13, 0x65, 0xC1, 0x07, 0x4F, 0x20];

/// The most bytes of a configuration, and of its inputs and of its outputs.
const LONGEST: usize = 244;
const MOST_VENDOR_BYTES: usize = 14;

/// The sides of a module, as both formats number them.
const INPUT: usize = 1;
const OUTPUT: usize = 2;
const BOTH: usize = INPUT | OUTPUT;

/// A configuration, or a module of one, and what it comes to.
#[derive(Clone, Debug, Default)]
pub struct Sample {
    /// The bytes.
    pub bytes: Vec<u8>,
    /// How many modules they are.
    pub modules: usize,
    /// How many input bytes they stand for.
    pub inputs: usize,
    /// How many output bytes they stand for.
    pub outputs: usize,
}

impl Sample {
    fn push(&mut self, module: Sample) {
        self.bytes.extend(module.bytes);
        self.modules += module.modules;
        self.inputs += module.inputs;
        self.outputs += module.outputs;
    }

    fn has_room_for(&self, module: &Sample, length: usize) -> bool {
        self.bytes.len() + module.bytes.len() <= length
            && self.inputs + module.inputs <= LONGEST
            && self.outputs + module.outputs <= LONGEST
    }
}

/// A configuration of a given length; one above 244 is right in all but that.
pub fn of_length(random: &mut Random, length: usize) -> Sample {
    let mut sample = Sample::default();
    while sample.bytes.len() < length {
        let module = any_module(random);
        if sample.has_room_for(&module, length) {
            sample.push(module);
        } else {
            // Modules of no sides always fit.
            let most = (length - sample.bytes.len() - 1).min(MOST_VENDOR_BYTES);
            let vendor_count = random.between(0, most);
            sample.push(special(random, 0, vendor_count));
        }
    }
    sample
}

/// A configuration with just these input and output bytes, which may be more
/// than it can have.
pub fn of_totals(random: &mut Random, inputs: usize, outputs: usize) -> Sample {
    let mut sample = Sample::default();
    while sample.inputs < inputs {
        let length = random.between(1, (inputs - sample.inputs).min(64));
        sample.push(one_sided(random, INPUT, length));
    }
    while sample.outputs < outputs {
        let length = random.between(1, (outputs - sample.outputs).min(64));
        sample.push(one_sided(random, OUTPUT, length));
    }
    sample
}

/// A valid configuration, every second one short and some as full as can be.
pub fn any_valid(random: &mut Random) -> Sample {
    if random.below(8) == 0 {
        return of_totals(random, LONGEST, LONGEST);
    }
    let length = often_up_to(random, 1, 12, LONGEST);
    of_length(random, length)
}

/// Valid configurations of every length, each module of every form alone, the
/// most modules that there can be, and the fullest inputs and outputs.
pub fn all_forms(random: &mut Random) -> Vec<Sample> {
    let mut samples: Vec<Sample> = (1..=LONGEST)
        .map(|length| of_length(random, length))
        .collect();
    for identifier in (0..=255).filter(|byte| byte & 0x30 != 0) {
        samples.push(general(identifier));
    }
    for (sides, vendor_count) in every_special() {
        samples.push(special(random, sides, vendor_count));
    }
    for length in 0..=255 {
        samples.push(special_of(INPUT, &[length], &[]));
        samples.push(special_of(OUTPUT, &[length], &[]));
    }
    samples.push(most_modules());
    samples.push(of_totals(random, LONGEST, LONGEST));
    samples
}

/// Valid configurations of each shape: general modules with every choice of
/// sides and of bits 7-6, special ones with every choice of sides and the fewest
/// and the most vendor bytes, the longest, the most modules, the fullest inputs
/// and outputs, and some of any shape.
pub fn few_forms(random: &mut Random) -> Vec<Sample> {
    let mut samples = Vec::new();
    for sides in [0x10, 0x20, 0x30] {
        for high_bits in [0x00, 0x40, 0x80, 0xC0] {
            samples.push(general(high_bits | sides | random.byte() & 0x0F));
        }
    }
    for sides in 0..=BOTH {
        samples.push(special(random, sides, 0));
        samples.push(special(random, sides, MOST_VENDOR_BYTES));
    }
    samples.push(of_length(random, LONGEST));
    samples.push(most_modules());
    samples.push(of_totals(random, LONGEST, LONGEST));
    samples.extend((0..3).map(|_| any_valid(random)));
    samples
}

/// As many modules as a configuration has room for.
fn most_modules() -> Sample {
    let mut sample = Sample::default();
    for _ in 0..LONGEST {
        sample.push(special_of(0, &[], &[]));
    }
    sample
}

fn every_special() -> impl Iterator<Item = (usize, usize)> {
    (0..=BOTH).flat_map(|sides| (0..=MOST_VENDOR_BYTES).map(move |count| (sides, count)))
}

/// A module of either format, every second one small.
fn any_module(random: &mut Random) -> Sample {
    if random.below(2) == 0 {
        let units = random.byte() & *random.pick(&[0x01, 0x0F]);
        let sides = random.between(INPUT, BOTH) as u8;
        return general(random.byte() & 0xC0 | sides << 4 | units);
    }
    let sides = random.between(0, BOTH);
    let vendor_count = often_up_to(random, 0, 1, MOST_VENDOR_BYTES);
    special(random, sides, vendor_count)
}

/// The module of an identifier that is general.
fn general(identifier: u8) -> Sample {
    let length = side_length(identifier, 0x0F);
    Sample {
        bytes: vec![identifier],
        modules: 1,
        inputs: if identifier & 0x10 == 0 { 0 } else { length },
        outputs: if identifier & 0x20 == 0 { 0 } else { length },
    }
}

/// The bytes of a side: its units less one, and words or not.
fn side_length(byte: u8, mask: u8) -> usize {
    let unit = if byte & 0x40 == 0 { 1 } else { 2 };
    (usize::from(byte & mask) + 1) * unit
}

/// A special module, with every second side small.
fn special(random: &mut Random, sides: usize, vendor_count: usize) -> Sample {
    let mut lengths = vec![0; sides.count_ones() as usize];
    for length in &mut lengths {
        *length = random.byte() & *random.pick(&[0xC1, 0xFF]);
    }
    special_of(sides, &lengths, &random.bytes(vendor_count))
}

/// The special module of length bytes, the output's first, and vendor bytes.
fn special_of(sides: usize, lengths: &[u8], vendor: &[u8]) -> Sample {
    let identifier = (sides << 6 | vendor.len()) as u8;
    let length = |place: usize| side_length(lengths[place], 0x3F);
    let (inputs, outputs) = match sides {
        INPUT => (length(0), 0),
        OUTPUT => (0, length(0)),
        BOTH => (length(1), length(0)),
        _ => (0, 0),
    };
    Sample {
        bytes: [&[identifier], lengths, vendor].concat(),
        modules: 1,
        inputs,
        outputs,
    }
}

/// A module of one side that has 1..=64 bytes, in either format.
fn one_sided(random: &mut Random, side: usize, length: usize) -> Sample {
    let words = length.is_multiple_of(2) && random.below(2) == 0;
    let units = if words { length / 2 } else { length };
    let byte = (usize::from(words) << 6 | (units - 1)) as u8 | random.byte() & 0x80;
    if units <= 16 && random.below(2) == 0 {
        general(byte | (side << 4) as u8)
    } else {
        special_of(side, &[byte], &[])
    }
}

/// No bytes or too many: reading gives 20.
pub fn length_wrong(random: &mut Random) -> Vec<u8> {
    let length = match random.below(4) {
        0 => 0,
        _ => random.between(LONGEST + 1, 300),
    };
    of_length(random, length).bytes
}

/// One module whose vendor count is 15: reading gives 26, also where the module
/// then runs past the data.
pub fn vendor_count_reserved(random: &mut Random) -> Vec<u8> {
    let identifier = (random.below(4) << 6) as u8 | 0x0F;
    let mut bytes = few_modules(random);
    bytes.push(identifier);
    bytes.extend(few_modules(random));
    bytes
}

/// The last module cut short after its identifier or later: reading gives 24.
pub fn module_past_end(random: &mut Random) -> Vec<u8> {
    let sides = random.between(INPUT, BOTH);
    let vendor_count = random.between(0, MOST_VENDOR_BYTES);
    let mut last = special(random, sides, vendor_count).bytes;
    last.truncate(random.between(1, last.len() - 1));
    let mut bytes = few_modules(random);
    bytes.extend(last);
    bytes
}

/// Up to 100 bytes of modules, every second time few.
fn few_modules(random: &mut Random) -> Vec<u8> {
    let length = often_up_to(random, 0, 5, 100);
    of_length(random, length).bytes
}

/// Over 244 input or output bytes, or both, often by one: reading gives 27.
pub fn totals_wrong(random: &mut Random) -> Vec<u8> {
    let over = LONGEST + often_up_to(random, 1, 1, 100);
    let other = often_up_to(random, 0, LONGEST, LONGEST + 100);
    let sample = match random.below(2) {
        0 => of_totals(random, over, other),
        _ => of_totals(random, other, over),
    };
    sample.bytes
}

/// Damage in one place, of any kind, and a few bytes of any value.
pub fn damaged(random: &mut Random) -> Vec<u8> {
    match random.below(6) {
        0 => length_wrong(random),
        1 => vendor_count_reserved(random),
        2 => module_past_end(random),
        3 => totals_wrong(random),
        4 => {
            let length = random.between(1, 12);
            random.bytes(length)
        }
        _ => {
            let bytes = any_valid(random).bytes;
            changed_cut_or_lengthened(random, &bytes)
        }
    }
}

/// The fields of a module to write, mostly right. The vendor bytes are lent from
/// the front of `lent`, which has at least 300 bytes.
pub fn any_fields<'a>(random: &mut Random, lent: &'a [u8]) -> Module<'a> {
    let is_general = random.below(2) == 0;
    let most_units = if is_general { 16 } else { 64 };
    let input = any_side(random, most_units);
    let output = match random.below(8) {
        0 => any_side(random, most_units),
        // Only alike do two sides fit one byte.
        _ if is_general => input,
        _ => any_side(random, most_units),
    };
    let vendor_count = match random.below(32) {
        0 => random.between(0, 300),
        // The general format has none.
        4.. if is_general => 0,
        _ => usize::from(mostly_up_to(random, MOST_VENDOR_BYTES as u8)),
    };
    let sides = random.below(BOTH + 1);
    Module {
        identifier: match is_general {
            true => Identifier::General,
            false => Identifier::Special,
        },
        input: (sides & INPUT != 0).then_some(input),
        output: (sides & OUTPUT != 0).then_some(output),
        vendor: &lent[..vendor_count],
    }
}

fn any_side(random: &mut Random, most_units: u8) -> Side {
    Side {
        units: mostly_up_to(random, most_units),
        words: random.below(2) == 0,
        consistent: random.below(2) == 0,
    }
}

#[cfg(test)]
mod tests {
    use super::*;
    use crate::reference::configuration::{totals, write_module};
    use std::collections::BTreeSet;

    #[test]
    fn valid_ones_are_read_and_come_to_what_they_say() {
        let random = &mut Random::new(1);
        let forms = all_forms(random);
        let lengths: BTreeSet<usize> = forms.iter().map(|form| form.bytes.len()).collect();
        assert_eq!(lengths, (1..=LONGEST).collect());
        let any = (0..2000).map(|_| any_valid(random));
        for sample in forms.into_iter().chain(any) {
            let found = totals(&sample.bytes).expect("valid");
            assert_eq!(found.modules, sample.modules, "{sample:02X?}");
            assert_eq!(usize::from(found.inputs), sample.inputs, "{sample:02X?}");
            assert_eq!(usize::from(found.outputs), sample.outputs, "{sample:02X?}");
        }
    }

    #[test]
    fn each_damage_gets_its_number() {
        type Make = fn(&mut Random) -> Vec<u8>;
        let random = &mut Random::new(2);
        let damages: [(Make, u8); 4] = [
            (length_wrong, 20),
            (module_past_end, 24),
            (vendor_count_reserved, 26),
            (totals_wrong, 27),
        ];
        for (make, number) in damages {
            for _ in 0..3000 {
                let bytes = make(random);
                assert_eq!(totals(&bytes), Err(number), "{bytes:02X?}");
                assert!(bytes.len() <= 300);
            }
        }
    }

    #[test]
    fn any_damage_and_any_fields_reach_every_number() {
        let random = &mut Random::new(3);
        let lent = random.bytes(300);
        let mut read_as = BTreeSet::new();
        let mut written_as = BTreeSet::new();
        for _ in 0..5000 {
            read_as.insert(totals(&damaged(random)).err());
            let module = any_fields(random, &lent);
            let written = write_module(&module, &mut [0; 300]).err();
            let is_general = module.identifier == Identifier::General;
            written_as.insert((is_general, written));
        }
        let expected = [None, Some(20), Some(24), Some(26), Some(27)];
        assert_eq!(read_as, BTreeSet::from(expected));
        let general = [None, Some(20), Some(21)].map(|outcome| (true, outcome));
        let special = [None, Some(21), Some(26)].map(|outcome| (false, outcome));
        let expected = general.into_iter().chain(special).collect();
        assert_eq!(written_as, expected);
    }
}

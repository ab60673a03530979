//! The data of Chk_Cfg and Get_Cfg: the modules of a slave, and where the bytes
//! of each stand among its inputs and outputs.

use super::{refusal, store, LONGEST_DATA};

/// Bits 5-4 of an identifier: the sides of a general one, and none set in a
/// special one.
const GENERAL_INPUT: u8 = 0x10;
const GENERAL_OUTPUT: u8 = 0x20;
const GENERAL_SIDES: u8 = GENERAL_INPUT | GENERAL_OUTPUT;
/// Bits 7-6 of a special identifier: which length bytes follow.
const SPECIAL_INPUT: u8 = 0x40;
const SPECIAL_OUTPUT: u8 = 0x80;

/// The low nibble of an identifier: units less one, or how many vendor bytes.
const NIBBLE: u8 = 0x0F;
/// The highest vendor count that fits the nibble, which is not used.
const RESERVED_VENDOR_COUNT: usize = 15;
/// Bits 5-0 of a length byte: units less one.
const LOW_SIX: u8 = 0x3F;
/// Bits 6 and 7, wherever units are counted.
const WORDS: u8 = 0x40;
const CONSISTENT: u8 = 0x80;

/// One module.
#[derive(Clone, Copy, Debug, PartialEq, Eq)]
pub struct Module<'a> {
    /// The format it is written in.
    pub identifier: Identifier,
    /// What it gives to the master.
    pub input: Option<Side>,
    /// What it takes from the master.
    pub output: Option<Side>,
    /// The vendor bytes, borrowed: none, in a general module that is right.
    pub vendor: &'a [u8],
}

/// The formats of a module.
#[derive(Clone, Copy, Debug, PartialEq, Eq)]
pub enum Identifier {
    /// One byte for all: both sides are alike, where there are two.
    General,
    /// A length byte for each side, and vendor bytes.
    Special,
}

/// The inputs or the outputs of a module.
#[derive(Clone, Copy, Debug, PartialEq, Eq)]
pub struct Side {
    /// How many units: 1..=16 in the general format, 1..=64 in the special one.
    pub units: u8,
    /// Whether a unit is a word of two bytes, and not one byte.
    pub words: bool,
    /// Bit 7: consistent over the whole side, and not over each unit.
    pub consistent: bool,
}

impl Side {
    /// The side that a byte describes, with its units under a mask.
    const fn from_byte(byte: u8, mask: u8) -> Self {
        Side {
            units: (byte & mask) + 1,
            words: byte & WORDS != 0,
            consistent: byte & CONSISTENT != 0,
        }
    }

    /// The byte that describes the side, when its units fit under the mask.
    fn to_byte(self, mask: u8) -> Result<u8, u8> {
        let units = self.units.checked_sub(1).filter(|units| *units <= mask);
        let words = if self.words { WORDS } else { 0 };
        let consistent = if self.consistent { CONSISTENT } else { 0 };
        Ok(units.ok_or(refusal::BITS)? | words | consistent)
    }

    /// How many bytes it takes among the inputs or outputs.
    pub const fn length(self) -> u16 {
        (self.units as u16) << self.words as u8
    }
}

/// What a configuration comes to.
#[derive(Clone, Copy, Debug, Default, PartialEq, Eq)]
pub struct Totals {
    /// The number of modules.
    pub modules: usize,
    /// The input bytes of all modules.
    pub inputs: u16,
    /// The output bytes of all modules.
    pub outputs: u16,
}

/// How many bytes a module takes among the inputs and among the outputs.
type Lengths = [u16; 2];

/// The lengths of each module that is one byte; no other has any here.
///
/// The rule worked out at compile time: most modules are such, of one kind or another,
/// and no two need be alike.
static ONE_BYTE: [Option<Lengths>; 256] = {
    let mut table = [None; 256];
    let mut identifier = 0;
    while identifier < 256 {
        table[identifier] = lengths_of_byte(identifier as u8);
        identifier += 1;
    }
    table
};

const fn lengths_of_byte(identifier: u8) -> Option<Lengths> {
    let length = Side::from_byte(identifier, NIBBLE).length();
    match identifier & GENERAL_SIDES {
        GENERAL_INPUT => Some([length, 0]),
        GENERAL_OUTPUT => Some([0, length]),
        GENERAL_SIDES => Some([length, length]),
        _ if identifier == 0 => Some([0, 0]),
        _ => None,
    }
}

/// Reads a configuration and answers its totals, or its refusal number.
pub fn totals(bytes: &[u8]) -> Result<Totals, u8> {
    add_up(bytes, |_| {})
}

/// Reads a configuration and answers its totals; where the bytes of each module
/// begin, or would begin, goes to the front of the two lists. Answers the
/// refusal number otherwise, and stores nothing.
pub fn read(bytes: &[u8], inputs: &mut [u16], outputs: &mut [u16]) -> Result<Totals, u8> {
    let mut offsets = [[0; 2]; LONGEST_DATA];
    let mut places = offsets.iter_mut();
    let totals = add_up(bytes, |before| {
        if let Some(place) = places.next() {
            *place = [before.inputs, before.outputs];
        }
    })?;
    let inputs = inputs.get_mut(..totals.modules).ok_or(refusal::OUTPUT)?;
    let outputs = outputs.get_mut(..totals.modules).ok_or(refusal::OUTPUT)?;
    for ((input, output), offset) in inputs.iter_mut().zip(outputs).zip(offsets) {
        [*input, *output] = offset;
    }
    Ok(totals)
}

/// The totals of a right configuration; those before each module go to `seen`.
///
/// No side has more than 128 bytes and no configuration more than 244 modules, so
/// that the sums stay in range.
fn add_up(bytes: &[u8], mut seen: impl FnMut(&Totals)) -> Result<Totals, u8> {
    if bytes.is_empty() || bytes.len() > LONGEST_DATA {
        return Err(refusal::DATA_LENGTH);
    }
    let mut totals = Totals::default();
    let mut rest = bytes;
    while let Some((first, after)) = rest.split_first() {
        seen(&totals);
        let (lengths, after) = split_lengths(*first, after)?;
        let [input, output] = lengths;
        rest = after;
        totals.modules += 1;
        totals.inputs += input;
        totals.outputs += output;
    }
    if usize::from(totals.inputs.max(totals.outputs)) > LONGEST_DATA {
        return Err(refusal::PROCESS_DATA);
    }
    Ok(totals)
}

/// The lengths of the module that begins with an identifier, and what stands after
/// it.
fn split_lengths(identifier: u8, after: &[u8]) -> Result<(Lengths, &[u8]), u8> {
    if let Some(lengths) = ONE_BYTE[usize::from(identifier)] {
        return Ok((lengths, after));
    }
    let (module, rest) = split_module(identifier, after)?;
    let length = |side: Option<Side>| side.map_or(0, Side::length);
    Ok(([length(module.input), length(module.output)], rest))
}

/// The module at a position and the position after it, or nothing at the end of
/// the bytes. This module alone is judged.
pub fn walk(bytes: &[u8], position: usize) -> Result<Option<(Module<'_>, usize)>, u8> {
    let rest = bytes.get(position..).ok_or(refusal::FIELD)?;
    let Some((first, after)) = rest.split_first() else {
        return Ok(None);
    };
    let (module, rest) = split_module(*first, after)?;
    Ok(Some((module, bytes.len() - rest.len())))
}

/// The module that begins with an identifier, and what stands after it.
fn split_module(identifier: u8, after: &[u8]) -> Result<(Module<'_>, &[u8]), u8> {
    if identifier & GENERAL_SIDES == 0 {
        return split_special(identifier, after);
    }
    let side = Side::from_byte(identifier, NIBBLE);
    let module = Module {
        identifier: Identifier::General,
        input: (identifier & GENERAL_INPUT != 0).then_some(side),
        output: (identifier & GENERAL_OUTPUT != 0).then_some(side),
        vendor: &[],
    };
    Ok((module, after))
}

fn split_special(identifier: u8, after: &[u8]) -> Result<(Module<'_>, &[u8]), u8> {
    let vendor_count = usize::from(identifier & NIBBLE);
    if vendor_count == RESERVED_VENDOR_COUNT {
        return Err(refusal::VENDOR_COUNT);
    }
    let has_input = identifier & SPECIAL_INPUT != 0;
    let has_output = identifier & SPECIAL_OUTPUT != 0;
    let length_count = usize::from(has_input) + usize::from(has_output);
    let (own, rest) = after
        .split_at_checked(length_count + vendor_count)
        .ok_or(refusal::PAST_END)?;
    let (lengths, vendor) = own.split_at(length_count);
    let mut sides = lengths.iter().map(|byte| Side::from_byte(*byte, LOW_SIX));
    // The output's length stands first; whichever is left is the input's.
    let output = if has_output { sides.next() } else { None };
    let module = Module {
        identifier: Identifier::Special,
        input: sides.next(),
        output,
        vendor,
    };
    Ok((module, rest))
}

/// Writes one module to the front of `out` and answers its length, or answers
/// the refusal number and stores nothing.
pub fn write_module(module: &Module<'_>, out: &mut [u8]) -> Result<usize, u8> {
    let Module {
        identifier,
        input,
        output,
        vendor,
    } = *module;
    match identifier {
        Identifier::General => write_general(input, output, vendor, out),
        Identifier::Special => write_special(input, output, vendor, out),
    }
}

/// A general module has no vendor bytes, whatever else is wrong with it.
fn write_general(
    input: Option<Side>,
    output: Option<Side>,
    vendor: &[u8],
    out: &mut [u8],
) -> Result<usize, u8> {
    if !vendor.is_empty() {
        return Err(refusal::DATA_LENGTH);
    }
    store([&[general_identifier(input, output)?]], out)
}

/// The one byte of a general module, which has room for one description.
fn general_identifier(input: Option<Side>, output: Option<Side>) -> Result<u8, u8> {
    let (side, sides) = match (input, output) {
        (Some(side), None) => (side, GENERAL_INPUT),
        (None, Some(side)) => (side, GENERAL_OUTPUT),
        (Some(input), Some(output)) if input == output => (input, GENERAL_SIDES),
        _ => return Err(refusal::BITS),
    };
    Ok(side.to_byte(NIBBLE)? | sides)
}

fn write_special(
    input: Option<Side>,
    output: Option<Side>,
    vendor: &[u8],
    out: &mut [u8],
) -> Result<usize, u8> {
    // The count stands in the first byte, before both lengths.
    if vendor.len() > RESERVED_VENDOR_COUNT {
        return Err(refusal::BITS);
    }
    if vendor.len() == RESERVED_VENDOR_COUNT {
        return Err(refusal::VENDOR_COUNT);
    }
    let length = |side: Side| side.to_byte(LOW_SIX);
    let output = output.map(length).transpose()?;
    let input = input.map(length).transpose()?;
    let output_flag = output.map_or(0, |_| SPECIAL_OUTPUT);
    let input_flag = input.map_or(0, |_| SPECIAL_INPUT);
    let identifier = output_flag | input_flag | vendor.len() as u8;
    store(
        [&[identifier], output.as_slice(), input.as_slice(), vendor],
        out,
    )
}

/// Writes a configuration from the bytes of its modules, as `write_module` does;
/// it refuses what reading would refuse.
pub fn write(modules: &[u8], out: &mut [u8]) -> Result<usize, u8> {
    totals(modules)?;
    store([modules], out)
}

#[cfg(test)]
mod tests {
    use super::*;
    use crate::random::Random;
    use crate::reference::expect;
    use crate::samples::{self, configuration as sample};

    /// What stands in a list before a reading.
    const UNTOUCHED: [u16; 250] = [0xAAAA; 250];

    const fn side(units: u8, words: bool, consistent: bool) -> Side {
        Side {
            units,
            words,
            consistent,
        }
    }

    const fn general(input: Option<Side>, output: Option<Side>) -> Module<'static> {
        Module {
            identifier: Identifier::General,
            input,
            output,
            vendor: &[],
        }
    }

    const fn special(input: Option<Side>, output: Option<Side>, vendor: &[u8]) -> Module<'_> {
        Module {
            identifier: Identifier::Special,
            input,
            output,
            vendor,
        }
    }

    #[test]
    fn worked_row() {
        let bytes = sample::WORKED_ROW;
        let expected = Totals {
            modules: 3,
            inputs: 36,
            outputs: 20,
        };
        let (mut inputs, mut outputs) = (UNTOUCHED, UNTOUCHED);
        assert_eq!(totals(&bytes), Ok(expected));
        assert_eq!(read(&bytes, &mut inputs, &mut outputs), Ok(expected));
        assert_eq!(inputs[..4], [0, 4, 4, 0xAAAA]);
        assert_eq!(outputs[..4], [0, 0, 12, 0xAAAA]);
        expect::written(&bytes, |out| write(&bytes, out));

        let four_bytes = general(Some(side(4, false, false)), None);
        let six_words = general(None, Some(side(6, true, false)));
        let both = special(
            Some(side(16, true, false)),
            Some(side(8, false, false)),
            &bytes[5..],
        );
        assert_eq!(walk(&bytes, 0), Ok(Some((four_bytes, 1))));
        assert_eq!(walk(&bytes, 1), Ok(Some((six_words, 2))));
        assert_eq!(walk(&bytes, 2), Ok(Some((both, 6))));
    }

    #[test]
    fn walk_ends_at_the_end() {
        assert_eq!(walk(&[], 0), Ok(None));
        assert_eq!(walk(&sample::WORKED_ROW, 6), Ok(None));
        for position in [7, 244, usize::MAX] {
            assert_eq!(walk(&sample::WORKED_ROW, position), Err(refusal::FIELD));
        }
    }

    #[test]
    fn each_format_keeps_its_fields() {
        let small = side(1, false, false);
        let bytes_16 = side(16, false, true);
        let words_64 = side(64, true, true);
        for (bytes, module) in [
            (&[0x10][..], general(Some(small), None)),
            (&[0xAF], general(None, Some(bytes_16))),
            (&[0xBF], general(Some(bytes_16), Some(bytes_16))),
            (&[0x00], special(None, None, &[])),
            (&[0x02, 7, 8], special(None, None, &[7, 8])),
            (&[0x40, 0xFF], special(Some(words_64), None, &[])),
            (&[0x81, 0x8F, 9], special(None, Some(bytes_16), &[9])),
            (
                &[0xC0, 0xFF, 0x00],
                special(Some(small), Some(words_64), &[]),
            ),
            (
                &[0xC1, 0x00, 0xFF, 5],
                special(Some(words_64), Some(small), &[5]),
            ),
        ] {
            assert_eq!(walk(bytes, 0), Ok(Some((module, bytes.len()))));
            expect::written(bytes, |out| write_module(&module, out));
        }
    }

    /// Walks over a right configuration, writes each module again, and answers
    /// where the walk says that each begins among the inputs and outputs.
    fn rewritten(bytes: &[u8]) -> (Vec<u16>, Vec<u16>) {
        let (mut inputs, mut outputs) = (Vec::new(), Vec::new());
        let (mut input, mut output) = (0, 0);
        let mut position = 0;
        while let Some((module, next)) = walk(bytes, position).expect("valid") {
            expect::written(&bytes[position..next], |out| write_module(&module, out));
            inputs.push(input);
            outputs.push(output);
            input += module.input.map_or(0, Side::length);
            output += module.output.map_or(0, Side::length);
            position = next;
        }
        (inputs, outputs)
    }

    #[test]
    fn written_as_read_with_the_offsets() {
        for sample in sample::all_forms(&mut Random::new(1)) {
            let bytes = sample.bytes;
            let expected = totals(&bytes).expect("valid");
            let count = expected.modules;
            let (mut inputs, mut outputs) = (UNTOUCHED, UNTOUCHED);
            assert_eq!(read(&bytes, &mut inputs, &mut outputs), Ok(expected));
            let offsets = rewritten(&bytes);
            assert_eq!(inputs[..count], offsets.0);
            assert_eq!(outputs[..count], offsets.1);
            assert_eq!(inputs[count..], UNTOUCHED[count..]);
            assert_eq!(outputs[count..], UNTOUCHED[count..]);
            expect::written(&bytes, |out| write(&bytes, out));
        }
    }

    /// Reading with lists of these lengths is refused and stores nothing.
    fn expect_refused(number: u8, bytes: &[u8], lists: [usize; 2]) {
        let (mut inputs, mut outputs) = (UNTOUCHED, UNTOUCHED);
        let outcome = read(bytes, &mut inputs[..lists[0]], &mut outputs[..lists[1]]);
        assert_eq!(outcome, Err(number), "{bytes:02X?}");
        assert_eq!((inputs, outputs), (UNTOUCHED, UNTOUCHED));
    }

    #[test]
    fn too_short_a_list_is_left_alone() {
        let random = &mut Random::new(2);
        for _ in 0..2000 {
            let sample = sample::any_valid(random);
            let count = sample.modules;
            let short = random.below(count);
            for lists in [[short, count], [count, short], [count - 1, 250], [0, 0]] {
                expect_refused(refusal::OUTPUT, &sample.bytes, lists);
            }
            let (mut inputs, mut outputs) = (UNTOUCHED, UNTOUCHED);
            let exact = read(&sample.bytes, &mut inputs[..count], &mut outputs[..count]);
            assert_eq!(exact, totals(&sample.bytes));
        }
    }

    #[test]
    fn refusals_come_before_short_lists_and_are_those_of_writing() {
        let random = &mut Random::new(3);
        for _ in 0..20_000 {
            let bytes = sample::damaged(random);
            match totals(&bytes) {
                Ok(_) => expect::written(&bytes, |out| write(&bytes, out)),
                Err(number) => {
                    expect_refused(number, &bytes, [250, 250]);
                    expect_refused(number, &bytes, [0, 250]);
                    expect_refused(number, &bytes, [250, 0]);
                    expect::refused(number, |out| write(&bytes, out));
                }
            }
        }
    }

    #[test]
    fn each_fault_hides_the_later_ones() {
        // 128 input bytes, twice.
        let mut bytes = vec![0x40, 0xFF, 0x40, 0xFF];
        assert_eq!(totals(&bytes), Err(refusal::PROCESS_DATA));
        bytes.extend([0x43, 0x00, 0x0F]);
        assert_eq!(totals(&bytes), Err(refusal::PAST_END));
        bytes.splice(4..4, [0xCF]);
        assert_eq!(totals(&bytes), Err(refusal::VENDOR_COUNT));
        bytes.splice(0..0, [0x4E]);
        bytes.truncate(9);
        assert_eq!(totals(&bytes), Err(refusal::PAST_END));
        bytes.resize(245, 0x0F);
        assert_eq!(totals(&bytes), Err(refusal::DATA_LENGTH));
        assert_eq!(totals(&[]), Err(refusal::DATA_LENGTH));
    }

    #[test]
    fn totals_up_to_244() {
        let random = &mut Random::new(4);
        for (inputs, outputs, is_right) in [
            (244, 244, true),
            (244, 0, true),
            (0, 244, true),
            (245, 0, false),
            (0, 245, false),
            (245, 244, false),
            (244, 245, false),
            (1, 1, true),
        ] {
            for _ in 0..100 {
                let bytes = sample::of_totals(random, inputs, outputs).bytes;
                let number = (!is_right).then_some(refusal::PROCESS_DATA);
                assert_eq!(totals(&bytes).err(), number, "{bytes:02X?}");
            }
        }
        // The greatest sums that a reading can meet.
        for module in [&[0xC0, 0xFF, 0xFF][..], &[0x40, 0xFF], &[0x7F]] {
            let bytes = module.repeat(244 / module.len());
            assert_eq!(totals(&bytes), Err(refusal::PROCESS_DATA));
        }
    }

    #[test]
    fn every_identifier_with_every_number_of_bytes_after_it() {
        for (identifier, count) in (0..=255).flat_map(|byte| (0..20).map(move |n| (byte, n))) {
            let mut bytes = vec![identifier];
            bytes.extend(vec![0; count]);
            let is_general = identifier & 0x30 != 0;
            let lengths = [0, 1, 1, 2][usize::from(identifier >> 6)];
            let length = 1 + lengths + usize::from(identifier & 0x0F);
            let expected = match identifier & 0x0F {
                _ if is_general => Ok(1),
                15 => Err(refusal::VENDOR_COUNT),
                _ if length > bytes.len() => Err(refusal::PAST_END),
                _ => Ok(length),
            };
            let next = walk(&bytes, 0).map(|walked| walked.expect("a module").1);
            assert_eq!(next, expected, "{bytes:02X?}");
        }
    }

    /// How many modules a walk over all of them meets.
    fn walked(bytes: &[u8]) -> Result<usize, u8> {
        let mut count = 0;
        let mut position = 0;
        while let Some((_, next)) = walk(bytes, position)? {
            assert!(next > position && next <= bytes.len());
            count += 1;
            position = next;
        }
        Ok(count)
    }

    #[test]
    fn walking_refuses_what_reading_refuses_at_a_module() {
        let random = &mut Random::new(5);
        for _ in 0..20_000 {
            let bytes = sample::damaged(random);
            match totals(&bytes) {
                Ok(totals) => assert_eq!(walked(&bytes), Ok(totals.modules)),
                // These two are no module's.
                Err(refusal::DATA_LENGTH) => assert!(!(1..=244).contains(&bytes.len())),
                Err(refusal::PROCESS_DATA) => assert!(walked(&bytes).is_ok()),
                Err(number) => assert_eq!(walked(&bytes), Err(number)),
            }
        }
    }

    #[test]
    fn walking_judges_one_module_alone() {
        let random = &mut Random::new(6);
        for _ in 0..20_000 {
            let bytes = samples::noise(random);
            let position = random.between(0, 310);
            let expected = match bytes.get(position..) {
                Some(rest) => walk(rest, 0),
                None => Err(refusal::FIELD),
            };
            let expected =
                expected.map(|walked| walked.map(|(module, next)| (module, next + position)));
            assert_eq!(walk(&bytes, position), expected, "{bytes:02X?} {position}");
        }
    }

    #[test]
    fn module_fields_past_their_limits_are_refused() {
        let one = Some(side(1, false, false));
        let none = Some(side(0, false, false));
        let many = Some(side(17, false, false));
        let too_many = Some(side(65, false, false));
        for (module, number) in [
            (general(None, None), 21),
            (general(none, None), 21),
            (general(many, None), 21),
            (general(None, many), 21),
            (general(many, many), 21),
            (general(one, many), 21),
            (general(one, Some(side(2, false, false))), 21),
            (general(one, Some(side(1, true, false))), 21),
            (general(one, Some(side(1, false, true))), 21),
            (special(none, None, &[]), 21),
            (special(None, none, &[]), 21),
            (special(too_many, None, &[]), 21),
            (special(one, too_many, &[0; 14]), 21),
            (special(one, one, &[0; 15]), 26),
            (special(None, None, &[0; 16]), 21),
            // The count stands before the lengths.
            (special(too_many, none, &[0; 271]), 21),
        ] {
            expect::refused(number, |out| write_module(&module, out));
        }
    }

    #[test]
    fn vendor_bytes_of_a_general_module_come_before_its_faults() {
        let one = Some(side(1, false, false));
        let two = Some(side(2, false, false));
        let none = Some(side(0, false, false));
        let many = Some(side(17, true, true));
        for (input, output) in [
            (one, None),
            (None, one),
            (one, one),
            (None, None),
            (none, None),
            (many, many),
            (one, two),
            (none, many),
        ] {
            for count in [1, 14, 15, 16, 300] {
                let module = Module {
                    vendor: &[0; 300][..count],
                    ..general(input, output)
                };
                expect::refused(20, |out| write_module(&module, out));
            }
        }
    }

    #[test]
    fn any_fields_are_read_back_or_left_unwritten() {
        let random = &mut Random::new(7);
        let lent = random.bytes(300);
        for _ in 0..20_000 {
            let module = sample::any_fields(random, &lent);
            let mut out = [0; 300];
            match write_module(&module, &mut out) {
                Ok(length) => assert_eq!(walk(&out, 0), Ok(Some((module, length)))),
                Err(number) => expect::refused(number, |out| write_module(&module, out)),
            }
        }
    }
}

//! Samples of typed values, at most 300 bytes each.

use super::{lengthened, often_up_to};
use crate::random::Random;
use crate::reference::typed::Value;

const BOOLEAN: u8 = 1;
const FLOAT: u8 = 8;

/// How many bytes the value of each code has, from code 1 on.
const LENGTHS: [usize; 8] = [1, 1, 2, 4, 1, 2, 4, 4];

/// The least and the greatest number of each integer code.
#[rustfmt::skip]
const EXTREMES: [&[u8]; 12] = [
    &[2, 0x80], &[2, 0x7F],
    &[3, 0x80, 0x00], &[3, 0x7F, 0xFF],
    &[4, 0x80, 0x00, 0x00, 0x00], &[4, 0x7F, 0xFF, 0xFF, 0xFF],
    &[5, 0x00], &[5, 0xFF],
    &[6, 0x00, 0x00], &[6, 0xFF, 0xFF],
    &[7, 0x00, 0x00, 0x00, 0x00], &[7, 0xFF, 0xFF, 0xFF, 0xFF],
];

/// The bits of a zero, the least and the greatest subnormal and normal number,
/// and an infinity, all with the sign clear.
pub const FLOATS: [u32; 6] = [
    0x0000_0000,
    0x0000_0001,
    0x007F_FFFF,
    0x0080_0000,
    0x7F7F_FFFF,
    0x7F80_0000,
];
/// The bits of the least and the greatest signalling and quiet NaN, all with the
/// sign clear.
pub const NANS: [u32; 4] = [0x7F80_0001, 0x7FBF_FFFF, 0x7FC0_0000, 0x7FFF_FFFF];

const SIGN: u32 = 0x8000_0000;
const EXPONENT: u32 = 0x7F80_0000;
const MANTISSA: u32 = 0x007F_FFFF;

/// Bits that are no NaN's, of every class.
pub fn number_bits(random: &mut Random) -> u32 {
    let word = random.word() as u32;
    match random.below(4) {
        0 => *random.pick(&FLOATS) | word & SIGN,
        // Subnormal, or zero by chance.
        1 => word & !EXPONENT,
        // An exponent of 0..=254.
        _ => (random.below(255) as u32) << 23 | word & !EXPONENT,
    }
}

/// Bits of a NaN, signalling or quiet.
pub fn nan_bits(random: &mut Random) -> u32 {
    let word = random.word() as u32;
    match random.below(2) {
        0 => *random.pick(&NANS) | word & SIGN,
        _ => EXPONENT | word & SIGN | random.between(1, MANTISSA as usize) as u32,
    }
}

fn float(bits: u32) -> Vec<u8> {
    [&[FLOAT], &bits.to_be_bytes()[..]].concat()
}

/// Any value of a code, a Boolean right or wrong.
fn of_code(random: &mut Random, code: u8) -> Vec<u8> {
    let length = LENGTHS[usize::from(code) - 1];
    [&[code], &random.bytes(length)[..]].concat()
}

/// A valid value of any code.
pub fn any_valid(random: &mut Random) -> Vec<u8> {
    match random.between(1, 8) as u8 {
        BOOLEAN => vec![BOOLEAN, *random.pick(&[0x00, 0xFF])],
        FLOAT => match random.below(4) {
            0 => float(nan_bits(random)),
            _ => float(number_bits(random)),
        },
        code => match random.below(4) {
            0 => random.pick(&EXTREMES).to_vec(),
            _ => of_code(random, code),
        },
    }
}

/// Both Booleans, every number of 8 bits, the others at their limits and with
/// each bit alone, and a float with every sign and exponent.
pub fn all_forms(random: &mut Random) -> Vec<Vec<u8>> {
    let mut forms = vec![vec![BOOLEAN, 0x00], vec![BOOLEAN, 0xFF]];
    forms.extend(EXTREMES.map(<[u8]>::to_vec));
    for byte in 0..=255 {
        forms.extend([vec![2, byte], vec![5, byte]]);
    }
    for bit in 0..32 {
        let number = (1_u32 << bit).to_be_bytes();
        let codes: &[u8] = if bit < 16 { &[3, 4, 6, 7] } else { &[4, 7] };
        for code in codes {
            let length = LENGTHS[usize::from(*code) - 1];
            forms.push([&[*code], &number[4 - length..]].concat());
        }
    }
    // The sign and the exponent are the upper nine bits.
    for upper in 0..512 {
        let any = random.word() as u32;
        for mantissa in [0, 1, 0x003F_FFFF, 0x0040_0000, MANTISSA, any & MANTISSA] {
            forms.push(float(upper << 23 | mantissa));
        }
    }
    forms
}

/// Both Booleans, the integers at their limits, and floats of every class with
/// both signs.
pub fn few_forms() -> Vec<Vec<u8>> {
    let mut forms = vec![vec![BOOLEAN, 0x00], vec![BOOLEAN, 0xFF]];
    forms.extend(EXTREMES.map(<[u8]>::to_vec));
    let positive = [
        0x0000_0000,
        0x0000_0001,
        0x3F80_0000,
        0x7F80_0000,
        0x7F80_0001,
        0x7FC0_0000,
    ];
    forms.extend(positive.map(float));
    forms.extend(positive.map(|bits| float(bits | SIGN)));
    forms
}

/// Another code than 1..=8, near them every second time: reading gives 29.
pub fn code_wrong(random: &mut Random) -> Vec<u8> {
    let mut bytes = any_valid(random);
    bytes[0] = match random.below(2) {
        0 => *random.pick(&[0, 9, 10, 255]),
        _ => random.between(9, 255) as u8,
    };
    bytes
}

/// No bytes at all, or too few or too many for the code, whatever they are:
/// reading gives 20.
pub fn length_wrong(random: &mut Random) -> Vec<u8> {
    let code = random.between(1, 8) as u8;
    let bytes = of_code(random, code);
    match random.below(8) {
        0 => Vec::new(),
        1..4 => bytes[..random.between(1, bytes.len() - 1)].to_vec(),
        _ => lengthened(random, &bytes),
    }
}

/// A Boolean that is neither 00 nor FF: reading gives 29.
pub fn boolean_wrong(random: &mut Random) -> Vec<u8> {
    vec![BOOLEAN, random.between(0x01, 0xFE) as u8]
}

/// A code and any bytes after it, often as many as are right.
pub fn noise_after_code(random: &mut Random) -> Vec<u8> {
    match random.below(4) {
        0 => {
            let length = often_up_to(random, 1, 6, 300);
            let mut bytes = random.bytes(length);
            bytes[0] = random.between(0, 9) as u8;
            bytes
        }
        _ => {
            let code = random.between(1, 8) as u8;
            of_code(random, code)
        }
    }
}

/// A value to write, right twice as often as wrong.
pub fn any_value(random: &mut Random) -> Value {
    match random.below(3) {
        0 => wrong_value(random),
        _ => right_value(random),
    }
}

/// A value that can be written, of any type.
pub(super) fn right_value(random: &mut Random) -> Value {
    let word = random.word();
    match random.below(9) {
        0 => Value::Boolean(word & 1 == 0),
        1 => Value::I8(word as i8),
        2 => Value::I16(word as i16),
        3 => Value::I32(word as i32),
        4 => Value::U8(word as u8),
        5 => Value::U16(word as u16),
        6 => Value::U32(word as u32),
        7 => Value::Float(f32::from_bits(number_bits(random))),
        _ => Value::Nan(nan_bits(random)),
    }
}

/// A float that is a NaN, or the NaN case with other bits: writing gives 12.
pub(super) fn wrong_value(random: &mut Random) -> Value {
    match random.below(2) {
        0 => Value::Float(f32::from_bits(nan_bits(random))),
        _ => Value::Nan(number_bits(random)),
    }
}

/// A value as the bytes of a line for its writer, the room left out.
pub(super) fn value_line(random: &mut Random, value: Value) -> Vec<u8> {
    // What the type does not have is not looked at.
    let [a, b, c] = [random.byte(), random.byte(), random.byte()];
    let (code, fields) = match value {
        Value::Boolean(flag) => (1, [a, b, c, u8::from(flag)]),
        Value::I8(number) => (2, [a, b, c, number as u8]),
        Value::I16(number) => (3, after(a, b, number.to_be_bytes())),
        Value::I32(number) => (4, number.to_be_bytes()),
        Value::U8(number) => (5, [a, b, c, number]),
        Value::U16(number) => (6, after(a, b, number.to_be_bytes())),
        Value::U32(number) => (7, number.to_be_bytes()),
        Value::Float(number) => (8, number.to_be_bytes()),
        Value::Nan(bits) => (9, bits.to_be_bytes()),
    };
    [&[code], &fields[..]].concat()
}

fn after(a: u8, b: u8, [high, low]: [u8; 2]) -> [u8; 4] {
    [a, b, high, low]
}

#[cfg(test)]
mod tests {
    use super::*;
    use crate::reference::typed::{read, write};
    use std::collections::BTreeSet;

    /// The code, and the class of a float by its bits.
    fn class(bytes: &[u8]) -> (u8, &'static str) {
        let [FLOAT, value @ ..] = bytes else {
            return (bytes[0], "");
        };
        let bits = u32::from_be_bytes(value.try_into().expect("four bytes"));
        let name = match (bits & EXPONENT, bits & MANTISSA) {
            (0, 0) => "zero",
            (0, _) => "subnormal",
            (EXPONENT, 0) => "infinity",
            (EXPONENT, mantissa) if mantissa < 0x0040_0000 => "signalling",
            (EXPONENT, _) => "quiet",
            _ => "normal",
        };
        // With a sign it counts as a code of its own.
        (FLOAT + u8::from(bits & SIGN != 0), name)
    }

    #[test]
    fn valid_ones_are_read_and_are_of_every_class() {
        let random = &mut Random::new(1);
        let mut expected: BTreeSet<_> = (1..8).map(|code| (code, "")).collect();
        for name in [
            "zero",
            "subnormal",
            "normal",
            "infinity",
            "signalling",
            "quiet",
        ] {
            expected.extend([(8, name), (9, name)]);
        }
        let all = all_forms(random);
        // Booleans, limits, 8 bits, single bits of 16 and 32, floats.
        assert_eq!(all.len(), 2 + 12 + 512 + 2 * (16 + 32) + 512 * 6);
        let any = (0..5000).map(|_| any_valid(random)).collect();
        for forms in [all, few_forms(), any] {
            for bytes in &forms {
                assert!(read(bytes).is_ok(), "{bytes:02X?}");
            }
            let found: BTreeSet<_> = forms.iter().map(|bytes| class(bytes)).collect();
            assert_eq!(found, expected);
        }
    }

    #[test]
    fn each_damage_gets_its_number() {
        type Make = fn(&mut Random) -> Vec<u8>;
        let random = &mut Random::new(2);
        let damages: [(Make, u8); 3] = [(code_wrong, 29), (length_wrong, 20), (boolean_wrong, 29)];
        for (make, number) in damages {
            for _ in 0..3000 {
                let bytes = make(random);
                assert_eq!(read(&bytes), Err(number), "{bytes:02X?}");
            }
        }
    }

    #[test]
    fn noise_reaches_every_number() {
        let random = &mut Random::new(3);
        let noises: Vec<Vec<u8>> = (0..2000).map(|_| noise_after_code(random)).collect();
        assert!(noises.iter().all(|bytes| bytes.len() <= 300));
        let found: BTreeSet<_> = noises.iter().map(|bytes| read(bytes).err()).collect();
        assert_eq!(found, BTreeSet::from([None, Some(20), Some(29)]));
    }

    #[test]
    fn bits_are_of_their_side() {
        let random = &mut Random::new(4);
        for _ in 0..5000 {
            let number = number_bits(random);
            assert!(number & !SIGN <= EXPONENT, "{number:08X}");
            let nan = nan_bits(random);
            assert!(nan & !SIGN > EXPONENT, "{nan:08X}");
        }
    }

    #[test]
    fn any_value_is_right_and_wrong_in_both_float_cases() {
        let random = &mut Random::new(6);
        let mut outcomes = BTreeSet::new();
        for _ in 0..2000 {
            let value = any_value(random);
            let case = match value {
                Value::Float(_) => "float",
                Value::Nan(_) => "nan",
                _ => "other",
            };
            outcomes.insert((case, write(&value, &mut [0; 5]).err()));
        }
        let both = ["float", "nan"].map(|case| [(case, None), (case, Some(12))]);
        let mut expected: BTreeSet<_> = both.into_iter().flatten().collect();
        expected.insert(("other", None));
        assert_eq!(outcomes, expected);
    }
}

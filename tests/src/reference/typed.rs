//! Typed values: a code that names the type, and the value, high byte first.

use super::{refusal, store};

/// The codes, in the order of document 01.
const BOOLEAN: u8 = 1;
const I8: u8 = 2;
const I16: u8 = 3;
const I32: u8 = 4;
const U8: u8 = 5;
const U16: u8 = 6;
const U32: u8 = 7;
const FLOAT: u8 = 8;

/// The bytes of a Boolean.
const FALSE: u8 = 0x00;
const TRUE: u8 = 0xFF;

/// A value of each type.
///
/// Zeros of both signs compare equal, as `f32` has it, but are kept apart.
#[derive(Clone, Copy, Debug, PartialEq)]
pub enum Value {
    /// Code 1.
    Boolean(bool),
    /// Code 2.
    I8(i8),
    /// Code 3.
    I16(i16),
    /// Code 4.
    I32(i32),
    /// Code 5.
    U8(u8),
    /// Code 6.
    U16(u16),
    /// Code 7.
    U32(u32),
    /// Code 8 with a number or an infinity.
    Float(f32),
    /// Code 8 with the 32 bits of a NaN, which an `f32` need not keep.
    Nan(u32),
}

/// Reads a typed value, or answers its refusal number.
pub fn read(bytes: &[u8]) -> Result<Value, u8> {
    let (code, value) = bytes.split_first().ok_or(refusal::DATA_LENGTH)?;
    match *code {
        BOOLEAN => boolean(exactly(value)?),
        I8 => Ok(Value::I8(i8::from_be_bytes(exactly(value)?))),
        I16 => Ok(Value::I16(i16::from_be_bytes(exactly(value)?))),
        I32 => Ok(Value::I32(i32::from_be_bytes(exactly(value)?))),
        U8 => Ok(Value::U8(u8::from_be_bytes(exactly(value)?))),
        U16 => Ok(Value::U16(u16::from_be_bytes(exactly(value)?))),
        U32 => Ok(Value::U32(u32::from_be_bytes(exactly(value)?))),
        FLOAT => Ok(float(u32::from_be_bytes(exactly(value)?))),
        _ => Err(refusal::TYPED_VALUE),
    }
}

/// The bytes, when they are exactly as many as asked for.
fn exactly<const N: usize>(bytes: &[u8]) -> Result<[u8; N], u8> {
    bytes.try_into().map_err(|_| refusal::DATA_LENGTH)
}

fn boolean([byte]: [u8; 1]) -> Result<Value, u8> {
    match byte {
        FALSE => Ok(Value::Boolean(false)),
        TRUE => Ok(Value::Boolean(true)),
        _ => Err(refusal::TYPED_VALUE),
    }
}

/// The value of 32 bits, in the case that keeps them.
fn float(bits: u32) -> Value {
    if is_nan(bits) {
        Value::Nan(bits)
    } else {
        Value::Float(f32::from_bits(bits))
    }
}

fn is_nan(bits: u32) -> bool {
    f32::from_bits(bits).is_nan()
}

/// Writes a typed value to the front of `out` and answers its length, or answers
/// the refusal number and stores nothing.
pub fn write(value: &Value, out: &mut [u8]) -> Result<usize, u8> {
    match *value {
        Value::Boolean(flag) => store([&[BOOLEAN, if flag { TRUE } else { FALSE }]], out),
        Value::I8(number) => store([&[I8], &number.to_be_bytes()], out),
        Value::I16(number) => store([&[I16], &number.to_be_bytes()], out),
        Value::I32(number) => store([&[I32], &number.to_be_bytes()], out),
        Value::U8(number) => store([&[U8], &number.to_be_bytes()], out),
        Value::U16(number) => store([&[U16], &number.to_be_bytes()], out),
        Value::U32(number) => store([&[U32], &number.to_be_bytes()], out),
        Value::Float(number) if number.is_nan() => Err(refusal::FIELD),
        Value::Float(number) => store([&[FLOAT], &number.to_be_bytes()], out),
        Value::Nan(bits) if !is_nan(bits) => Err(refusal::FIELD),
        Value::Nan(bits) => store([&[FLOAT], &bits.to_be_bytes()], out),
    }
}

#[cfg(test)]
mod tests {
    use super::*;
    use crate::random::Random;
    use crate::reference::expect;
    use crate::samples::typed as sample;

    #[test]
    fn values_are_what_their_bytes_say() {
        for (bytes, value) in [
            (&[1, 0x00][..], Value::Boolean(false)),
            (&[1, 0xFF], Value::Boolean(true)),
            (&[2, 0x80], Value::I8(-128)),
            (&[2, 0x7F], Value::I8(127)),
            (&[3, 0xFF, 0xFE], Value::I16(-2)),
            (&[3, 0x12, 0x34], Value::I16(0x1234)),
            (&[4, 0x80, 0, 0, 0], Value::I32(-2_147_483_648)),
            (&[4, 0x12, 0x34, 0x56, 0x78], Value::I32(0x1234_5678)),
            (&[5, 0xFF], Value::U8(255)),
            (&[6, 0xFF, 0xFE], Value::U16(65_534)),
            (&[7, 0xFF, 0xFF, 0xFF, 0xFE], Value::U32(4_294_967_294)),
            (&[8, 0x3F, 0x80, 0, 0], Value::Float(1.0)),
            (&[8, 0xC0, 0x20, 0, 0], Value::Float(-2.5)),
            (&[8, 0x7F, 0x80, 0, 0], Value::Float(f32::INFINITY)),
            (&[8, 0xFF, 0x80, 0, 0], Value::Float(f32::NEG_INFINITY)),
            (&[8, 0x7F, 0x80, 0, 1], Value::Nan(0x7F80_0001)),
            (&[8, 0xFF, 0xC0, 0, 0], Value::Nan(0xFFC0_0000)),
        ] {
            assert_eq!(read(bytes), Ok(value), "{bytes:02X?}");
            expect::written(bytes, |out| write(&value, out));
        }
    }

    #[test]
    fn zeros_keep_their_sign() {
        for (bytes, bits) in [
            ([8, 0x00, 0, 0, 0], 0x0000_0000),
            ([8, 0x80, 0, 0, 0], 0x8000_0000),
        ] {
            let Ok(Value::Float(zero)) = read(&bytes) else {
                panic!("no float: {bytes:02X?}");
            };
            assert_eq!(zero.to_bits(), bits);
        }
    }

    #[test]
    fn every_code_with_every_length() {
        for (code, length) in (0..=255).flat_map(|code| (1..12).map(move |n| (code, n))) {
            let mut bytes = vec![0; length];
            bytes[0] = code;
            let right = match code {
                1 | 2 | 5 => 2,
                3 | 6 => 3,
                4 | 7 | 8 => 5,
                _ => 0,
            };
            let number = match right {
                0 => Some(29),
                _ => (length != right).then_some(20),
            };
            assert_eq!(read(&bytes).err(), number, "{bytes:02X?}");
        }
        assert_eq!(read(&[]), Err(20));
    }

    #[test]
    fn every_boolean_byte() {
        for byte in 0..=255 {
            let expected = match byte {
                0 => Ok(Value::Boolean(false)),
                255 => Ok(Value::Boolean(true)),
                _ => Err(29),
            };
            assert_eq!(read(&[1, byte]), expected, "{byte:02X}");
            // The length comes before.
            assert_eq!(read(&[1, byte, byte]), Err(20), "{byte:02X}");
        }
    }

    #[test]
    fn bits_are_kept_in_the_case_that_they_belong_to() {
        let both_signs = |bits: u32| [bits, bits | 0x8000_0000];
        for bits in sample::FLOATS.into_iter().flat_map(both_signs) {
            let [a, b, c, d] = bits.to_be_bytes();
            let value = read(&[8, a, b, c, d]);
            assert!(
                matches!(value, Ok(Value::Float(float)) if float.to_bits() == bits),
                "{bits:08X}"
            );
            expect::refused(12, |out| write(&Value::Nan(bits), out));
        }
        for bits in sample::NANS.into_iter().flat_map(both_signs) {
            let [a, b, c, d] = bits.to_be_bytes();
            assert_eq!(read(&[8, a, b, c, d]), Ok(Value::Nan(bits)), "{bits:08X}");
            expect::refused(12, |out| write(&Value::Float(f32::from_bits(bits)), out));
        }
    }

    #[test]
    fn written_as_read() {
        for bytes in sample::all_forms(&mut Random::new(1)) {
            let value = read(&bytes).expect("valid");
            expect::written(&bytes, |out| write(&value, out));
        }
    }

    #[test]
    fn any_value_is_read_back_or_left_unwritten() {
        let random = &mut Random::new(2);
        for _ in 0..10_000 {
            let value = sample::any_value(random);
            let mut out = [0; 5];
            match write(&value, &mut out) {
                Ok(length) => assert_eq!(read(&out[..length]), Ok(value)),
                Err(number) => expect::refused(number, |out| write(&value, out)),
            }
        }
    }
}

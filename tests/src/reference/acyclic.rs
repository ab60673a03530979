//! The data of DPV1: the acyclic calls to a slave and its answers.
//!
//! Data bytes are lent apart from the other fields: reading lends the end of the
//! bytes, which is empty where a call or an answer has no data, and writing
//! refuses more than it has.

use super::{refusal, store};
use std::ops::RangeInclusive;

/// The function numbers of calls and positive answers.
const IDLE: u8 = 0x48;
const TRANSPORT: u8 = 0x51;
const ALARM_ACK: u8 = 0x5C;
const READ: u8 = 0x5E;
pub(super) const WRITE: u8 = 0x5F;
/// What a negative answer adds to the number.
pub(super) const NEGATIVE: u8 = 0x80;

/// The most data bytes, and the most that can be asked for or taken.
const MOST_DATA: u8 = 240;
/// The decode under which code 1 is judged.
pub(super) const DECODE_DP: u8 = 128;
/// The other decodes.
pub(super) const DECODE_FMS: u8 = 254;
const DECODE_HART: u8 = 255;

/// A call, without its data.
#[derive(Clone, Copy, Debug, PartialEq, Eq)]
pub enum Call {
    /// Asks for the result of the call before: no bytes at all.
    Poll,
    /// Asks for data.
    Read {
        /// The slot number.
        slot: u8,
        /// The index in the slot.
        index: u8,
        /// How many bytes are asked for, 0..=240.
        length: u8,
    },
    /// Brings 1..=240 data bytes.
    Write {
        /// The slot number.
        slot: u8,
        /// The index in the slot.
        index: u8,
    },
    /// Acknowledges an alarm.
    AlarmAck(Alarm),
    /// Does nothing.
    Idle,
    /// Brings 0..=240 data bytes and asks for some.
    Transport {
        /// The slot number.
        slot: u8,
        /// The index in the slot.
        index: u8,
    },
}

/// An answer, without its data.
#[derive(Clone, Copy, Debug, PartialEq, Eq)]
pub enum Answer {
    /// Brings 0..=240 data bytes that were asked for.
    Read {
        /// The slot number.
        slot: u8,
        /// The index in the slot.
        index: u8,
    },
    /// Says what was written.
    Write {
        /// The slot number.
        slot: u8,
        /// The index in the slot.
        index: u8,
        /// How many bytes were taken, 0..=240.
        length: u8,
    },
    /// Says which alarm was acknowledged.
    AlarmAck(Alarm),
    /// Says nothing.
    Idle,
    /// Brings 0..=240 data bytes.
    Transport {
        /// The slot number.
        slot: u8,
        /// The index in the slot.
        index: u8,
    },
    /// Says why a call was not performed.
    Negative {
        /// What the call asked for.
        failed: Failed,
        /// Why it was not performed.
        error: CallError,
    },
}

/// Which alarm is meant.
#[derive(Clone, Copy, Debug, PartialEq, Eq)]
pub struct Alarm {
    /// The slot number.
    pub slot: u8,
    /// The type of the alarm.
    pub kind: u8,
    /// What distinguishes it from others of its type.
    pub specifier: u8,
}

/// What a call asked for that a negative answer is given to: all but idle.
#[derive(Clone, Copy, Debug, PartialEq, Eq)]
pub enum Failed {
    /// A read.
    Read,
    /// A write.
    Write,
    /// An alarm acknowledgement.
    AlarmAck,
    /// A data transport.
    Transport,
}

impl Failed {
    /// The function number of the call.
    pub fn number(self) -> u8 {
        match self {
            Failed::Read => READ,
            Failed::Write => WRITE,
            Failed::AlarmAck => ALARM_ACK,
            Failed::Transport => TRANSPORT,
        }
    }
}

/// Why a call was not performed.
#[derive(Clone, Copy, Debug, PartialEq, Eq)]
pub struct CallError {
    /// Whose codes they are: 128, 254 or 255.
    pub decode: u8,
    /// Under decode 128 the class in the high four bits and the code in the low.
    pub code1: u8,
    /// Free.
    pub code2: u8,
}

impl CallError {
    /// What kind of error it is, under decode 128: the high four bits of code 1.
    pub fn class(self) -> u8 {
        self.code1 >> 4
    }

    /// Which error of its class it is: the low four bits of code 1.
    pub fn code(self) -> u8 {
        self.code1 & 0x0F
    }

    /// The decode stands left of the code, and its fault comes first.
    fn judge(self) -> Result<(), u8> {
        match self.decode {
            DECODE_DP if self.is_reserved() => Err(refusal::ACYCLIC_CODE),
            DECODE_DP | DECODE_FMS | DECODE_HART => Ok(()),
            _ => Err(refusal::BITS),
        }
    }

    /// Whether code 1 has no meaning under decode 128.
    fn is_reserved(self) -> bool {
        match self.class() {
            10 => matches!(self.code(), 3..=7),
            12 => matches!(self.code(), 4..=7),
            11 | 13..=15 => false,
            _ => true,
        }
    }
}

/// What a call asks for and a positive answer is to.
#[derive(Clone, Copy)]
enum Function {
    Idle,
    Transport,
    AlarmAck,
    Read,
    Write,
}

/// What an answer's number says.
#[derive(Clone, Copy)]
enum Outcome {
    Positive(Function),
    Negative(Failed),
}

/// What a number says in a call; no other number stands in one.
fn number_of_call(number: u8) -> Result<Function, u8> {
    match number {
        IDLE => Ok(Function::Idle),
        TRANSPORT => Ok(Function::Transport),
        ALARM_ACK => Ok(Function::AlarmAck),
        READ => Ok(Function::Read),
        WRITE => Ok(Function::Write),
        _ => Err(refusal::ACYCLIC_CODE),
    }
}

/// What a number says in an answer; no other number stands in one.
fn number_of_answer(number: u8) -> Result<Outcome, u8> {
    let Some(negated) = number.checked_sub(NEGATIVE) else {
        // Positive answers have the numbers of the calls.
        return number_of_call(number).map(Outcome::Positive);
    };
    match negated {
        TRANSPORT => Ok(Outcome::Negative(Failed::Transport)),
        ALARM_ACK => Ok(Outcome::Negative(Failed::AlarmAck)),
        READ => Ok(Outcome::Negative(Failed::Read)),
        WRITE => Ok(Outcome::Negative(Failed::Write)),
        _ => Err(refusal::ACYCLIC_CODE),
    }
}

impl Call {
    /// Refuses a count of data bytes that the call cannot have, then a wrong
    /// byte.
    fn judge(self, data: &[u8]) -> Result<(), u8> {
        match self {
            Call::Poll | Call::AlarmAck(_) | Call::Idle => judge_count(data, 0..=0),
            Call::Read { length, .. } => {
                judge_count(data, 0..=0)?;
                judge_length(length)
            }
            Call::Write { .. } => judge_count(data, 1..=MOST_DATA),
            Call::Transport { .. } => judge_count(data, 0..=MOST_DATA),
        }
    }
}

impl Answer {
    /// As `Call::judge`.
    fn judge(self, data: &[u8]) -> Result<(), u8> {
        match self {
            Answer::AlarmAck(_) | Answer::Idle => judge_count(data, 0..=0),
            Answer::Read { .. } | Answer::Transport { .. } => judge_count(data, 0..=MOST_DATA),
            Answer::Write { length, .. } => {
                judge_count(data, 0..=0)?;
                judge_length(length)
            }
            Answer::Negative { error, .. } => {
                judge_count(data, 0..=0)?;
                error.judge()
            }
        }
    }
}

fn judge_count(data: &[u8], counts: RangeInclusive<u8>) -> Result<(), u8> {
    match u8::try_from(data.len()) {
        Ok(count) if counts.contains(&count) => Ok(()),
        _ => Err(refusal::DATA_LENGTH),
    }
}

fn judge_length(length: u8) -> Result<(), u8> {
    if length > MOST_DATA {
        return Err(refusal::BITS);
    }
    Ok(())
}

/// Reads a call and answers it and its data, or its refusal number.
pub fn read_call(bytes: &[u8]) -> Result<(Call, &[u8]), u8> {
    let Some((number, after)) = bytes.split_first() else {
        return Ok((Call::Poll, bytes));
    };
    let (call, data) = match number_of_call(*number)? {
        Function::Idle => (Call::Idle, after),
        Function::Read => {
            let ([slot, index, length], data) = split(after)?;
            let call = Call::Read {
                slot,
                index,
                length,
            };
            (call, data)
        }
        Function::Write => {
            let ([slot, index], data) = split_counted(after)?;
            (Call::Write { slot, index }, data)
        }
        Function::AlarmAck => {
            let (alarm, data) = split_alarm(after)?;
            (Call::AlarmAck(alarm), data)
        }
        Function::Transport => {
            let ([slot, index], data) = split_counted(after)?;
            (Call::Transport { slot, index }, data)
        }
    };
    call.judge(data)?;
    Ok((call, data))
}

/// Reads an answer and answers it and its data, or its refusal number.
pub fn read_answer(bytes: &[u8]) -> Result<(Answer, &[u8]), u8> {
    let (number, after) = bytes.split_first().ok_or(refusal::DATA_LENGTH)?;
    let (answer, data) = match number_of_answer(*number)? {
        Outcome::Positive(function) => split_positive(function, after)?,
        Outcome::Negative(failed) => {
            let ([decode, code1, code2], data) = split(after)?;
            let error = CallError {
                decode,
                code1,
                code2,
            };
            (Answer::Negative { failed, error }, data)
        }
    };
    answer.judge(data)?;
    Ok((answer, data))
}

/// A positive answer and what follows it, when there are bytes enough.
fn split_positive(function: Function, after: &[u8]) -> Result<(Answer, &[u8]), u8> {
    match function {
        Function::Idle => Ok((Answer::Idle, after)),
        Function::Read => {
            let ([slot, index], data) = split_counted(after)?;
            Ok((Answer::Read { slot, index }, data))
        }
        Function::Write => {
            let ([slot, index, length], data) = split(after)?;
            let answer = Answer::Write {
                slot,
                index,
                length,
            };
            Ok((answer, data))
        }
        Function::AlarmAck => {
            let (alarm, data) = split_alarm(after)?;
            Ok((Answer::AlarmAck(alarm), data))
        }
        Function::Transport => {
            let ([slot, index], data) = split_counted(after)?;
            Ok((Answer::Transport { slot, index }, data))
        }
    }
}

/// The three bytes after a number, and what follows them.
fn split(after: &[u8]) -> Result<([u8; 3], &[u8]), u8> {
    let (fields, data) = after.split_first_chunk().ok_or(refusal::DATA_LENGTH)?;
    Ok((*fields, data))
}

fn split_alarm(after: &[u8]) -> Result<(Alarm, &[u8]), u8> {
    let ([slot, kind, specifier], data) = split(after)?;
    let alarm = Alarm {
        slot,
        kind,
        specifier,
    };
    Ok((alarm, data))
}

/// Slot and index, and the data, of which the third byte is the count.
fn split_counted(after: &[u8]) -> Result<([u8; 2], &[u8]), u8> {
    let ([slot, index, count], data) = split(after)?;
    if usize::from(count) != data.len() {
        return Err(refusal::DATA_LENGTH);
    }
    Ok(([slot, index], data))
}

/// Writes a call to the front of `out` and answers its length, or answers the
/// refusal number and stores nothing.
pub fn write_call(call: &Call, data: &[u8], out: &mut [u8]) -> Result<usize, u8> {
    call.judge(data)?;
    // No data that was judged right is longer.
    let count = data.len() as u8;
    let head = match *call {
        Call::Poll => return Ok(0),
        Call::Idle => return store([&[IDLE]], out),
        Call::Read {
            slot,
            index,
            length,
        } => [READ, slot, index, length],
        Call::Write { slot, index } => [WRITE, slot, index, count],
        Call::AlarmAck(alarm) => alarm.to_bytes(),
        Call::Transport { slot, index } => [TRANSPORT, slot, index, count],
    };
    store([&head, data], out)
}

/// Writes an answer, as `write_call` does.
pub fn write_answer(answer: &Answer, data: &[u8], out: &mut [u8]) -> Result<usize, u8> {
    answer.judge(data)?;
    // No data that was judged right is longer.
    let count = data.len() as u8;
    let head = match *answer {
        Answer::Idle => return store([&[IDLE]], out),
        Answer::Read { slot, index } => [READ, slot, index, count],
        Answer::Write {
            slot,
            index,
            length,
        } => [WRITE, slot, index, length],
        Answer::AlarmAck(alarm) => alarm.to_bytes(),
        Answer::Transport { slot, index } => [TRANSPORT, slot, index, count],
        Answer::Negative { failed, error } => {
            let number = failed.number() + NEGATIVE;
            [number, error.decode, error.code1, error.code2]
        }
    };
    store([&head, data], out)
}

impl Alarm {
    /// Its acknowledgement, which is the same both ways.
    fn to_bytes(self) -> [u8; 4] {
        [ALARM_ACK, self.slot, self.kind, self.specifier]
    }
}

#[cfg(test)]
mod tests {
    use super::*;
    use crate::random::Random;
    use crate::reference::expect;
    use crate::samples::{acyclic as sample, acyclic_fields as fields};

    const ALARM: Alarm = Alarm {
        slot: 1,
        kind: 2,
        specifier: 3,
    };

    fn negative(failed: Failed, [decode, code1, code2]: [u8; 3]) -> Answer {
        let error = CallError {
            decode,
            code1,
            code2,
        };
        Answer::Negative { failed, error }
    }

    #[test]
    fn calls_are_what_document_01_says() {
        let (slot, index) = (1, 7);
        for (bytes, call, start) in [
            (&[][..], Call::Poll, 0),
            (
                &[0x5E, 1, 7, 240],
                Call::Read {
                    slot,
                    index,
                    length: 240,
                },
                4,
            ),
            (&[0x5F, 1, 7, 2, 8, 9], Call::Write { slot, index }, 4),
            (&[0x5C, 1, 2, 3], Call::AlarmAck(ALARM), 4),
            (&[0x48], Call::Idle, 1),
            (&[0x51, 1, 7, 0], Call::Transport { slot, index }, 4),
            (&[0x51, 1, 7, 1, 9], Call::Transport { slot, index }, 4),
        ] {
            let (read, data) = read_call(bytes).expect("valid");
            assert_eq!(read, call);
            assert!(std::ptr::eq(data, &bytes[start..]), "{bytes:02X?}");
            expect::written(bytes, |out| write_call(&call, &bytes[start..], out));
        }
    }

    #[test]
    fn positive_answers_are_what_document_01_says() {
        let (slot, index) = (1, 7);
        let written = Answer::Write {
            slot,
            index,
            length: 0,
        };
        for (bytes, answer, start) in [
            (&[0x5E, 1, 7, 0][..], Answer::Read { slot, index }, 4),
            (&[0x5E, 1, 7, 2, 8, 9], Answer::Read { slot, index }, 4),
            (&[0x5F, 1, 7, 0], written, 4),
            (&[0x5C, 1, 2, 3], Answer::AlarmAck(ALARM), 4),
            (&[0x48], Answer::Idle, 1),
            (&[0x51, 1, 7, 1, 9], Answer::Transport { slot, index }, 4),
        ] {
            let (read, data) = read_answer(bytes).expect("valid");
            assert_eq!(read, answer);
            assert!(std::ptr::eq(data, &bytes[start..]), "{bytes:02X?}");
            expect::written(bytes, |out| write_answer(&answer, data, out));
        }
    }

    #[test]
    fn negative_answers_are_what_document_01_says() {
        for (bytes, failed, error) in [
            ([0xDE, 128, 0xB2, 5], Failed::Read, [128, 0xB2, 5]),
            ([0xDF, 128, 0xB0, 0], Failed::Write, [128, 0xB0, 0]),
            ([0xDC, 254, 0, 255], Failed::AlarmAck, [254, 0, 255]),
            ([0xD1, 255, 0xA3, 1], Failed::Transport, [255, 0xA3, 1]),
        ] {
            let answer = negative(failed, error);
            assert_eq!(read_answer(&bytes), Ok((answer, &[][..])));
            expect::written(&bytes, |out| write_answer(&answer, &[], out));
        }
    }

    #[test]
    fn failed_calls_keep_their_number() {
        for (failed, number) in [
            (Failed::Read, 94),
            (Failed::Write, 95),
            (Failed::AlarmAck, 92),
            (Failed::Transport, 81),
        ] {
            assert_eq!(failed.number(), number);
        }
    }

    /// How many bytes a number needs before any data, and the least and the most
    /// data; none for a number that is not named.
    fn shape(number: u8, is_call: bool) -> Option<(usize, usize, usize)> {
        match number {
            0x48 => Some((1, 0, 0)),
            0x51 => Some((4, 0, 240)),
            0x5C => Some((4, 0, 0)),
            0x5E if is_call => Some((4, 0, 0)),
            0x5F if is_call => Some((4, 1, 240)),
            0x5E => Some((4, 0, 240)),
            0x5F => Some((4, 0, 0)),
            0xD1 | 0xDC | 0xDE | 0xDF if !is_call => Some((4, 0, 0)),
            _ => None,
        }
    }

    #[test]
    fn every_number_with_every_length() {
        for (number, length) in (0..=255).flat_map(|number| (1..300).map(move |n| (number, n))) {
            let mut bytes = vec![0xA0; length];
            bytes[0] = number;
            if let [_, second, _, fourth, ..] = &mut bytes[..] {
                // A right decode and, where there is room, the count.
                *second = 128;
                *fourth = length.saturating_sub(4) as u8;
            }
            let expected = |is_call| match shape(number, is_call) {
                None => Some(28),
                Some((head, least, most)) => {
                    let right = (head + least..=head + most).contains(&length);
                    (!right).then_some(20)
                }
            };
            assert_eq!(read_call(&bytes).err(), expected(true), "{bytes:02X?}");
            assert_eq!(read_answer(&bytes).err(), expected(false), "{bytes:02X?}");
        }
    }

    #[test]
    fn empty_call_is_a_poll_and_empty_answer_is_none() {
        assert_eq!(read_call(&[]), Ok((Call::Poll, &[][..])));
        assert_eq!(read_answer(&[]), Err(20));
    }

    #[test]
    fn number_comes_before_the_length() {
        for bytes in [&[0xC8][..], &[0x56], &[0x57, 1], &[0x58; 245], &[0xC8; 4]] {
            assert_eq!(read_call(bytes), Err(28), "{bytes:02X?}");
            assert_eq!(read_answer(bytes), Err(28), "{bytes:02X?}");
        }
        for number in [0xD1, 0xDC, 0xDE, 0xDF] {
            assert_eq!(read_call(&[number, 128, 0xB0, 0]), Err(28));
            assert_eq!(read_call(&[number]), Err(28));
            assert_eq!(read_answer(&[number]), Err(20));
        }
    }

    #[test]
    fn every_length_that_is_asked_for_or_taken() {
        for length in 0..=255 {
            let number = (length > 240).then_some(21);
            assert_eq!(read_call(&[0x5E, 9, 9, length]).err(), number, "{length}");
            assert_eq!(read_answer(&[0x5F, 9, 9, length]).err(), number, "{length}");
            // The length of the whole comes before.
            assert_eq!(read_call(&[0x5E, 9, 9, length, 0]), Err(20));
            assert_eq!(read_answer(&[0x5F, 9, 9, length, 0]), Err(20));
        }
    }

    #[test]
    fn every_count_that_is_not_of_the_data() {
        for count in 0..=255_u8 {
            let outcome = (count != 3).then_some(20);
            for number in [0x51, 0x5F] {
                let bytes = [number, 9, 9, count, 1, 2, 3];
                assert_eq!(read_call(&bytes).err(), outcome, "{bytes:02X?}");
            }
            for number in [0x51, 0x5E] {
                let bytes = [number, 9, 9, count, 1, 2, 3];
                assert_eq!(read_answer(&bytes).err(), outcome, "{bytes:02X?}");
            }
        }
    }

    #[test]
    fn every_decode_with_every_code() {
        for (decode, code1) in (0..=255).flat_map(|decode| (0..=255).map(move |n| (decode, n))) {
            let outcome = match decode {
                128 if sample::ERROR_CODES.contains(&code1) => None,
                128 => Some(28),
                254 | 255 => None,
                _ => Some(21),
            };
            for (number, failed) in [
                (0xD1, Failed::Transport),
                (0xDC, Failed::AlarmAck),
                (0xDE, Failed::Read),
                (0xDF, Failed::Write),
            ] {
                let code2 = code1 ^ number;
                let bytes = [number, decode, code1, code2];
                let answer = negative(failed, [decode, code1, code2]);
                match outcome {
                    None => assert_eq!(read_answer(&bytes), Ok((answer, &[][..]))),
                    Some(refusal) => {
                        assert_eq!(read_answer(&bytes), Err(refusal), "{bytes:02X?}");
                        expect::refused(refusal, |out| write_answer(&answer, &[], out));
                    }
                }
            }
        }
    }

    #[test]
    fn data_comes_before_the_fields_in_writing() {
        let (slot, index) = (1, 7);
        let length = 241;
        let read = Call::Read {
            slot,
            index,
            length,
        };
        let written = Answer::Write {
            slot,
            index,
            length,
        };
        for (data, number) in [(&[][..], 21), (&[0], 20), (&[0; 256], 20)] {
            expect::refused(number, |out| write_call(&read, data, out));
            expect::refused(number, |out| write_answer(&written, data, out));
        }
        for (error, data, number) in [
            ([127, 0x00, 0], &[][..], 21),
            ([127, 0x00, 0], &[0], 20),
            ([128, 0x00, 0], &[], 28),
            ([128, 0x00, 0], &[0], 20),
            ([255, 0x00, 0], &[0], 20),
        ] {
            let answer = negative(Failed::Write, error);
            expect::refused(number, |out| write_answer(&answer, data, out));
        }
    }

    #[test]
    fn every_call_has_its_counts_of_data_in_writing() {
        let (slot, index, length) = (1, 7, 2);
        let read = Call::Read {
            slot,
            index,
            length,
        };
        for (call, least, most) in [
            (Call::Poll, 0, 0),
            (read, 0, 0),
            (Call::Write { slot, index }, 1, 240),
            (Call::AlarmAck(ALARM), 0, 0),
            (Call::Idle, 0, 0),
            (Call::Transport { slot, index }, 0, 240),
        ] {
            for count in 0..=300 {
                let outcome = write_call(&call, &[9; 300][..count], &mut [0; 300]);
                let is_right = least <= count && count <= most;
                let number = (!is_right).then_some(20);
                assert_eq!(outcome.err(), number, "{call:?} {count}");
            }
        }
    }

    #[test]
    fn every_answer_has_its_counts_of_data_in_writing() {
        let (slot, index, length) = (1, 7, 2);
        let written = Answer::Write {
            slot,
            index,
            length,
        };
        for (answer, most) in [
            (Answer::Read { slot, index }, 240),
            (written, 0),
            (Answer::AlarmAck(ALARM), 0),
            (Answer::Idle, 0),
            (Answer::Transport { slot, index }, 240),
            (negative(Failed::Read, [128, 0xB0, 0]), 0),
        ] {
            for count in 0..=300 {
                let outcome = write_answer(&answer, &[9; 300][..count], &mut [0; 300]);
                let number = (count > most).then_some(20);
                assert_eq!(outcome.err(), number, "{answer:?} {count}");
            }
        }
    }

    #[test]
    fn written_as_read() {
        let random = &mut Random::new(1);
        for bytes in sample::all_calls(random) {
            let (call, data) = read_call(&bytes).expect("valid");
            expect::written(&bytes, |out| write_call(&call, data, out));
        }
        for bytes in sample::all_answers(random) {
            let (answer, data) = read_answer(&bytes).expect("valid");
            expect::written(&bytes, |out| write_answer(&answer, data, out));
        }
    }

    #[test]
    fn any_fields_are_read_back_or_left_unwritten() {
        let random = &mut Random::new(2);
        let lent = random.bytes(300);
        for _ in 0..10_000 {
            let (call, data) = fields::any_call(random, &lent);
            let mut out = [0; 300];
            match write_call(&call, data, &mut out) {
                Ok(length) => assert_eq!(read_call(&out[..length]), Ok((call, data))),
                Err(number) => expect::refused(number, |out| write_call(&call, data, out)),
            }
            let (answer, data) = fields::any_answer(random, &lent);
            let mut out = [0; 300];
            match write_answer(&answer, data, &mut out) {
                Ok(length) => assert_eq!(read_answer(&out[..length]), Ok((answer, data))),
                Err(number) => expect::refused(number, |out| write_answer(&answer, data, out)),
            }
        }
    }
}

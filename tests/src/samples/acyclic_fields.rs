//! Fields of DPV1 calls and answers to write, right and wrong, and the same as
//! the bytes of their writers' lines in the vectors.

use super::acyclic::{any_count, reserved_code, unknown_decode, DECODES, ERROR_CODES};
use crate::random::Random;
use crate::reference::acyclic::{Alarm, Answer, Call, CallError, Failed};

/// The most data bytes.
const MOST_DATA: usize = 240;
/// The data bytes that can be lent.
const LENT: usize = 300;

/// A call to write and its data, more often right than wrong. The data
/// is lent from the front of `lent`, which has at least 300 bytes.
pub fn any_call<'a>(random: &mut Random, lent: &'a [u8]) -> (Call, &'a [u8]) {
    let [slot, index] = [random.byte(), random.byte()];
    let (call, count) = match random.below(6) {
        0 => (Call::Poll, no_data(random)),
        1 => {
            let length = any_length(random);
            let call = Call::Read {
                slot,
                index,
                length,
            };
            (call, no_data(random))
        }
        2 => (Call::Write { slot, index }, data_count(random, 1)),
        3 => (Call::AlarmAck(any_alarm(random)), no_data(random)),
        4 => (Call::Idle, no_data(random)),
        _ => (Call::Transport { slot, index }, data_count(random, 0)),
    };
    (call, &lent[..count])
}

/// An answer to write and its data, as `any_call`; every second one is negative.
pub fn any_answer<'a>(random: &mut Random, lent: &'a [u8]) -> (Answer, &'a [u8]) {
    let [slot, index] = [random.byte(), random.byte()];
    let (answer, count) = match random.below(10) {
        0 => (Answer::Read { slot, index }, data_count(random, 0)),
        1 => {
            let length = any_length(random);
            let answer = Answer::Write {
                slot,
                index,
                length,
            };
            (answer, no_data(random))
        }
        2 => (Answer::AlarmAck(any_alarm(random)), no_data(random)),
        3 => (Answer::Idle, no_data(random)),
        4 => (Answer::Transport { slot, index }, data_count(random, 0)),
        _ => {
            let failed = *random.pick(&[
                Failed::Read,
                Failed::Write,
                Failed::AlarmAck,
                Failed::Transport,
            ]);
            let error = any_error(random);
            (Answer::Negative { failed, error }, no_data(random))
        }
    };
    (answer, &lent[..count])
}

fn any_alarm(random: &mut Random) -> Alarm {
    Alarm {
        slot: random.byte(),
        kind: random.byte(),
        specifier: random.byte(),
    }
}

/// Mostly a known decode, and under 128 mostly a code that is not reserved.
fn any_error(random: &mut Random) -> CallError {
    let decode = match random.below(8) {
        0 => unknown_decode(random),
        1..5 => 128,
        _ => *random.pick(&DECODES),
    };
    let code1 = match random.below(8) {
        0 => random.byte(),
        1..3 => reserved_code(random),
        _ => *random.pick(&ERROR_CODES),
    };
    CallError {
        decode,
        code1,
        code2: random.byte(),
    }
}

/// Mostly a length that can be asked for, and sometimes one above.
fn any_length(random: &mut Random) -> u8 {
    match random.below(3) {
        0 => random.between(MOST_DATA + 1, 255) as u8,
        _ => any_count(random, 0) as u8,
    }
}

/// Mostly a right count of data bytes, and sometimes one below or above.
fn data_count(random: &mut Random, low: usize) -> usize {
    match random.below(8) {
        0 => 0,
        1 => *random.pick(&[MOST_DATA + 1, 255, 256, LENT]),
        2 => random.between(MOST_DATA + 1, LENT),
        _ => any_count(random, low),
    }
}

/// Mostly no data bytes, and sometimes some.
fn no_data(random: &mut Random) -> usize {
    match random.below(8) {
        0 => random.between(1, LENT),
        1 => *random.pick(&[1, 256, LENT]),
        _ => 0,
    }
}

/// What `any_call` makes as the bytes of a line, the room left out.
pub(super) fn call_line(random: &mut Random) -> Vec<u8> {
    let lent = random.bytes(LENT);
    let (call, data) = any_call(random, &lent);
    // What the kind does not have is not looked at.
    let [a, b, c] = [random.byte(), random.byte(), random.byte()];
    let (kind, fields) = match call {
        Call::Poll => (0, [a, b, c]),
        Call::Read {
            slot,
            index,
            length,
        } => (1, [slot, index, length]),
        Call::Write { slot, index } => (2, [slot, index, c]),
        Call::AlarmAck(alarm) => (3, alarm_fields(alarm)),
        Call::Idle => (4, [a, b, c]),
        Call::Transport { slot, index } => (5, [slot, index, c]),
    };
    [&[kind], &fields[..], data].concat()
}

/// What `any_answer` makes as the bytes of a line, the room left out.
pub(super) fn answer_line(random: &mut Random) -> Vec<u8> {
    let lent = random.bytes(LENT);
    let (answer, data) = any_answer(random, &lent);
    // What the kind does not have is not looked at.
    let [a, b, c] = [random.byte(), random.byte(), random.byte()];
    let (kind, fields) = match answer {
        Answer::Read { slot, index } => (1, [slot, index, c]),
        Answer::Write {
            slot,
            index,
            length,
        } => (2, [slot, index, length]),
        Answer::AlarmAck(alarm) => (3, alarm_fields(alarm)),
        Answer::Idle => (4, [a, b, c]),
        Answer::Transport { slot, index } => (5, [slot, index, c]),
        Answer::Negative { failed, error } => {
            let kind = match failed {
                Failed::Read => 6,
                Failed::Write => 7,
                Failed::AlarmAck => 8,
                Failed::Transport => 9,
            };
            (kind, [error.decode, error.code1, error.code2])
        }
    };
    [&[kind], &fields[..], data].concat()
}

fn alarm_fields(alarm: Alarm) -> [u8; 3] {
    [alarm.slot, alarm.kind, alarm.specifier]
}

#[cfg(test)]
mod tests {
    use super::*;
    use crate::reference::acyclic::{write_answer, write_call};
    use std::collections::BTreeSet;

    #[test]
    fn any_fields_reach_every_number() {
        let random = &mut Random::new(1);
        let lent = random.bytes(LENT);
        let mut calls = BTreeSet::new();
        let mut answers = BTreeSet::new();
        for _ in 0..5000 {
            let (call, data) = any_call(random, &lent);
            calls.insert(write_call(&call, data, &mut [0; 300]).err());
            let (answer, data) = any_answer(random, &lent);
            answers.insert(write_answer(&answer, data, &mut [0; 300]).err());
        }
        assert_eq!(calls, BTreeSet::from([None, Some(20), Some(21)]));
        let expected = BTreeSet::from([None, Some(20), Some(21), Some(28)]);
        assert_eq!(answers, expected);
    }
}

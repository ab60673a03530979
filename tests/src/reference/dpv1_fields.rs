//! A DPV1 call or answer as the number and three bytes of the C interface
//! (`include/rabtunex.h`).

use super::acyclic::{Alarm, Answer, Call, CallError, Failed};

/// The function number and three bytes that depend on it, 0 where it has none.
pub type Fields = [u8; 4];

/// The function numbers: a poll has none, and this stands for it.
pub const POLL: u8 = 0x00;
/// Idle, both ways.
pub const IDLE: u8 = 0x48;
/// Data transport, both ways.
pub const TRANSPORT: u8 = 0x51;
/// Alarm acknowledgement, both ways.
pub const ALARM_ACK: u8 = 0x5C;
/// Read, both ways.
pub const READ: u8 = 0x5E;
/// Write, both ways.
pub const WRITE: u8 = 0x5F;
/// A negative answer to data transport.
pub const NEGATIVE_TRANSPORT: u8 = 0xD1;
/// A negative answer to an alarm acknowledgement.
pub const NEGATIVE_ALARM_ACK: u8 = 0xDC;
/// A negative answer to a read.
pub const NEGATIVE_READ: u8 = 0xDE;
/// A negative answer to a write.
pub const NEGATIVE_WRITE: u8 = 0xDF;

/// The fields of a call.
pub fn of_call(call: &Call) -> Fields {
    match *call {
        Call::Poll => [POLL, 0, 0, 0],
        Call::Read {
            slot,
            index,
            length,
        } => [READ, slot, index, length],
        Call::Write { slot, index } => [WRITE, slot, index, 0],
        Call::AlarmAck(alarm) => of_alarm(alarm),
        Call::Idle => [IDLE, 0, 0, 0],
        Call::Transport { slot, index } => [TRANSPORT, slot, index, 0],
    }
}

/// The fields of an answer.
pub fn of_answer(answer: &Answer) -> Fields {
    match *answer {
        Answer::Read { slot, index } => [READ, slot, index, 0],
        Answer::Write {
            slot,
            index,
            length,
        } => [WRITE, slot, index, length],
        Answer::AlarmAck(alarm) => of_alarm(alarm),
        Answer::Idle => [IDLE, 0, 0, 0],
        Answer::Transport { slot, index } => [TRANSPORT, slot, index, 0],
        Answer::Negative { failed, error } => {
            let number = match failed {
                Failed::Read => NEGATIVE_READ,
                Failed::Write => NEGATIVE_WRITE,
                Failed::AlarmAck => NEGATIVE_ALARM_ACK,
                Failed::Transport => NEGATIVE_TRANSPORT,
            };
            [number, error.decode, error.code1, error.code2]
        }
    }
}

fn of_alarm(alarm: Alarm) -> Fields {
    [ALARM_ACK, alarm.slot, alarm.kind, alarm.specifier]
}

/// The call to write for fields, right or wrong; none when calls do not have the
/// number.
pub fn call_of(fields: Fields) -> Option<Call> {
    let [number, slot, index, length] = fields;
    match number {
        POLL => Some(Call::Poll),
        IDLE => Some(Call::Idle),
        TRANSPORT => Some(Call::Transport { slot, index }),
        ALARM_ACK => Some(Call::AlarmAck(alarm_of(fields))),
        READ => Some(Call::Read {
            slot,
            index,
            length,
        }),
        WRITE => Some(Call::Write { slot, index }),
        _ => None,
    }
}

/// The answer to write for fields, right or wrong; none when answers do not have
/// the number.
pub fn answer_of(fields: Fields) -> Option<Answer> {
    let [number, slot, index, length] = fields;
    let failed = match number {
        IDLE => return Some(Answer::Idle),
        TRANSPORT => return Some(Answer::Transport { slot, index }),
        ALARM_ACK => return Some(Answer::AlarmAck(alarm_of(fields))),
        READ => return Some(Answer::Read { slot, index }),
        WRITE => {
            return Some(Answer::Write {
                slot,
                index,
                length,
            })
        }
        NEGATIVE_TRANSPORT => Failed::Transport,
        NEGATIVE_ALARM_ACK => Failed::AlarmAck,
        NEGATIVE_READ => Failed::Read,
        NEGATIVE_WRITE => Failed::Write,
        _ => return None,
    };
    let [_, decode, code1, code2] = fields;
    let error = CallError {
        decode,
        code1,
        code2,
    };
    Some(Answer::Negative { failed, error })
}

fn alarm_of([_, slot, kind, specifier]: Fields) -> Alarm {
    Alarm {
        slot,
        kind,
        specifier,
    }
}

/// How many of the fields are looked at in writing a call with this number.
pub fn looked_at_in_call(number: u8) -> usize {
    match number {
        POLL | IDLE => 1,
        TRANSPORT | WRITE => 3,
        _ => 4,
    }
}

/// How many of the fields are looked at in writing an answer with this number.
pub fn looked_at_in_answer(number: u8) -> usize {
    match number {
        IDLE => 1,
        TRANSPORT | READ => 3,
        _ => 4,
    }
}

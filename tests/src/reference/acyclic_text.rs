//! DPV1 data and typed values as lines of the vectors: what reading answers and
//! what the writers make of it again, and what they make of any fields.

use super::acyclic::{self, Alarm, Answer, Call, CallError, Failed};
use super::service_text::{again, rest_text, written};
use super::typed::{self, Value};
use super::writer_text;

/// The line that answers the bytes of a call, or their refusal number.
pub(super) fn call_line(bytes: &[u8]) -> Result<String, u8> {
    let (call, data) = acyclic::read_call(bytes)?;
    let again = again(written(|out| acyclic::write_call(&call, data, out)));
    let place = rest_text(bytes, data);
    let text = match call {
        Call::Poll => String::from("poll"),
        Call::Read {
            slot,
            index,
            length,
        } => format!("read {slot} {index} {length}"),
        Call::Write { slot, index } => format!("write {slot} {index}{place}"),
        Call::AlarmAck(alarm) => alarm_text(alarm),
        Call::Idle => String::from("idle"),
        Call::Transport { slot, index } => format!("transport {slot} {index}{place}"),
    };
    Ok(format!("0 {text}{again}"))
}

/// The line that answers the bytes of an answer, or their refusal number.
pub(super) fn answer_line(bytes: &[u8]) -> Result<String, u8> {
    let (answer, data) = acyclic::read_answer(bytes)?;
    let again = again(written(|out| acyclic::write_answer(&answer, data, out)));
    let place = rest_text(bytes, data);
    let text = match answer {
        Answer::Read { slot, index } => format!("read {slot} {index}{place}"),
        Answer::Write {
            slot,
            index,
            length,
        } => format!("write {slot} {index} {length}"),
        Answer::AlarmAck(alarm) => alarm_text(alarm),
        Answer::Idle => String::from("idle"),
        Answer::Transport { slot, index } => format!("transport {slot} {index}{place}"),
        Answer::Negative { failed, error } => {
            let [number, decode] = [failed.number(), error.decode];
            let [code1, code2] = [error.code1, error.code2];
            format!("negative {number} {decode} {code1} {code2}")
        }
    };
    Ok(format!("0 {text}{again}"))
}

fn alarm_text(alarm: Alarm) -> String {
    let Alarm {
        slot,
        kind,
        specifier,
    } = alarm;
    format!("alarm {slot} {kind} {specifier}")
}

/// The line that answers the bytes of a typed value, or their refusal number.
pub(super) fn typed_line(bytes: &[u8]) -> Result<String, u8> {
    let value = typed::read(bytes)?;
    let again = again(written(|out| typed::write(&value, out)));
    let text = match value {
        Value::Boolean(flag) => format!("boolean {}", u8::from(flag)),
        Value::I8(number) => format!("i8 {number}"),
        Value::I16(number) => format!("i16 {number}"),
        Value::I32(number) => format!("i32 {number}"),
        Value::U8(number) => format!("u8 {number}"),
        Value::U16(number) => format!("u16 {number}"),
        Value::U32(number) => format!("u32 {number}"),
        Value::Float(number) => format!("float {}", number.to_bits()),
        Value::Nan(bits) => format!("nan {bits}"),
    };
    Ok(format!("0 {text}{again}"))
}

/// The line that answers the fields of a call to write, unless they are none.
pub(super) fn call_writer_line(bytes: &[u8]) -> Option<String> {
    let (fields, data) = bytes.split_first_chunk()?;
    let [room, kind, first, second, third] = *fields;
    let (slot, index) = (first, second);
    let call = match kind {
        0 => Call::Poll,
        1 => Call::Read {
            slot,
            index,
            length: third,
        },
        2 => Call::Write { slot, index },
        3 => Call::AlarmAck(alarm([first, second, third])),
        4 => Call::Idle,
        5 => Call::Transport { slot, index },
        _ => return None,
    };
    let write = |out: &mut [u8]| acyclic::write_call(&call, data, out);
    Some(writer_text::written(room, write))
}

/// The line that answers the fields of an answer to write, unless they are none.
pub(super) fn answer_writer_line(bytes: &[u8]) -> Option<String> {
    let (fields, data) = bytes.split_first_chunk()?;
    let [room, kind, first, second, third] = *fields;
    let (slot, index) = (first, second);
    let negative = |failed| Answer::Negative {
        failed,
        error: CallError {
            decode: first,
            code1: second,
            code2: third,
        },
    };
    let answer = match kind {
        1 => Answer::Read { slot, index },
        2 => Answer::Write {
            slot,
            index,
            length: third,
        },
        3 => Answer::AlarmAck(alarm([first, second, third])),
        4 => Answer::Idle,
        5 => Answer::Transport { slot, index },
        6 => negative(Failed::Read),
        7 => negative(Failed::Write),
        8 => negative(Failed::AlarmAck),
        9 => negative(Failed::Transport),
        _ => return None,
    };
    let write = |out: &mut [u8]| acyclic::write_answer(&answer, data, out);
    Some(writer_text::written(room, write))
}

fn alarm([slot, kind, specifier]: [u8; 3]) -> Alarm {
    Alarm {
        slot,
        kind,
        specifier,
    }
}

/// The line that answers the fields of a typed value to write, unless they are
/// none.
pub(super) fn typed_writer_line(bytes: &[u8]) -> Option<String> {
    let [room, code, all @ ..] = <[u8; 6]>::try_from(bytes).ok()?;
    // The bytes before a short value are not looked at.
    let [_, _, both @ ..] = all;
    let [_, last] = both;
    let value = match code {
        1 if last <= 1 => Value::Boolean(last == 1),
        2 => Value::I8(i8::from_be_bytes([last])),
        3 => Value::I16(i16::from_be_bytes(both)),
        4 => Value::I32(i32::from_be_bytes(all)),
        5 => Value::U8(last),
        6 => Value::U16(u16::from_be_bytes(both)),
        7 => Value::U32(u32::from_be_bytes(all)),
        8 => Value::Float(f32::from_be_bytes(all)),
        9 => Value::Nan(u32::from_be_bytes(all)),
        _ => return None,
    };
    let write = |out: &mut [u8]| typed::write(&value, out);
    Some(writer_text::written(room, write))
}

#[cfg(test)]
mod tests {
    use crate::reference::service_text::Service;
    use crate::reference::text::from_hex;
    use crate::reference::writer_text::Writer;

    fn check<const N: usize>(service: Service, rows: [(&str, &str); N]) {
        for (hex, expected) in rows {
            let bytes = from_hex(hex).expect("hex");
            assert_eq!(service.answer(&bytes), expected, "{service:?} {hex}");
        }
    }

    #[test]
    fn call_lines() {
        check(
            Service::Dpv1Call,
            [
                ("", "0 poll ="),
                ("5E 01 07 F0", "0 read 1 7 240 = 5e 01 07 f0"),
                ("5F 01 07 02 AB CD", "0 write 1 7 4 2 = 5f 01 07 02 ab cd"),
                ("5C FF 02 03", "0 alarm 255 2 3 = 5c ff 02 03"),
                ("48", "0 idle = 48"),
                ("51 00 FF 00", "0 transport 0 255 4 0 = 51 00 ff 00"),
                ("51 00 FF 01 09", "0 transport 0 255 4 1 = 51 00 ff 01 09"),
                ("5F 01 07 00", "20"),
                ("51 00 FF 02 09", "20"),
                ("48 00", "20"),
                ("5E 01 07 F1", "21"),
                ("C8", "28"),
                ("DE 80 B0 00", "28"),
            ],
        );
    }

    #[test]
    fn answer_lines() {
        check(
            Service::Dpv1Answer,
            [
                ("5E 01 07 02 AB CD", "0 read 1 7 4 2 = 5e 01 07 02 ab cd"),
                ("5E 01 07 00", "0 read 1 7 4 0 = 5e 01 07 00"),
                ("5F 01 07 F0", "0 write 1 7 240 = 5f 01 07 f0"),
                ("5C 01 02 FF", "0 alarm 1 2 255 = 5c 01 02 ff"),
                ("48", "0 idle = 48"),
                ("51 00 FF 01 09", "0 transport 0 255 4 1 = 51 00 ff 01 09"),
                ("DE 80 B2 05", "0 negative 94 128 178 5 = de 80 b2 05"),
                ("DF FE 00 00", "0 negative 95 254 0 0 = df fe 00 00"),
                ("DC FF A3 FF", "0 negative 92 255 163 255 = dc ff a3 ff"),
                ("D1 80 FF 00", "0 negative 81 128 255 0 = d1 80 ff 00"),
                ("", "20"),
                ("DE 80 B2", "20"),
                ("5F 01 07 F1", "21"),
                ("DE 81 00 00", "21"),
                ("DE 80 9F 00", "28"),
                ("C8", "28"),
            ],
        );
    }

    #[test]
    fn typed_lines() {
        check(
            Service::TypedValue,
            [
                ("01 00", "0 boolean 0 = 01 00"),
                ("01 FF", "0 boolean 1 = 01 ff"),
                ("02 FB", "0 i8 -5 = 02 fb"),
                ("03 FF FE", "0 i16 -2 = 03 ff fe"),
                ("04 80 00 00 00", "0 i32 -2147483648 = 04 80 00 00 00"),
                ("05 FB", "0 u8 251 = 05 fb"),
                ("06 FF FE", "0 u16 65534 = 06 ff fe"),
                ("07 FF FF FF FF", "0 u32 4294967295 = 07 ff ff ff ff"),
                ("08 3F 80 00 00", "0 float 1065353216 = 08 3f 80 00 00"),
                ("08 80 00 00 00", "0 float 2147483648 = 08 80 00 00 00"),
                ("08 7F 80 00 01", "0 nan 2139095041 = 08 7f 80 00 01"),
                ("", "20"),
                ("08 7F 80 00", "20"),
                ("01 01", "29"),
                ("09 00", "29"),
            ],
        );
    }

    fn check_writer<const N: usize>(writer: Writer, rows: [(&str, &str); N]) {
        for (hex, expected) in rows {
            let bytes = from_hex(hex).expect("hex");
            assert_eq!(writer.answer(&bytes), expected, "{writer:?} {hex}");
        }
    }

    #[test]
    fn lines_of_the_writer_of_calls() {
        check_writer(
            Writer::Dpv1Call,
            [
                ("00 00 01 02 03", "0 ="),
                ("FF 00 01 02 03 00", "20"),
                ("04 01 01 07 F0", "0 = 5e 01 07 f0"),
                ("00 01 01 07 F1", "21"),
                ("00 01 01 07 F1 00", "20"),
                ("03 01 01 07 F0", "11"),
                ("06 02 01 07 63 AB CD", "0 = 5f 01 07 02 ab cd"),
                ("05 02 01 07 02 AB CD", "11"),
                ("FF 02 01 07 00", "20"),
                ("FF 03 01 02 03", "0 = 5c 01 02 03"),
                ("FF 03 01 02 03 04", "20"),
                ("01 04 01 02 03", "0 = 48"),
                ("00 04 01 02 03", "11"),
                ("FF 04 01 02 03 04", "20"),
                ("04 05 01 07 63", "0 = 51 01 07 00"),
                ("FF 05 01 07 63 AB", "0 = 51 01 07 01 ab"),
                ("FF 06 01 07 00", "malformed"),
                ("FF 00 01 02", "malformed"),
                ("", "malformed"),
            ],
        );
    }

    #[test]
    fn lines_of_the_writer_of_answers() {
        check_writer(
            Writer::Dpv1Answer,
            [
                ("04 01 01 07 63", "0 = 5e 01 07 00"),
                ("06 01 01 07 63 AB CD", "0 = 5e 01 07 02 ab cd"),
                ("05 01 01 07 63 AB CD", "11"),
                ("04 02 01 07 F0", "0 = 5f 01 07 f0"),
                ("00 02 01 07 F1", "21"),
                ("00 02 01 07 F1 00", "20"),
                ("04 03 01 02 03", "0 = 5c 01 02 03"),
                ("01 04 01 02 03", "0 = 48"),
                ("05 05 01 07 63 AB", "0 = 51 01 07 01 ab"),
                ("04 06 80 B2 05", "0 = de 80 b2 05"),
                ("04 07 80 AF 00", "0 = df 80 af 00"),
                ("04 08 FE 00 00", "0 = dc fe 00 00"),
                ("04 09 FF C7 01", "0 = d1 ff c7 01"),
                ("03 06 80 B2 05", "11"),
                ("03 06 80 C7 05", "28"),
                ("03 06 7F C7 05", "21"),
                ("03 06 7F C7 05 00", "20"),
                ("FF 00 01 02 03", "malformed"),
                ("FF 0A 80 B2 05", "malformed"),
                ("FF 04 01 02", "malformed"),
            ],
        );
    }

    #[test]
    fn counts_of_data_in_writer_lines() {
        for (count, is_right) in [(240, true), (241, false), (256, false), (300, false)] {
            for (kind, writer) in [
                (2, Writer::Dpv1Call),
                (5, Writer::Dpv1Call),
                (1, Writer::Dpv1Answer),
                (5, Writer::Dpv1Answer),
            ] {
                let bytes = [&[255, kind, 1, 7, 0][..], &vec![9; count]].concat();
                let line = writer.answer(&bytes);
                assert_eq!(line.starts_with("0 = "), is_right, "{kind} {count}");
                assert_eq!(line == "20", !is_right, "{kind} {count}");
            }
        }
    }

    #[test]
    fn lines_of_the_writer_of_typed_values() {
        check_writer(
            Writer::TypedValue,
            [
                ("02 01 09 09 09 00", "0 = 01 00"),
                ("02 01 09 09 09 01", "0 = 01 ff"),
                ("02 01 00 00 00 02", "malformed"),
                ("02 02 09 09 09 FB", "0 = 02 fb"),
                ("FF 03 09 09 FF FE", "0 = 03 ff fe"),
                ("02 03 09 09 FF FE", "11"),
                ("05 04 80 00 00 01", "0 = 04 80 00 00 01"),
                ("02 05 09 09 09 FB", "0 = 05 fb"),
                ("03 06 09 09 12 34", "0 = 06 12 34"),
                ("05 07 12 34 56 78", "0 = 07 12 34 56 78"),
                ("05 08 80 00 00 00", "0 = 08 80 00 00 00"),
                ("04 08 80 00 00 00", "11"),
                ("04 08 7F 80 00 01", "12"),
                ("05 09 7F 80 00 01", "0 = 08 7f 80 00 01"),
                ("04 09 7F 80 00 01", "11"),
                ("04 09 7F 80 00 00", "12"),
                ("FF 00 00 00 00 00", "malformed"),
                ("FF 0A 00 00 00 00", "malformed"),
                ("FF 04 00 00 00", "malformed"),
                ("FF 04 00 00 00 00 00", "malformed"),
                ("", "malformed"),
            ],
        );
    }
}

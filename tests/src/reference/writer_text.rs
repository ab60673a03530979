//! What writers make of any fields, right or wrong, as lines of the vectors.
//!
//! The bytes of such a line are the room, which is the size of the output, then
//! the fields in their order, then the part that is lent, where there is one. A
//! flag is one byte, 0 or 1; a number of 16 bits is two, the high one first. The
//! answer is the refusal number, or `0 =` and the bytes that were stored. Bytes
//! that do not make fields are answered `malformed`.

use super::acyclic_text;
use super::book;
use super::configuration::{self, Identifier, Module, Side};
use super::control::{self, GlobalControl, SetSlaveAdr};
use super::diagnosis::{self, Channel, Header};
use super::parameters::{self, BitTimes, Mode, Parameters};
use super::service_text::stored_text;
use std::array;

/// The line that answers bytes which do not make fields.
pub const MALFORMED: &str = "malformed";

/// The most room that a line can give.
const MOST_ROOM: usize = 255;

/// Answers the bytes of a line, the room first, or nothing when they do not make
/// fields.
type Line = fn(&[u8]) -> Option<String>;

/// A writer whose fields can stand in the vectors.
#[derive(Clone, Copy, Debug, PartialEq, Eq)]
pub enum Writer {
    /// A whole diagnosis: status 1, 2 and 3, master, ident; the blocks are lent.
    Diagnosis,
    /// A device block of a diagnosis: its data is lent.
    DeviceBlock,
    /// A module block of a diagnosis: its map is lent.
    ModuleBlock,
    /// A channel block of a diagnosis: module, direction, channel, type, error.
    ChannelBlock,
    /// Parameters: flags, both factors, response time, ident, groups, in DPV1 the
    /// three status bytes; the user's bytes are lent.
    Parameters(Mode),
    /// One module of a configuration: the identifier, 0 general or 1 special;
    /// then of the input and of the output whether there is one, its units, and
    /// the flags of words and consistency; the vendor bytes are lent.
    Module,
    /// A whole configuration: its modules are lent.
    Configuration,
    /// A Set_Slave_Adr: address, ident, the byte of the lock; what follows is
    /// lent.
    SetSlaveAdr,
    /// A Global_Control: command, groups; what follows is lent.
    GlobalControl,
    /// A DPV1 call: its kind (0 poll, 1 read, 2 write, 3 alarm acknowledgement, 4
    /// idle, 5 data transport) and three bytes, which are slot, index and length,
    /// or slot, type and specifier of the alarm; its data is lent. A byte that the
    /// kind does not have is not looked at.
    Dpv1Call,
    /// A DPV1 answer, as a call: the kinds 1 to 5 are positive; 6 read, 7 write, 8
    /// alarm acknowledgement and 9 data transport are negative, and their three
    /// bytes are decode, code 1 and code 2.
    Dpv1Answer,
    /// A typed value: its code, 9 for the bits of a NaN, and four bytes, of which
    /// a short value has the last; a Boolean is a flag there.
    TypedValue,
    /// A template book: how many slots there are and the slots, how many lengths
    /// there are and the lengths, one byte each; the bodies are lent.
    Book,
}

impl Writer {
    /// Every writer, the parameters in both modes.
    pub const ALL: [Writer; 14] = [
        Writer::Diagnosis,
        Writer::DeviceBlock,
        Writer::ModuleBlock,
        Writer::ChannelBlock,
        Writer::Parameters(Mode::Dpv0),
        Writer::Parameters(Mode::Dpv1),
        Writer::Module,
        Writer::Configuration,
        Writer::SetSlaveAdr,
        Writer::GlobalControl,
        Writer::Dpv1Call,
        Writer::Dpv1Answer,
        Writer::TypedValue,
        Writer::Book,
    ];

    /// What stands after `>` in the line that announces its fields.
    pub fn letter(self) -> &'static str {
        match self {
            Writer::Diagnosis => "d",
            Writer::DeviceBlock => "e",
            Writer::ModuleBlock => "m",
            Writer::ChannelBlock => "h",
            Writer::Parameters(Mode::Dpv0) => "p",
            Writer::Parameters(Mode::Dpv1) => "q",
            Writer::Module => "n",
            Writer::Configuration => "c",
            Writer::SetSlaveAdr => "a",
            Writer::GlobalControl => "g",
            Writer::Dpv1Call => "x",
            Writer::Dpv1Answer => "y",
            Writer::TypedValue => "v",
            Writer::Book => "b",
        }
    }

    /// The writer that has this letter.
    pub fn of_letter(letter: &str) -> Option<Self> {
        let mut writers = Writer::ALL.into_iter();
        writers.find(|writer| writer.letter() == letter)
    }

    /// What to call it.
    pub fn name(self) -> &'static str {
        match self {
            Writer::Diagnosis => "diagnosis writer",
            Writer::DeviceBlock => "device block writer",
            Writer::ModuleBlock => "module block writer",
            Writer::ChannelBlock => "channel block writer",
            Writer::Parameters(Mode::Dpv0) => "DPV0 parameters writer",
            Writer::Parameters(Mode::Dpv1) => "DPV1 parameters writer",
            Writer::Module => "configuration module writer",
            Writer::Configuration => "configuration writer",
            Writer::SetSlaveAdr => "Set_Slave_Adr writer",
            Writer::GlobalControl => "Global_Control writer",
            Writer::Dpv1Call => "DPV1 call writer",
            Writer::Dpv1Answer => "DPV1 answer writer",
            Writer::TypedValue => "typed value writer",
            Writer::Book => "template book writer",
        }
    }

    /// The line that answers these bytes in the vectors.
    pub fn answer(self, bytes: &[u8]) -> String {
        let line: Line = match self {
            Writer::Diagnosis => diagnosis_line,
            Writer::DeviceBlock => device_block_line,
            Writer::ModuleBlock => module_block_line,
            Writer::ChannelBlock => channel_block_line,
            Writer::Parameters(Mode::Dpv0) => dpv0_line,
            Writer::Parameters(Mode::Dpv1) => dpv1_line,
            Writer::Module => module_line,
            Writer::Configuration => configuration_line,
            Writer::SetSlaveAdr => set_slave_adr_line,
            Writer::GlobalControl => global_control_line,
            Writer::Dpv1Call => acyclic_text::call_writer_line,
            Writer::Dpv1Answer => acyclic_text::answer_writer_line,
            Writer::TypedValue => acyclic_text::typed_writer_line,
            Writer::Book => book_line,
        };
        line(bytes).unwrap_or_else(|| String::from(MALFORMED))
    }
}

/// The answer to one writing. Of the output, no byte may change but those that
/// the writer says it stored.
pub(super) fn written(room: u8, write: impl FnOnce(&mut [u8]) -> Result<usize, u8>) -> String {
    // All different, since a byte may be stored that stood there before.
    let before: [u8; MOST_ROOM] = array::from_fn(|place| 0xA5 ^ place as u8);
    let mut out = before;
    let outcome = write(&mut out[..usize::from(room)]);
    let (stored, rest) = out.split_at(outcome.unwrap_or(0));
    assert_eq!(rest, &before[stored.len()..], "behind what was stored");
    match outcome {
        Ok(_) => format!("0{}", stored_text(stored)),
        Err(refusal) => refusal.to_string(),
    }
}

/// What a byte that is 0 or 1 says.
pub(super) fn flag(byte: u8) -> Option<bool> {
    match byte {
        0 => Some(false),
        1 => Some(true),
        _ => None,
    }
}

fn diagnosis_line(bytes: &[u8]) -> Option<String> {
    let (fields, blocks) = bytes.split_first_chunk()?;
    let [room, status1, status2, status3, master, high, low] = *fields;
    let header = Header {
        status1,
        status2,
        status3,
        master,
        ident: u16::from_be_bytes([high, low]),
    };
    Some(written(room, |out| diagnosis::write(&header, blocks, out)))
}

fn device_block_line(bytes: &[u8]) -> Option<String> {
    let (room, data) = bytes.split_first()?;
    Some(written(*room, |out| diagnosis::write_device(data, out)))
}

fn module_block_line(bytes: &[u8]) -> Option<String> {
    let (room, map) = bytes.split_first()?;
    Some(written(*room, |out| diagnosis::write_module(map, out)))
}

fn channel_block_line(bytes: &[u8]) -> Option<String> {
    let [room, module, direction, channel, kind, error] = *bytes else {
        return None;
    };
    let channel = Channel {
        module,
        direction,
        channel,
        kind,
        error,
    };
    Some(written(room, |out| diagnosis::write_channel(&channel, out)))
}

fn dpv0_line(bytes: &[u8]) -> Option<String> {
    let (fields, user) = bytes.split_first_chunk()?;
    Some(parameters_line(*fields, None, user))
}

fn dpv1_line(bytes: &[u8]) -> Option<String> {
    let (fields, rest) = bytes.split_first_chunk()?;
    let (status, user) = rest.split_first_chunk()?;
    Some(parameters_line(*fields, Some(*status), user))
}

fn parameters_line(fields: [u8; 8], status: Option<[u8; 3]>, user: &[u8]) -> String {
    let [room, flags, factor1, factor2, response, high, low, groups] = fields;
    let parameters = Parameters {
        flags,
        factor1,
        factor2,
        response: BitTimes(response),
        ident: u16::from_be_bytes([high, low]),
        groups,
        status,
        user,
    };
    written(room, |out| parameters::write(&parameters, out))
}

fn module_line(bytes: &[u8]) -> Option<String> {
    let ([room, identifier], rest) = bytes.split_first_chunk()?;
    let (input, rest) = rest.split_first_chunk()?;
    let (output, vendor) = rest.split_first_chunk()?;
    let module = Module {
        identifier: match identifier {
            0 => Identifier::General,
            1 => Identifier::Special,
            _ => return None,
        },
        input: side(*input)?,
        output: side(*output)?,
        vendor,
    };
    let write = |out: &mut [u8]| configuration::write_module(&module, out);
    Some(written(*room, write))
}

/// The side that is there, none where it is not, or nothing when a flag is none.
fn side([is_there, units, words, consistent]: [u8; 4]) -> Option<Option<Side>> {
    let side = Side {
        units,
        words: flag(words)?,
        consistent: flag(consistent)?,
    };
    Some(flag(is_there)?.then_some(side))
}

fn configuration_line(bytes: &[u8]) -> Option<String> {
    let (room, modules) = bytes.split_first()?;
    Some(written(*room, |out| configuration::write(modules, out)))
}

fn set_slave_adr_line(bytes: &[u8]) -> Option<String> {
    let (fields, rest) = bytes.split_first_chunk()?;
    let [room, address, high, low, locked] = *fields;
    let data = SetSlaveAdr {
        address,
        ident: u16::from_be_bytes([high, low]),
        locked,
        rest,
    };
    let write = |out: &mut [u8]| control::write_set_slave_adr(&data, out);
    Some(written(room, write))
}

fn global_control_line(bytes: &[u8]) -> Option<String> {
    let (fields, rest) = bytes.split_first_chunk()?;
    let [room, command, groups] = *fields;
    let data = GlobalControl {
        command,
        groups,
        rest,
    };
    let write = |out: &mut [u8]| control::write_global_control(&data, out);
    Some(written(room, write))
}

fn book_line(bytes: &[u8]) -> Option<String> {
    let (room, rest) = bytes.split_first()?;
    let (slots, rest) = split_counted(rest)?;
    let (lengths, bodies) = split_counted(rest)?;
    let write = |out: &mut [u8]| book::write(slots, lengths, bodies, out);
    Some(written(*room, write))
}

/// As many bytes as the first byte says, and what follows them.
pub(super) fn split_counted(bytes: &[u8]) -> Option<(&[u8], &[u8])> {
    let (count, rest) = bytes.split_first()?;
    rest.split_at_checked(usize::from(*count))
}

#[cfg(test)]
mod tests {
    use super::*;
    use crate::reference::text::from_hex;

    const DPV0: Writer = Writer::Parameters(Mode::Dpv0);
    const DPV1: Writer = Writer::Parameters(Mode::Dpv1);

    fn check_one(writer: Writer, hex: &str, expected: &str) {
        let bytes = from_hex(hex).expect("hex");
        assert_eq!(writer.answer(&bytes), expected, "{writer:?} {hex}");
    }

    fn check<const N: usize>(writer: Writer, rows: [(&str, &str); N]) {
        for (hex, expected) in rows {
            check_one(writer, hex, expected);
        }
    }

    /// All of these lines get the same answer.
    fn check_all<const N: usize>(writer: Writer, expected: &str, rows: [&str; N]) {
        check(writer, rows.map(|hex| (hex, expected)));
    }

    /// The lines that are these ones with a part added so many times.
    fn check_longer<const N: usize>(writer: Writer, rows: [(&str, &str, usize, &str); N]) {
        for (hex, part, times, expected) in rows {
            let hex = format!("{hex}{}", part.repeat(times));
            check_one(writer, &hex, expected);
        }
    }

    #[test]
    fn letters_are_those_of_the_writers_alone() {
        for writer in Writer::ALL {
            assert_eq!(Writer::of_letter(writer.letter()), Some(writer));
        }
        let letters = Writer::ALL.map(Writer::letter);
        let expected = [
            "d", "e", "m", "h", "p", "q", "n", "c", "a", "g", "x", "y", "v", "b",
        ];
        assert_eq!(letters, expected);
        for letter in ["", "D", "t", "X", "z", "dd", "d ", ">", "é"] {
            assert_eq!(Writer::of_letter(letter), None, "{letter:?}");
        }
    }

    #[test]
    fn diagnosis_accepted_in_enough_room() {
        check(
            Writer::Diagnosis,
            [
                (
                    "09 08 0C 00 02 12 34 82 43 26",
                    "0 = 08 0c 00 02 12 34 82 43 26",
                ),
                (
                    "FF 08 0C 00 02 12 34 82 43 26",
                    "0 = 08 0c 00 02 12 34 82 43 26",
                ),
                ("06 00 04 80 FF AB CD", "0 = 00 04 80 ff ab cd"),
                ("06 56 3F 00 7D 00 01", "0 = 56 3f 00 7d 00 01"),
                ("08 08 0C 00 02 12 34 82 43 26", "11"),
                ("00 08 0C 00 02 12 34 82 43 26", "11"),
                ("05 00 04 80 FF AB CD", "11"),
            ],
        );
        let longest = format!("0 = 08 04 00 02 12 34{}", " 02 ff".repeat(119));
        check_longer(
            Writer::Diagnosis,
            [
                ("F4 08 04 00 02 12 34", " 02 FF", 119, &longest),
                ("FF 08 04 00 02 12 34", " 02 FF", 119, &longest),
                ("F3 08 04 00 02 12 34", " 02 FF", 119, "11"),
            ],
        );
    }

    #[test]
    fn diagnosis_refused_for_its_length_or_header() {
        check_longer(
            Writer::Diagnosis,
            [
                ("FF 08 04 00 02 12 34 03 FF FF", " 02 FF", 118, "20"),
                ("FF 08 04 00 02 12 34", " 02 FF", 252, "20"),
            ],
        );
        check_all(
            Writer::Diagnosis,
            "21",
            [
                "FF 01 04 00 00 00 01",
                "FF 20 04 00 00 00 01",
                "FF 80 04 00 00 00 01",
                "FF 00 00 00 00 00 01",
                "FF 00 44 00 00 00 01",
                "FF 00 84 00 00 00 01",
                "FF 00 04 01 00 00 01",
                "FF 00 04 40 00 00 01",
                "FF 00 04 00 7E 00 01",
                "FF 00 04 00 FE 00 01",
            ],
        );
    }

    #[test]
    fn diagnosis_refused_for_its_blocks() {
        check(
            Writer::Diagnosis,
            [
                ("FF 08 0C 00 02 12 34", "22"),
                ("FF 00 0C 00 02 12 34 82 43 26", "22"),
                ("FF 08 0C 00 02 12 34 00", "23"),
                ("FF 08 0C 00 02 12 34 41 FF", "23"),
                ("FF 08 0C 00 02 12 34 C3 43 26", "23"),
                ("FF 08 0C 00 02 12 34 03 FF", "24"),
                ("FF 08 0C 00 02 12 34 42", "24"),
                ("FF 08 0C 00 02 12 34 82 43", "24"),
                ("FF 08 0C 00 02 12 34 82 03 26", "25"),
                ("FF 08 0C 00 02 12 34 82 43 E6", "25"),
                ("FF 08 0C 00 02 12 34 82 43 2A", "25"),
            ],
        );
    }

    #[test]
    fn diagnosis_faults_in_their_order() {
        check_longer(
            Writer::Diagnosis,
            [
                ("FF 01 00 01 7E 12 34", " C0", 239, "20"),
                ("00 08 04 00 02 12 34 03 FF FF", " 02 FF", 118, "20"),
            ],
        );
        check(
            Writer::Diagnosis,
            [
                // The header, then the blocks from left to right.
                ("FF 01 04 00 00 00 01 C0", "21"),
                ("FF 08 04 00 7E 00 01 82 03 26", "21"),
                ("FF 09 04 00 00 00 01", "21"),
                ("FF 08 04 00 00 00 01 02 FF C0 82 03 26", "23"),
                ("FF 08 04 00 00 00 01 82 03 26 C0", "25"),
                ("FF 08 04 00 00 00 01 82 43 26 05 C0", "24"),
                ("FF 08 04 00 00 00 01 82 03", "24"),
                // Ext_Diag only after all blocks.
                ("FF 00 04 00 00 00 01 C0", "23"),
                ("FF 00 04 00 00 00 01 02 FF 03 FF", "24"),
                ("FF 00 04 00 00 00 01 82 03 26", "25"),
                // The room last.
                ("00 01 04 00 00 00 01", "21"),
                ("00 08 04 00 00 00 01", "22"),
                ("00 08 04 00 00 00 01 C0", "23"),
                ("00 08 04 00 00 00 01 02", "24"),
                ("00 08 04 00 00 00 01 82 03 26", "25"),
            ],
        );
    }

    #[test]
    fn device_and_module_blocks() {
        check(
            Writer::DeviceBlock,
            [
                ("02 FF", "0 = 02 ff"),
                ("FF 01 02 03", "0 = 04 01 02 03"),
                ("01 FF", "11"),
                ("00 FF", "11"),
                ("03 01 02 03", "11"),
                ("FF", "23"),
                ("00", "23"),
            ],
        );
        check(
            Writer::ModuleBlock,
            [
                ("02 00", "0 = 42 00"),
                ("FF 01 02 83", "0 = 44 01 02 83"),
                ("01 00", "11"),
                ("00 00", "11"),
                ("FF", "23"),
                ("00", "23"),
            ],
        );
    }

    #[test]
    fn longest_device_and_module_blocks() {
        for (writer, header) in [(Writer::DeviceBlock, "3f"), (Writer::ModuleBlock, "7f")] {
            let longest = format!("0 = {header}{}", " aa".repeat(62));
            check_longer(
                writer,
                [
                    ("3F", " AA", 62, &longest),
                    ("3E", " AA", 62, "11"),
                    ("FF", " AA", 63, "21"),
                    ("00", " AA", 63, "21"),
                    // Of the length of this one, 2 is left in one byte.
                    ("FF", " AA", 257, "21"),
                    ("FF", " AA", 511, "21"),
                ],
            );
        }
    }

    #[test]
    fn channel_blocks_accepted_in_enough_room() {
        check(
            Writer::ChannelBlock,
            [
                ("03 02 01 03 01 06", "0 = 82 43 26"),
                ("FF 3F 03 00 06 10", "0 = bf c0 d0"),
                ("03 00 02 3F 01 09", "0 = 80 bf 29"),
                ("FF 00 01 00 06 1F", "0 = 80 40 df"),
                ("02 02 01 03 01 06", "11"),
                ("00 02 01 03 01 06", "11"),
            ],
        );
    }

    #[test]
    fn channel_blocks_refused() {
        check_all(
            Writer::ChannelBlock,
            "21",
            [
                "FF 40 01 03 01 06",
                "FF 02 04 03 01 06",
                "FF 02 01 40 01 06",
                "FF 02 01 03 08 06",
                "FF 02 01 03 01 20",
                "FF FF 01 03 01 06",
                "FF 02 FF 03 01 06",
                "FF 02 01 03 FF 06",
                "FF 02 01 03 01 FF",
            ],
        );
        check_all(
            Writer::ChannelBlock,
            "25",
            [
                "FF 02 00 03 01 06",
                "FF 02 01 03 00 06",
                "FF 02 01 03 07 06",
                "FF 02 01 03 01 00",
                "FF 02 01 03 01 0A",
                "FF 02 01 03 01 0F",
            ],
        );
    }

    #[test]
    fn channel_faults_in_their_order() {
        check(
            Writer::ChannelBlock,
            [
                ("FF 40 00 03 01 06", "21"),
                ("FF 40 01 03 00 06", "21"),
                ("FF 02 00 03 08 06", "25"),
                ("FF 02 00 03 01 20", "25"),
                ("FF 02 01 40 00 06", "21"),
                // Within one byte a field that does not fit comes first.
                ("FF 02 00 40 01 06", "21"),
                ("FF 02 01 03 00 20", "21"),
                ("FF 02 01 03 08 00", "21"),
                ("00 40 01 03 01 06", "21"),
                ("00 02 00 03 01 06", "25"),
                ("02 02 01 03 01 0A", "25"),
            ],
        );
    }

    #[test]
    fn parameters_as_dpv0() {
        check(
            DPV0,
            [
                ("07 B8 14 05 FF 12 34 81", "0 = b8 14 05 ff 12 34 81"),
                (
                    // What DPV1 would take for wrong status bytes.
                    "FF 00 FF FF 0B 00 00 00 1B 02 60",
                    "0 = 00 ff ff 0b 00 00 00 1b 02 60",
                ),
                ("06 B8 14 05 FF 12 34 81", "11"),
                ("00 B8 14 05 FF 12 34 81", "11"),
                ("07 B8 14 05 FF 12 34 81 00", "11"),
                ("00 00 02 03 0A 00 01 00", "21"),
            ],
        );
        check_all(
            DPV0,
            "21",
            [
                "FF 01 02 03 0B 00 01 00",
                "FF 02 02 03 0B 00 01 00",
                "FF 04 02 03 0B 00 01 00",
                "FF 00 02 03 0A 00 01 00",
                "FF 00 02 03 00 00 01 00",
                "FF 01 02 03 0A 00 01 00",
            ],
        );
    }

    #[test]
    fn parameters_as_dpv1() {
        check(
            DPV1,
            [
                (
                    "0C B8 14 05 FF 12 34 81 E4 FD 9F AB CD",
                    "0 = b8 14 05 ff 12 34 81 e4 fd 9f ab cd",
                ),
                (
                    "0A 00 02 03 0B 00 01 00 00 00 00",
                    "0 = 00 02 03 0b 00 01 00 00 00 00",
                ),
                ("09 00 02 03 0B 00 01 00 00 00 00", "11"),
                ("00 00 02 03 0B 00 01 00 00 00 00", "11"),
                ("00 00 02 03 0B 00 01 00 00 02 00", "21"),
            ],
        );
        check_all(
            DPV1,
            "21",
            [
                "FF 01 02 03 0B 00 01 00 00 00 00",
                "FF 00 02 03 0A 00 01 00 00 00 00",
                "FF 00 02 03 0B 00 01 00 01 00 00",
                "FF 00 02 03 0B 00 01 00 02 00 00",
                "FF 00 02 03 0B 00 01 00 08 00 00",
                "FF 00 02 03 0B 00 01 00 10 00 00",
                "FF 00 02 03 0B 00 01 00 00 02 00",
                "FF 00 02 03 0B 00 01 00 00 00 20",
                "FF 00 02 03 0B 00 01 00 00 00 40",
            ],
        );
    }

    #[test]
    fn longest_parameters() {
        let longest = format!("0 = 00 02 03 0b 00 01 00{}", " aa".repeat(237));
        check_longer(
            DPV0,
            [
                ("F4 00 02 03 0B 00 01 00", " AA", 237, &longest),
                ("F3 00 02 03 0B 00 01 00", " AA", 237, "11"),
                ("FF 00 02 03 0B 00 01 00", " AA", 238, "20"),
                ("FF 07 02 03 0A 00 01 00", " AA", 238, "20"),
                ("00 00 02 03 0B 00 01 00", " AA", 300, "20"),
            ],
        );
        let longest = format!("0 = 00 02 03 0b 00 01 00 00 00 00{}", " aa".repeat(234));
        check_longer(
            DPV1,
            [
                ("F4 00 02 03 0B 00 01 00 00 00 00", " AA", 234, &longest),
                ("F3 00 02 03 0B 00 01 00 00 00 00", " AA", 234, "11"),
                ("FF 00 02 03 0B 00 01 00 00 00 00", " AA", 235, "20"),
                ("FF 00 02 03 0B 00 01 00 01 00 00", " AA", 235, "20"),
                ("00 00 02 03 0B 00 01 00 00 00 00", " AA", 235, "20"),
            ],
        );
    }

    #[test]
    fn configuration_modules_accepted_in_enough_room() {
        check(
            Writer::Module,
            [
                ("01 00 01 04 00 00 00 00 00 00", "0 = 13"),
                ("FF 00 00 00 00 00 01 06 01 00", "0 = 65"),
                ("01 00 01 10 00 01 01 10 00 01", "0 = bf"),
                ("01 00 01 01 01 01 00 00 00 00", "0 = d0"),
                ("04 01 01 10 01 00 01 08 00 00 20", "0 = c1 07 4f 20"),
                ("02 01 01 40 01 01 00 00 00 00", "0 = 40 ff"),
                ("03 01 00 00 00 00 01 01 00 01 07", "0 = 81 80 07"),
                ("01 01 00 00 00 00 00 00 00 00", "0 = 00"),
                // A side that is not there is not looked at.
                ("01 00 01 04 00 00 00 FF 01 01", "0 = 13"),
                ("01 01 00 41 01 00 00 00 00 01", "0 = 00"),
                ("00 00 01 04 00 00 00 00 00 00", "11"),
                ("03 01 01 10 01 00 01 08 00 00 20", "11"),
                ("00 01 00 00 00 00 00 00 00 00", "11"),
            ],
        );
        let most = format!("0 = ce 00 00{}", " aa".repeat(14));
        check_longer(
            Writer::Module,
            [
                ("11 01 01 01 00 00 01 01 00 00", " AA", 14, &most),
                ("10 01 01 01 00 00 01 01 00 00", " AA", 14, "11"),
            ],
        );
    }

    #[test]
    fn configuration_modules_refused() {
        check_all(
            Writer::Module,
            "21",
            [
                "FF 00 00 00 00 00 00 00 00 00",
                "FF 00 01 00 00 00 00 00 00 00",
                "FF 00 01 11 00 00 00 00 00 00",
                "FF 00 00 00 00 00 01 11 00 00",
                "FF 00 01 11 00 00 01 11 00 00",
                // One byte cannot hold two sides that differ.
                "FF 00 01 04 00 00 01 05 00 00",
                "FF 00 01 04 01 00 01 04 00 00",
                "FF 00 01 04 00 00 01 04 00 01",
                "FF 01 01 00 00 00 00 00 00 00",
                "FF 01 00 00 00 00 01 41 00 00",
                "FF 01 01 41 00 00 01 01 00 00 07",
                "FF 01 01 FF 01 01 01 00 01 01",
                "00 00 01 11 00 00 00 00 00 00",
                "00 01 01 41 00 00 00 00 00 00",
            ],
        );
        check_longer(
            Writer::Module,
            [
                ("FF 01 00 00 00 00 00 00 00 00", " AA", 15, "26"),
                ("FF 01 01 01 00 00 01 01 00 00", " AA", 16, "21"),
                ("FF 01 01 01 00 00 01 01 00 00", " AA", 256, "21"),
                ("00 01 00 00 00 00 00 00 00 00", " AA", 15, "26"),
                // The count stands in the byte before the lengths.
                ("FF 01 01 41 00 00 00 00 00 00", " AA", 15, "26"),
                ("FF 01 00 00 00 00 01 00 00 00", " AA", 15, "26"),
            ],
        );
    }

    /// A general one has none, and they come before its own faults and the room.
    #[test]
    fn general_modules_with_vendor_bytes() {
        for (fields, counts) in [
            ("FF 00 01 04 00 00 00 00 00 00", 1..=20),
            ("FF 00 01 10 00 01 01 10 00 01", 1..=1),
            // No side, no units, too many, and sides that differ.
            ("FF 00 00 00 00 00 00 00 00 00", 1..=20),
            ("FF 00 01 00 00 00 00 00 00 00", 1..=1),
            ("FF 00 00 00 00 00 01 11 00 00", 14..=16),
            ("FF 00 01 04 00 00 01 05 00 00", 1..=1),
            ("00 00 01 04 00 00 00 00 00 00", 1..=1),
            ("00 00 01 FF 00 00 01 FF 00 00", 300..=300),
        ] {
            for count in counts {
                check_longer(Writer::Module, [(fields, " AA", count, "20")]);
            }
        }
    }

    #[test]
    fn configurations() {
        check(
            Writer::Configuration,
            [
                ("06 13 65 C1 07 4F 20", "0 = 13 65 c1 07 4f 20"),
                ("FF 00", "0 = 00"),
                ("05 13 65 C1 07 4F 20", "11"),
                ("00 00", "11"),
                ("FF", "20"),
                ("FF 13 C1 07 4F", "24"),
                ("FF 40", "24"),
                ("FF 0F", "26"),
                ("FF 13 8F", "26"),
                ("FF 40 FF 40 FF", "27"),
                ("FF 80 FF 80 FF", "27"),
                // From left to right, 26 before 24 at one header, 27 after all.
                ("FF CF 00", "26"),
                ("FF 13 0F 40", "26"),
                ("FF 4E 0F", "24"),
                ("FF 40 FF 40 FF 43 00", "24"),
                ("FF 40 FF 40 FF 0F", "26"),
                // The room last.
                ("00", "20"),
                ("00 40", "24"),
                ("00 0F", "26"),
                ("03 40 FF 40 FF", "27"),
            ],
        );
    }

    #[test]
    fn longest_configuration() {
        let longest = format!("0 ={}", " 00".repeat(244));
        check_longer(
            Writer::Configuration,
            [
                ("F4", " 00", 244, &longest),
                ("F3", " 00", 244, "11"),
                ("FF", " 00", 245, "20"),
                ("00", " 0F", 245, "20"),
                ("FF", " 7F", 511, "20"),
            ],
        );
    }

    #[test]
    fn controls() {
        check(
            Writer::SetSlaveAdr,
            [
                ("04 7D 12 34 01", "0 = 7d 12 34 01"),
                ("FF 00 00 01 00", "0 = 00 00 01 00"),
                ("03 7D 12 34 01", "11"),
                ("00 7D 12 34 01", "11"),
                ("FF 7D 12 34 01 00", "20"),
                ("FF 7E 12 34 01", "21"),
                ("FF FF 12 34 00", "21"),
                ("FF 7E 12 34 01 00", "20"),
                ("00 7D 12 34 01 00", "20"),
                ("03 7E 12 34 01", "21"),
                // The last byte is 0 or 1.
                ("FF 7D 12 34 02", "21"),
                ("FF 7D 12 34 80", "21"),
                ("FF 7D 12 34 FF", "21"),
                ("FF 7E 12 34 02", "21"),
                ("03 7D 12 34 02", "21"),
                ("00 7D 12 34 FF", "21"),
                ("FF 7D 12 34 02 00", "20"),
                ("00 7E 12 34 FF 00", "20"),
            ],
        );
        check(
            Writer::GlobalControl,
            [
                ("02 3E FF", "0 = 3e ff"),
                ("FF 00 01", "0 = 00 01"),
                ("01 3E FF", "11"),
                ("00 3E FF", "11"),
                ("FF 3E FF 00", "20"),
                ("FF 01 FF", "21"),
                ("FF 40 FF", "21"),
                ("FF 80 FF", "21"),
                ("FF 80 FF 00", "20"),
                ("00 3E FF 00", "20"),
                ("01 80 FF", "21"),
            ],
        );
    }

    #[test]
    fn too_few_bytes_are_no_fields() {
        for (writer, fewest) in [
            (Writer::Diagnosis, 7),
            (Writer::DeviceBlock, 1),
            (Writer::ModuleBlock, 1),
            (Writer::ChannelBlock, 6),
            (DPV0, 8),
            (DPV1, 11),
            (Writer::Module, 10),
            (Writer::Configuration, 1),
            (Writer::SetSlaveAdr, 5),
            (Writer::GlobalControl, 3),
            (Writer::Dpv1Call, 5),
            (Writer::Dpv1Answer, 5),
            (Writer::TypedValue, 6),
        ] {
            // Every flag, kind and code can be 1.
            for length in 0..fewest {
                assert_eq!(writer.answer(&vec![1; length]), MALFORMED, "{writer:?}");
            }
            assert_ne!(writer.answer(&vec![1; fewest]), MALFORMED, "{writer:?}");
        }
    }

    #[test]
    fn flags_and_tags_out_of_range_and_surplus_are_no_fields() {
        check_all(
            Writer::Module,
            "malformed",
            [
                "FF 02 01 04 00 00 00 00 00 00",
                "FF FF 01 04 00 00 00 00 00 00",
                "FF 01 02 04 00 00 00 00 00 00",
                "FF 01 01 04 02 00 00 00 00 00",
                "FF 01 01 04 00 FF 00 00 00 00",
                "FF 01 00 04 00 00 02 00 00 00",
                "FF 01 00 04 00 00 01 04 02 00",
                "FF 01 00 04 00 00 01 04 00 02",
                // The flags of a side that is not there.
                "FF 01 00 00 02 00 00 00 00 00",
                "FF 01 00 00 00 00 00 00 00 02",
                // Before any refusal.
                "00 01 01 41 00 02 00 00 00 00",
                "FF 00 01 04 00 02 00 00 00 00 07",
            ],
        );
        check_all(
            Writer::ChannelBlock,
            "malformed",
            ["FF 02 01 03 01 06 00", "00 40 00 40 00 20 00 00"],
        );
    }

    #[test]
    fn kinds_and_codes_out_of_range_are_no_fields() {
        for (writer, known) in [
            (Writer::Dpv1Call, 0..=5),
            (Writer::Dpv1Answer, 1..=9),
            (Writer::TypedValue, 1..=9),
        ] {
            for byte in 0..=255 {
                // The last is data to the first two, and may be refused.
                let answer = writer.answer(&[255, byte, 128, 0xB0, 0, 1]);
                let is_malformed = answer == MALFORMED;
                assert_eq!(is_malformed, !known.contains(&byte), "{writer:?} {byte}");
            }
        }
    }

    #[test]
    #[should_panic(expected = "behind what was stored")]
    fn a_change_behind_what_was_stored_shows() {
        written(4, |out| {
            out.fill(0);
            Ok(3)
        });
    }

    #[test]
    #[should_panic(expected = "behind what was stored")]
    fn a_change_with_a_refusal_shows() {
        written(1, |out| {
            out[0] = 0;
            Err(21)
        });
    }

    #[test]
    fn book_lines() {
        check(
            Writer::Book,
            [
                ("06 01 07 01 03 41 42 43", "0 = 01 07 03 41 42 43"),
                ("FF 01 07 01 03 41 42 43", "0 = 01 07 03 41 42 43"),
                ("05 01 07 01 03 41 42 43", "11"),
                ("00 01 07 01 03 41 42 43", "11"),
                (
                    "FF 02 03 0F 02 02 01 41 42 43",
                    "0 = 02 03 02 0f 01 41 42 43",
                ),
            ],
        );
        check_all(
            Writer::Book,
            "32",
            [
                "FF 00 00",
                "00 00 00",
                "FF 01 10 01 01 41",
                "FF 01 07 01 00",
                "FF 01 07 00",
                "FF 00 01 03",
                "FF 02 07 08 01 01 41",
                "FF 01 07 02 01 01 41",
                "FF 02 03 03 02 01 01 41 42",
                "FF 02 04 03 02 01 01 41 42",
                "FF 01 07 01 03 41 42",
                "FF 01 07 01 03 41 42 43 44",
            ],
        );
        check_longer(
            Writer::Book,
            [
                ("FF 01 07 01 C9", " FF", 201, "32"),
                (
                    "FF 11 00 01 02 03 04 05 06 07 08 09 0A 0B 0C 0D 0E 0F 10 11",
                    " 01",
                    34,
                    "32",
                ),
            ],
        );
        check_all(
            Writer::Book,
            MALFORMED,
            [
                "",
                "FF",
                "FF 00",
                "FF 01",
                "FF 01 07",
                "FF 01 07 01",
                "FF 02 03 04 02 01",
            ],
        );
    }
}

//! The data of services and template books as lines of the vectors: what reading
//! answers, what a walk over the data meets, and what the writers make of both
//! again.

use super::acyclic_text;
use super::book::{self, Template};
use super::configuration::{self, Identifier, Module, Side, Totals};
use super::control::{self, GlobalControl, SetSlaveAdr};
use super::diagnosis::{self, Block, Channel, Header};
use super::parameters::{self, Milliseconds, Mode};
use super::LONGEST_DATA;
use std::fmt::Write;

/// The longest book: 16 templates of 200 bytes.
const LONGEST_BOOK: usize = 1 + 16 * 2 + 16 * 200;

/// A service whose data can stand in the vectors, typed values and books.
#[derive(Clone, Copy, Debug, PartialEq, Eq)]
pub enum Service {
    /// The answer to Slave_Diag.
    Diagnosis,
    /// The data of Set_Prm, which the caller's mode says how to read.
    Parameters(Mode),
    /// The data of Chk_Cfg and Get_Cfg.
    Configuration,
    /// The data of Set_Slave_Adr.
    SetSlaveAdr,
    /// The data of Global_Control.
    GlobalControl,
    /// The data of a DPV1 call.
    Dpv1Call,
    /// The data of a DPV1 answer.
    Dpv1Answer,
    /// A typed value.
    TypedValue,
    /// A template book.
    Book,
}

impl Service {
    /// Every service, the parameters in both modes.
    pub const ALL: [Service; 10] = [
        Service::Diagnosis,
        Service::Parameters(Mode::Dpv0),
        Service::Parameters(Mode::Dpv1),
        Service::Configuration,
        Service::SetSlaveAdr,
        Service::GlobalControl,
        Service::Dpv1Call,
        Service::Dpv1Answer,
        Service::TypedValue,
        Service::Book,
    ];

    /// What stands after `=` in the line that announces its data.
    pub fn letter(self) -> &'static str {
        match self {
            Service::Diagnosis => "d",
            Service::Parameters(Mode::Dpv0) => "p",
            Service::Parameters(Mode::Dpv1) => "q",
            Service::Configuration => "c",
            Service::SetSlaveAdr => "a",
            Service::GlobalControl => "g",
            Service::Dpv1Call => "x",
            Service::Dpv1Answer => "y",
            Service::TypedValue => "v",
            Service::Book => "b",
        }
    }

    /// The service that has this letter.
    pub fn of_letter(letter: &str) -> Option<Self> {
        let mut services = Service::ALL.into_iter();
        services.find(|service| service.letter() == letter)
    }

    /// What to call its data.
    pub fn name(self) -> &'static str {
        match self {
            Service::Diagnosis => "diagnosis",
            Service::Parameters(Mode::Dpv0) => "parameters read as DPV0",
            Service::Parameters(Mode::Dpv1) => "parameters read as DPV1",
            Service::Configuration => "configuration",
            Service::SetSlaveAdr => "Set_Slave_Adr",
            Service::GlobalControl => "Global_Control",
            Service::Dpv1Call => "DPV1 call",
            Service::Dpv1Answer => "DPV1 answer",
            Service::TypedValue => "typed value",
            Service::Book => "template book",
        }
    }

    /// The line that answers these bytes in the vectors.
    pub fn answer(self, bytes: &[u8]) -> String {
        let accepted = match self {
            Service::Diagnosis => return diagnosis_line(bytes),
            Service::Configuration => return configuration_line(bytes),
            Service::Book => return book_line(bytes),
            Service::Parameters(mode) => parameters_line(bytes, mode),
            Service::SetSlaveAdr => set_slave_adr_line(bytes),
            Service::GlobalControl => global_control_line(bytes),
            Service::Dpv1Call => acyclic_text::call_line(bytes),
            Service::Dpv1Answer => acyclic_text::answer_line(bytes),
            Service::TypedValue => acyclic_text::typed_line(bytes),
        };
        accepted.unwrap_or_else(|refusal| refusal.to_string())
    }
}

/// What a walk over all of the data met.
pub(super) struct Walk<T> {
    /// Each item, and the position after it.
    pub(super) items: Vec<(T, usize)>,
    /// Why it went no further, unless it came to the end.
    refusal: Option<u8>,
}

impl<T> Walk<T> {
    pub(super) fn from(
        first_position: usize,
        step: impl Fn(usize) -> Result<Option<(T, usize)>, u8>,
    ) -> Self {
        let mut items = Vec::new();
        let mut position = first_position;
        let refusal = loop {
            match step(position) {
                Ok(Some((item, next))) => {
                    items.push((item, next));
                    position = next;
                }
                Ok(None) => break None,
                Err(refusal) => break Some(refusal),
            }
        };
        Walk { items, refusal }
    }

    fn text(&self, item_text: fn(&T, usize) -> String) -> String {
        let mut text = String::new();
        for (item, next) in &self.items {
            text += &item_text(item, *next);
        }
        match self.refusal {
            None => text + " .",
            Some(refusal) => text + &format!(" ! {refusal}"),
        }
    }

    /// The bytes of all items, each written on its own.
    fn written(&self, write: fn(&T, &mut [u8]) -> Result<usize, u8>) -> Result<Vec<u8>, u8> {
        let mut parts = Vec::new();
        for (item, _) in &self.items {
            parts.extend(written(|out| write(item, out))?);
        }
        Ok(parts)
    }
}

/// What a writer stores; no part of a service's data, nor the whole, is longer
/// than its output here.
pub(super) fn written(write: impl FnOnce(&mut [u8]) -> Result<usize, u8>) -> Result<Vec<u8>, u8> {
    let mut out = [0; LONGEST_DATA];
    let length = write(&mut out)?;
    Ok(out[..length].to_vec())
}

/// What writing again came to.
pub(super) fn again(outcome: Result<Vec<u8>, u8>) -> String {
    match outcome {
        Ok(bytes) => stored_text(&bytes),
        Err(refusal) => format!(" = {refusal}"),
    }
}

/// The bytes that a writer stored.
pub(super) fn stored_text(bytes: &[u8]) -> String {
    format!(" ={}", hex_text(bytes))
}

/// Each byte after a space.
pub(super) fn hex_text(bytes: &[u8]) -> String {
    let mut text = String::new();
    for byte in bytes {
        write!(text, " {byte:02x}").expect("a string takes any text");
    }
    text
}

fn diagnosis_line(bytes: &[u8]) -> String {
    let step = |position| diagnosis::walk(bytes, position);
    let blocks = Walk::from(diagnosis::HEADER_LENGTH, step);
    let walk = blocks.text(block_text);
    let (header, count) = match diagnosis::read(bytes) {
        Ok(accepted) => accepted,
        Err(refusal) => return format!("{refusal}{walk}"),
    };
    let parts = blocks.written(write_block);
    let again =
        again(parts.and_then(|parts| written(|out| diagnosis::write(&header, &parts, out))));
    let Header {
        status1,
        status2,
        status3,
        master,
        ident,
    } = header;
    format!("0 {status1} {status2} {status3} {master} {ident} {count}{walk}{again}")
}

fn block_text(block: &Block<'_>, next: usize) -> String {
    match *block {
        Block::Device(data) => {
            let (start, length) = (next - data.len(), data.len());
            format!(" | device {start} {length}")
        }
        Block::Module(map) => {
            let (start, length) = (next - map.0.len(), map.0.len());
            let reporting = map.reporting();
            let lowest = or_dash(map.lowest().map(|module| module.to_string()));
            format!(" | module {start} {length} {reporting} {lowest}")
        }
        Block::Channel(Channel {
            module,
            direction,
            channel,
            kind,
            error,
        }) => format!(" | channel {module} {direction} {channel} {kind} {error}"),
    }
}

fn write_block(block: &Block<'_>, out: &mut [u8]) -> Result<usize, u8> {
    match block {
        Block::Device(data) => diagnosis::write_device(data, out),
        Block::Module(map) => diagnosis::write_module(map.0, out),
        Block::Channel(channel) => diagnosis::write_channel(channel, out),
    }
}

fn or_dash(text: Option<String>) -> String {
    text.unwrap_or_else(|| String::from("-"))
}

fn parameters_line(bytes: &[u8], mode: Mode) -> Result<String, u8> {
    let read = parameters::read(bytes, mode)?;
    let again = again(written(|out| parameters::write(&read, out)));
    let [flags, factor1, factor2] = [read.flags, read.factor1, read.factor2];
    let (response, ident, groups) = (read.response.0, read.ident, read.groups);
    let status = read
        .status
        .map_or_else(String::new, |[first, second, third]| {
            format!(" {first} {second} {third}")
        });
    let watchdog = read.watchdog().0;
    let expired = u8::from(read.has_expired(Milliseconds(1000)));
    let rest = rest_text(bytes, read.user);
    Ok(format!(
        "0 {flags} {factor1} {factor2} {response} {ident} {groups}{status} {watchdog} {expired}{rest}{again}"
    ))
}

/// Where the last bytes of the data start, and how many they are.
pub(super) fn rest_text(bytes: &[u8], rest: &[u8]) -> String {
    let (start, length) = (bytes.len() - rest.len(), rest.len());
    format!(" {start} {length}")
}

fn configuration_line(bytes: &[u8]) -> String {
    let modules = Walk::from(0, |position| configuration::walk(bytes, position));
    let walk = modules.text(module_text);
    // Room for the most modules that there can be, which have one byte each.
    let mut input_offsets = [0; LONGEST_DATA];
    let mut output_offsets = [0; LONGEST_DATA];
    let totals = match configuration::read(bytes, &mut input_offsets, &mut output_offsets) {
        Ok(totals) => totals,
        Err(refusal) => return format!("{refusal}{walk}"),
    };
    let mut offsets = String::new();
    for (input, output) in input_offsets
        .iter()
        .zip(output_offsets)
        .take(totals.modules)
    {
        write!(offsets, " {input} {output}").expect("a string takes any text");
    }
    let parts = modules.written(configuration::write_module);
    let again = again(parts.and_then(|parts| written(|out| configuration::write(&parts, out))));
    let Totals {
        modules,
        inputs,
        outputs,
    } = totals;
    format!("0 {modules} {inputs} {outputs}{offsets}{walk}{again}")
}

fn module_text(module: &Module<'_>, next: usize) -> String {
    let format = match module.identifier {
        Identifier::General => "general",
        Identifier::Special => "special",
    };
    let input = or_dash(module.input.map(side_text));
    let output = or_dash(module.output.map(side_text));
    let length = module.vendor.len();
    let start = next - length;
    let again = again(written(|out| configuration::write_module(module, out)));
    format!(" | {format} {input} {output} {start} {length}{again}")
}

fn side_text(side: Side) -> String {
    let (words, consistent) = (u8::from(side.words), u8::from(side.consistent));
    format!("{} {words} {consistent}", side.units)
}

fn set_slave_adr_line(bytes: &[u8]) -> Result<String, u8> {
    let read = control::read_set_slave_adr(bytes)?;
    let again = again(written(|out| control::write_set_slave_adr(&read, out)));
    let SetSlaveAdr {
        address,
        ident,
        locked,
        rest,
    } = read;
    let rest = rest_text(bytes, rest);
    Ok(format!("0 {address} {ident} {locked}{rest}{again}"))
}

fn global_control_line(bytes: &[u8]) -> Result<String, u8> {
    let read = control::read_global_control(bytes)?;
    let again = again(written(|out| control::write_global_control(&read, out)));
    let GlobalControl {
        command,
        groups,
        rest,
    } = read;
    let rest = rest_text(bytes, rest);
    Ok(format!("0 {command} {groups}{rest}{again}"))
}

/// How many templates there are; each with its slot and where its body stands;
/// and the number of the first that is not there.
fn book_line(bytes: &[u8]) -> String {
    let step = |k| book::template(bytes, k).map(|template| Some((template, k + 1)));
    let templates = Walk::from(1, step);
    let found = templates.items.iter().map(|(template, _)| template);
    let bodies: Vec<&[u8]> = found.clone().map(|template| template.body).collect();
    // Nothing comes after the last body.
    let mut start = bytes.len() - bodies.concat().len();
    let mut walk = String::new();
    for Template { slot, body } in found.clone() {
        let length = body.len();
        write!(walk, " | {slot} {start} {length}").expect("a string takes any text");
        start += length;
    }
    walk += &templates.text(|_, _| String::new());
    let count = match book::read(bytes) {
        Ok(book) => book.count(),
        Err(refusal) => return format!("{refusal}{walk}"),
    };
    let slots: Vec<u8> = found.map(|template| template.slot).collect();
    let lengths: Vec<u8> = bodies.iter().map(|body| body.len() as u8).collect();
    let mut out = [0; LONGEST_BOOK];
    let stored = book::write(&slots, &lengths, &bodies.concat(), &mut out);
    let again = again(stored.map(|length| out[..length].to_vec()));
    format!("0 {count}{walk}{again}")
}

#[cfg(test)]
mod tests {
    use super::*;
    use crate::reference::text::from_hex;

    const DPV0: Service = Service::Parameters(Mode::Dpv0);
    const DPV1: Service = Service::Parameters(Mode::Dpv1);

    fn check<const N: usize>(service: Service, rows: [(&str, &str); N]) {
        for (hex, expected) in rows {
            let bytes = from_hex(hex).expect("hex");
            assert_eq!(service.answer(&bytes), expected, "{service:?} {hex}");
        }
    }

    #[test]
    fn letters_are_those_of_the_services_alone() {
        for service in Service::ALL {
            assert_eq!(Service::of_letter(service.letter()), Some(service));
        }
        let letters = Service::ALL.map(Service::letter);
        assert_eq!(letters, ["d", "p", "q", "c", "a", "g", "x", "y", "v", "b"]);
        for letter in ["", "D", "t", "z", "dd", "d ", "=", "é"] {
            assert_eq!(Service::of_letter(letter), None, "{letter:?}");
        }
    }

    #[test]
    fn diagnosis_lines() {
        check(
            Service::Diagnosis,
            [
                (
                    "08 0C 00 02 12 34 82 43 26",
                    "0 8 12 0 2 4660 1 | channel 2 1 3 1 6 . = 08 0c 00 02 12 34 82 43 26",
                ),
                (
                    "00 04 80 FF AB CD",
                    "0 0 4 128 255 43981 0 . = 00 04 80 ff ab cd",
                ),
                (
                    "08 04 00 00 00 01 03 AA BB 43 00 81 42 00 BF C0 D0",
                    "0 8 4 0 0 1 4 | device 7 2 | module 10 2 2 8 | module 13 1 0 - \
                     | channel 63 3 0 6 16 . \
                     = 08 04 00 00 00 01 03 aa bb 43 00 81 42 00 bf c0 d0",
                ),
            ],
        );
    }

    #[test]
    fn refused_diagnosis_is_walked_as_far_as_it_goes() {
        check(
            Service::Diagnosis,
            [
                ("", "20 ! 12"),
                ("08 0C 00 02 12", "20 ! 12"),
                ("01 04 00 00 00 01", "21 ."),
                (
                    "09 0C 00 02 12 34 82 43 26 00",
                    "21 | channel 2 1 3 1 6 ! 23",
                ),
                ("08 0C 00 02 12 34", "22 ."),
                ("00 0C 00 02 12 34 82 43 26", "22 | channel 2 1 3 1 6 ."),
                ("08 0C 00 02 12 34 02 FF C0", "23 | device 7 1 ! 23"),
                ("08 0C 00 02 12 34 42 10 03 FF", "24 | module 7 1 1 4 ! 24"),
                ("08 0C 00 02 12 34 82 03 26", "25 ! 25"),
            ],
        );
    }

    #[test]
    fn too_long_a_diagnosis_is_walked_to_its_end() {
        let mut bytes = vec![0x08, 0x0C, 0x00, 0x02, 0x12, 0x34];
        for length in [63, 63, 63, 50] {
            bytes.push(length);
            bytes.extend(vec![0xFF; usize::from(length) - 1]);
        }
        let expected = "20 | device 7 62 | device 70 62 | device 133 62 | device 196 49 .";
        assert_eq!(Service::Diagnosis.answer(&bytes), expected);
    }

    #[test]
    fn parameters_lines() {
        check(
            DPV0,
            [
                (
                    "B8 14 05 FF 12 34 81 E4 FD 9F AB CD",
                    "0 184 20 5 255 4660 129 1000 1 7 5 = b8 14 05 ff 12 34 81 e4 fd 9f ab cd",
                ),
                (
                    "00 FF FF 0B 00 00 00",
                    "0 0 255 255 11 0 0 650250 0 7 0 = 00 ff ff 0b 00 00 00",
                ),
                (
                    "00 02 03 0B 00 01 00 01",
                    "0 0 2 3 11 1 0 60 1 7 1 = 00 02 03 0b 00 01 00 01",
                ),
                ("", "20"),
                ("00 02 03 0B 00 01", "20"),
                ("00 02 03 0A 00 01 00", "21"),
            ],
        );
        check(
            DPV1,
            [
                (
                    "B8 14 05 FF 12 34 81 E4 FD 9F AB CD",
                    "0 184 20 5 255 4660 129 228 253 159 100 1 10 2 \
                     = b8 14 05 ff 12 34 81 e4 fd 9f ab cd",
                ),
                (
                    "00 02 03 0B 00 01 00 00 00 00",
                    "0 0 2 3 11 1 0 0 0 0 60 1 10 0 = 00 02 03 0b 00 01 00 00 00 00",
                ),
                ("00 02 03 0B 00 01 00 00 00", "20"),
                ("00 02 03 0B 00 01 00 01 00 00", "21"),
            ],
        );
    }

    #[test]
    fn configuration_lines() {
        check(
            Service::Configuration,
            [
                (
                    "13 65 C1 07 4F 20",
                    "0 3 36 20 0 0 4 0 4 12 | general 4 0 0 - 1 0 = 13 \
                     | general - 6 1 0 2 0 = 65 | special 16 1 0 8 0 0 5 1 = c1 07 4f 20 . \
                     = 13 65 c1 07 4f 20",
                ),
                ("00", "0 1 0 0 0 0 | special - - 1 0 = 00 . = 00"),
                (
                    "BF 02 07 08 40 FF",
                    "0 3 144 16 0 0 16 16 16 16 | general 16 0 1 16 0 1 1 0 = bf \
                     | special - - 2 2 = 02 07 08 | special 64 1 1 - 6 0 = 40 ff . \
                     = bf 02 07 08 40 ff",
                ),
            ],
        );
    }

    #[test]
    fn refused_configuration_is_walked_as_far_as_it_goes() {
        check(
            Service::Configuration,
            [
                ("", "20 ."),
                ("13 C1 07 4F", "24 | general 4 0 0 - 1 0 = 13 ! 24"),
                ("81 00 05 0F", "26 | special - 1 0 0 2 1 = 81 00 05 ! 26"),
                (
                    "40 FF 40 FF",
                    "27 | special 64 1 1 - 2 0 = 40 ff | special 64 1 1 - 4 0 = 40 ff .",
                ),
            ],
        );
        let modules = (1..=245).map(|next| format!(" | special - - {next} 0 = 00"));
        let too_long = format!("20{} .", modules.collect::<String>());
        assert_eq!(Service::Configuration.answer(&[0; 245]), too_long);
    }

    #[test]
    fn control_lines() {
        check(
            Service::SetSlaveAdr,
            [
                ("7D 12 34 01", "0 125 4660 1 4 0 = 7d 12 34 01"),
                ("00 00 01 00", "0 0 1 0 4 0 = 00 00 01 00"),
                ("", "20"),
                ("7D 12 34 01 00", "20"),
                ("7E 12 34 01", "21"),
                ("7D 12 34 02", "21"),
            ],
        );
        check(
            Service::GlobalControl,
            [
                ("3E FF", "0 62 255 2 0 = 3e ff"),
                ("00 01", "0 0 1 2 0 = 00 01"),
                ("3E", "20"),
                ("3E FF 00", "20"),
                ("40 FF", "21"),
            ],
        );
    }

    #[test]
    fn book_lines() {
        check(
            Service::Book,
            [
                ("01 07 03 41 42 43", "0 1 | 7 3 3 ! 12 = 01 07 03 41 42 43"),
                (
                    "02 03 02 0F 01 41 42 43",
                    "0 2 | 3 5 2 | 15 7 1 ! 12 = 02 03 02 0f 01 41 42 43",
                ),
                ("", "1 ! 1"),
                ("00", "32 ! 32"),
                ("11", "32 ! 32"),
                ("01 10", "1 ! 1"),
                ("01 10 01 41", "32 ! 32"),
                ("01 07 00", "32 ! 32"),
                ("01 07 C9", "32 ! 32"),
                ("02 03 01 03 01 41 42", "32 ! 32"),
                ("01 07 03 41 42", "1 ! 1"),
                ("01 07 03 41 42 43 44", "4 ! 4"),
            ],
        );
        let table: String = (0..16).map(|slot| format!(" {slot:02x} c8")).collect();
        let bytes = format!("10{table}{}", " ff".repeat(3200));
        let templates = (0..16).map(|slot| format!(" | {slot} {} 200", 33 + 200 * slot));
        let expected = format!("0 16{} ! 12 = {bytes}", templates.collect::<String>());
        check(Service::Book, [(&bytes, &expected)]);
    }

    #[test]
    fn what_a_writer_refuses_is_its_number() {
        let refused = written(|out| diagnosis::write_device(&[], out));
        assert_eq!(again(refused), " = 23");
    }
}

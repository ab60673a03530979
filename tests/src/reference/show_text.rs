//! What the show program prints for the bytes of a telegram: its line and, where
//! it carries a service, more lines, one fact each.

use super::acyclic::{Alarm, Answer, Call, CallError, Failed, DECODE_DP, DECODE_FMS};
use super::configuration::{self, Side};
use super::diagnosis::{self, Block, Channel, Header};
use super::parameters::{Mode, Parameters};
use super::refusal;
use super::service::{self, Content, ServiceTelegram, Way};
use super::service_text::Walk;
use super::telegram;
use super::text::{self, to_hex};

/// Bits of a byte, and what each says when it is set.
type Flags = [(u8, &'static str)];

const STATUS1_FLAGS: &Flags = &[
    (1, "Station_Not_Ready"),
    (2, "Cfg_Fault"),
    (3, "Ext_Diag"),
    (4, "Not_Supported"),
    (6, "Prm_Fault"),
];
const STATUS2_FLAGS: &Flags = &[
    (0, "Prm_Req"),
    (1, "Stat_Diag"),
    (3, "WD_On"),
    (4, "Freeze_Mode"),
    (5, "Sync_Mode"),
];
const STATUS3_FLAGS: &Flags = &[(7, "Ext_Diag_Overflow")];
const PARAMETER_FLAGS: &Flags = &[
    (3, "WD_On"),
    (4, "Freeze_Req"),
    (5, "Sync_Req"),
    (6, "Unlock_Req"),
    (7, "Lock_Req"),
];
const COMMAND_FLAGS: &Flags = &[
    (1, "Clear_Data"),
    (2, "Unfreeze"),
    (3, "Freeze"),
    (4, "Unsync"),
    (5, "Sync"),
];

/// The master of a diagnosis that has none.
const NO_MASTER: u8 = 255;

/// The codes of a channel block from 1 on.
const DIRECTIONS: [&str; 3] = ["input", "output", "input and output"];
const CHANNEL_TYPES: [&str; 6] = ["bit", "2 bits", "4 bits", "byte", "word", "2 words"];
const CHANNEL_ERRORS: [&str; 9] = [
    "short circuit",
    "undervoltage",
    "overvoltage",
    "overload",
    "overtemperature",
    "wire break",
    "upper limit exceeded",
    "lower limit exceeded",
    "error",
];

/// The codes of each class of DPV1 errors that are not the user's own.
const APPLICATION_ERRORS: &[(u8, &str)] = &[
    (0, "read error"),
    (1, "write error"),
    (2, "module failure"),
    (8, "version conflict"),
    (9, "feature not supported"),
];
const ACCESS_ERRORS: &[(u8, &str)] = &[
    (0, "invalid index"),
    (1, "write length error"),
    (2, "invalid slot"),
    (3, "type conflict"),
    (4, "invalid area"),
    (5, "state conflict"),
    (6, "access denied"),
    (7, "invalid range"),
    (8, "invalid parameter"),
    (9, "invalid type"),
];
const RESOURCE_ERRORS: &[(u8, &str)] = &[
    (0, "read constraint conflict"),
    (1, "write constraint conflict"),
    (2, "resource busy"),
    (3, "resource unavailable"),
    (8, "version conflict"),
];
const USER_SPECIFIC: &str = "user specific";

/// All lines, each ended by a newline.
pub fn lines(bytes: &[u8]) -> String {
    let mut lines = vec![text::line(bytes)];
    lines.extend(service_lines(bytes));
    lines.join("\n") + "\n"
}

fn service_lines(bytes: &[u8]) -> Vec<String> {
    // What is no telegram has said so in the first line.
    if telegram::read(bytes).is_err() {
        return Vec::new();
    }
    match service::read(bytes, Mode::Dpv1) {
        Ok(telegram) => {
            let (service, way) = (telegram.content.service(), telegram.way());
            let mut lines = vec![format!("service {} {}", service.name(), way.name())];
            lines.extend(content_lines(&telegram));
            lines
        }
        Err(refusal::SERVICE) => Vec::new(),
        Err(number) => vec![format!("service refused {number}")],
    }
}

fn content_lines(telegram: &ServiceTelegram<'_>) -> Vec<String> {
    let part = telegram.part;
    match (telegram.content, telegram.way()) {
        (Content::DataExchange | Content::ExtUserPrm, _)
        | (Content::RdInp | Content::RdOutp, Way::Answer) => {
            vec![format!("data length {}", part.len())]
        }
        (Content::RdInp | Content::RdOutp | Content::GetCfg, Way::Call)
        | (Content::SlaveDiagCall, _) => Vec::new(),
        (Content::GetCfg, Way::Answer) | (Content::ChkCfg, _) => configuration_lines(part),
        (Content::SlaveDiag(header), _) => diagnosis_lines(header, part),
        (Content::SetPrm(fields), _) => parameters_lines(&fields.with_user(part)),
        (
            Content::SetSlaveAdr {
                address,
                ident,
                locked,
            },
            _,
        ) => set_slave_adr_lines(address, ident, locked),
        (Content::GlobalControl { command, groups }, _) => {
            let mut lines = flag_lines(command, COMMAND_FLAGS);
            lines.push(groups_line(groups));
            lines
        }
        (Content::Dpv1Call(call), _) => call_lines(call, part),
        (Content::Dpv1Answer(answer), _) => answer_lines(answer, part),
    }
}

/// A line for each bit that is set.
fn flag_lines(byte: u8, flags: &Flags) -> Vec<String> {
    let set = flags.iter().filter(|(bit, _)| byte >> bit & 1 == 1);
    set.map(|(_, name)| format!("flag {name}")).collect()
}

fn ident_line(ident: u16) -> String {
    format!("ident {ident:04X}")
}

/// The groups whose bits are set; bit 0 is group 1.
fn groups_line(groups: u8) -> String {
    let set = (0..8).filter(|bit| groups >> bit & 1 == 1);
    let numbers: String = set.map(|bit| format!(" {}", bit + 1)).collect();
    if numbers.is_empty() {
        return String::from("no group");
    }
    format!("groups{numbers}")
}

/// The bytes behind what they are, where there are any.
fn bytes_line(name: &str, bytes: &[u8]) -> Option<String> {
    (!bytes.is_empty()).then(|| format!("{name} {}", to_hex(bytes)))
}

fn diagnosis_lines(header: Header, blocks: &[u8]) -> Vec<String> {
    let mut lines = flag_lines(header.status1, STATUS1_FLAGS);
    lines.extend(flag_lines(header.status2, STATUS2_FLAGS));
    lines.extend(flag_lines(header.status3, STATUS3_FLAGS));
    lines.push(match header.master {
        NO_MASTER => String::from("master none"),
        address => format!("master {address}"),
    });
    lines.push(ident_line(header.ident));
    let data = [&header.to_bytes(), blocks].concat();
    let step = |position| diagnosis::walk(&data, position);
    let walk = Walk::from(diagnosis::HEADER_LENGTH, step);
    lines.extend(walk.items.iter().map(|(block, _)| block_line(block)));
    lines
}

fn block_line(block: &Block<'_>) -> String {
    match *block {
        Block::Device(data) => format!("device block {}", to_hex(data)),
        Block::Module(map) => match map.lowest() {
            Some(lowest) => {
                let reporting = map.reporting();
                format!("module block, {reporting} report, lowest {lowest}")
            }
            None => String::from("module block, none reports"),
        },
        Block::Channel(Channel {
            module,
            direction,
            channel,
            kind,
            error,
        }) => {
            let direction = DIRECTIONS[usize::from(direction) - 1];
            let kind = CHANNEL_TYPES[usize::from(kind) - 1];
            let error = match CHANNEL_ERRORS.get(usize::from(error) - 1) {
                Some(name) => String::from(*name),
                None => format!("vendor error {error}"),
            };
            format!(
                "channel block, module {module}, {direction} channel {channel}, {kind}, {error}"
            )
        }
    }
}

fn parameters_lines(parameters: &Parameters<'_>) -> Vec<String> {
    let mut lines = flag_lines(parameters.flags, PARAMETER_FLAGS);
    lines.push(format!("watchdog {} ms", parameters.watchdog().0));
    lines.push(format!("response {} bit times", parameters.response.0));
    lines.push(ident_line(parameters.ident));
    lines.push(groups_line(parameters.groups));
    let status = parameters.status.as_slice().as_flattened();
    lines.extend(bytes_line("dpv1 status", status));
    lines.extend(bytes_line("user data", parameters.user));
    lines
}

fn configuration_lines(modules: &[u8]) -> Vec<String> {
    let walk = Walk::from(0, |position| configuration::walk(modules, position));
    let mut lines = Vec::new();
    let (mut inputs, mut outputs) = (0, 0);
    for (number, (module, _)) in (1..).zip(&walk.items) {
        let input = module.input.map_or(0, Side::length);
        let output = module.output.map_or(0, Side::length);
        lines.push(format!(
            "module {number}, {input} in at {inputs}, {output} out at {outputs}"
        ));
        inputs += input;
        outputs += output;
    }
    let count = lines.len();
    // The sums are known only now.
    lines.insert(0, format!("{count} modules, {inputs} in, {outputs} out"));
    lines
}

fn set_slave_adr_lines(address: u8, ident: u16, locked: u8) -> Vec<String> {
    let changes = match locked {
        0 => "further changes allowed",
        _ => "further changes not allowed",
    };
    vec![
        format!("new address {address}"),
        ident_line(ident),
        String::from(changes),
    ]
}

fn call_lines(call: Call, data: &[u8]) -> Vec<String> {
    match call {
        Call::Poll => vec![String::from("poll")],
        Call::Read {
            slot,
            index,
            length,
        } => index_lines("read", [slot, index], length.into(), data),
        Call::Write { slot, index } => index_lines("write", [slot, index], data.len(), data),
        Call::AlarmAck(alarm) => alarm_lines(alarm),
        Call::Idle => vec![function_line("idle")],
        Call::Transport { slot, index } => transport_lines([slot, index], data),
    }
}

fn answer_lines(answer: Answer, data: &[u8]) -> Vec<String> {
    match answer {
        Answer::Read { slot, index } => index_lines("read", [slot, index], data.len(), data),
        Answer::Write {
            slot,
            index,
            length,
        } => index_lines("write", [slot, index], length.into(), data),
        Answer::AlarmAck(alarm) => alarm_lines(alarm),
        Answer::Idle => vec![function_line("idle")],
        Answer::Transport { slot, index } => transport_lines([slot, index], data),
        Answer::Negative { failed, error } => negative_lines(failed, error),
    }
}

fn function_line(function: &str) -> String {
    format!("function {function}")
}

/// What is at an index of a slot: how much of it, and the data where they follow.
fn index_lines(function: &str, [slot, index]: [u8; 2], length: usize, data: &[u8]) -> Vec<String> {
    let mut lines = vec![
        function_line(function),
        format!("slot {slot}"),
        format!("index {index}"),
        format!("length {length}"),
    ];
    lines.extend(bytes_line("data", data));
    lines
}

fn transport_lines(place: [u8; 2], data: &[u8]) -> Vec<String> {
    index_lines("data transport", place, data.len(), data)
}

fn alarm_lines(alarm: Alarm) -> Vec<String> {
    vec![
        function_line("alarm acknowledgement"),
        format!("slot {}", alarm.slot),
        format!("alarm type {}", alarm.kind),
        format!("specifier {}", alarm.specifier),
    ]
}

fn negative_lines(failed: Failed, error: CallError) -> Vec<String> {
    let function = match failed {
        Failed::Read => "read",
        Failed::Write => "write",
        Failed::AlarmAck => "alarm acknowledgement",
        Failed::Transport => "data transport",
    };
    let decode = match error.decode {
        DECODE_DP => "PROFIBUS DP",
        DECODE_FMS => "PROFIBUS-FMS",
        _ => "HART",
    };
    let mut lines = vec![
        format!("negative {function}"),
        format!("decode {} {decode}", error.decode),
    ];
    if error.decode == DECODE_DP {
        lines.extend(class_lines(error));
    } else {
        lines.push(format!("first code {}", error.code1));
    }
    lines.push(format!("second code {}", error.code2));
    lines
}

/// The class and the code of code 1 under decode 128.
fn class_lines(error: CallError) -> [String; 2] {
    let (class, code) = (error.class(), error.code());
    let (name, codes) = match class {
        10 => ("application error", APPLICATION_ERRORS),
        11 => ("access error", ACCESS_ERRORS),
        12 => ("resource error", RESOURCE_ERRORS),
        _ => (USER_SPECIFIC, &[][..]),
    };
    let meaning = codes.iter().find(|(number, _)| *number == code);
    let meaning = meaning.map_or(USER_SPECIFIC, |(_, meaning)| meaning);
    [
        format!("class {class} {name}"),
        format!("code {code} {meaning}"),
    ]
}

#[cfg(test)]
mod tests {
    use super::*;
    use crate::samples::service_telegrams::with_saps;
    use crate::samples::{self, diagnosis as blocks, sd2_around, shown};
    use std::collections::BTreeSet;

    /// The lines behind the first, which is the telegram's own.
    fn expect(bytes: &[u8], expected: &[&str]) {
        let lines = lines(bytes);
        let mut found = lines.split_inclusive('\n');
        assert_eq!(found.next(), Some(&*(text::line(bytes) + "\n")));
        let found: Vec<&str> = found.map(|line| line.trim_end_matches('\n')).collect();
        assert_eq!(found, expected, "{bytes:02X?}");
    }

    fn call(slave: u8, data: &[u8]) -> Vec<u8> {
        with_saps(0x5D, [slave, 62], data)
    }

    fn answer(slave: u8, data: &[u8]) -> Vec<u8> {
        with_saps(0x08, [62, slave], data)
    }

    fn expect_dpv1(fc: u8, data: &[u8], expected: &[&str]) {
        expect(&with_saps(fc, [51, 51], data), expected);
    }

    #[test]
    fn first_line_stands_alone_without_a_service() {
        for (bytes, expected) in [
            (&[0xE5][..], "SC\n"),
            (&[0xDC, 2, 2], "token to 2 from 2\n"),
            (&[0x10, 7, 2, 0x49, 0x52, 0x16], "SD1 to 7 from 2 fc 49\n"),
            (&[0x10, 7, 2, 0x49, 0x53, 0x16], "refused 6\n"),
            (&[], "refused 1\n"),
        ] {
            assert_eq!(lines(bytes), expected);
        }
        for (_, bytes) in samples::worked_rows() {
            assert_eq!(lines(bytes), text::line(bytes) + "\n");
        }
        // The pair turned round, and a pair of no service.
        expect(&with_saps(0x5D, [62, 60], &[]), &[]);
        let bytes = with_saps(0x5D, [60, 51], &[1, 2]);
        let line = "SD2 to 7 from 2 fc 5D dsap 60 ssap 51 data 01 02\n";
        assert_eq!(lines(&bytes), line);
    }

    #[test]
    fn refused_data_have_no_third_line() {
        expect(&answer(60, &[8, 4, 0, 0, 0, 0]), &["service refused 22"]);
        expect(&call(60, &[0]), &["service refused 20"]);
        expect(&call(62, &[0x0F]), &["service refused 26"]);
        expect(
            &sd2_around(&[&[7, 2, 0x5D][..], &[0; 245]].concat()),
            &["service refused 20"],
        );
        expect_dpv1(0x08, &[0xDF, 0x80, 0x9F, 0], &["service refused 28"]);
        // Right in DPV0.
        expect(&call(61, &[0, 2, 3, 11, 0, 1, 0]), &["service refused 20"]);
    }

    #[test]
    fn plain_bytes_have_their_length() {
        let bytes = sd2_around(&[7, 2, 0x5D, 1, 2, 3, 4]);
        let expected = "SD2 to 7 from 2 fc 5D data 01 02 03 04\n\
                        service Data_Exchange call\n\
                        data length 4\n";
        assert_eq!(lines(&bytes), expected);
        expect(
            &sd2_around(&[2, 7, 0x08, 1]),
            &["service Data_Exchange answer", "data length 1"],
        );
        // An SD1, which has none.
        expect(
            &[0x10, 7, 2, 0x5D, 0x66, 0x16],
            &["service Data_Exchange call", "data length 0"],
        );
        expect(
            &call(53, &[9; 244]),
            &["service Ext_User_Prm call", "data length 244"],
        );
        expect(
            &answer(56, &[1, 2]),
            &["service Rd_Inp answer", "data length 2"],
        );
        expect(
            &answer(57, &[]),
            &["service Rd_Outp answer", "data length 0"],
        );
    }

    #[test]
    fn empty_calls_have_no_more_to_say() {
        for (slave, line) in [
            (56, "service Rd_Inp call"),
            (57, "service Rd_Outp call"),
            (59, "service Get_Cfg call"),
            (60, "service Slave_Diag call"),
        ] {
            expect(&call(slave, &[]), &[line]);
        }
    }

    #[test]
    fn worked_diagnosis() {
        let bytes = answer(60, &blocks::WORKED_ROW);
        let expected = "SD2 to 7 from 2 fc 08 dsap 62 ssap 60 data 08 0C 00 02 12 34 82 43 26\n\
                        service Slave_Diag answer\n\
                        flag Ext_Diag\n\
                        flag WD_On\n\
                        master 2\n\
                        ident 1234\n\
                        channel block, module 2, input channel 3, bit, wire break\n";
        assert_eq!(lines(&bytes), expected);
    }

    #[test]
    fn flags_of_a_diagnosis_stand_in_their_order() {
        expect(
            &answer(60, &[0x56, 0x3F, 0x80, 255, 0, 0x0A]),
            &[
                "service Slave_Diag answer",
                "flag Station_Not_Ready",
                "flag Cfg_Fault",
                "flag Not_Supported",
                "flag Prm_Fault",
                "flag Prm_Req",
                "flag Stat_Diag",
                "flag WD_On",
                "flag Freeze_Mode",
                "flag Sync_Mode",
                "flag Ext_Diag_Overflow",
                "master none",
                "ident 000A",
            ],
        );
        expect(
            &answer(60, &[0, 4, 0, 0, 0xAB, 0xCD]),
            &["service Slave_Diag answer", "master 0", "ident ABCD"],
        );
    }

    #[test]
    fn blocks_are_a_line_each() {
        #[rustfmt::skip]
        let data = [
            0x08, 0x04, 0x00, 2, 0x12, 0x34,
            0x03, 0x01, 0x02,
            0x43, 0x84, 0x01,
            0x42, 0x00,
            0x43, 0x00, 0x80,
            0xBF, 0xBF, 0x50,
            0x80, 0xC0, 0xDF,
        ];
        expect(
            &answer(60, &data),
            &[
                "service Slave_Diag answer",
                "flag Ext_Diag",
                "master 2",
                "ident 1234",
                "device block 01 02",
                "module block, 3 report, lowest 2",
                "module block, none reports",
                "module block, 1 report, lowest 15",
                "channel block, module 63, output channel 63, 2 bits, vendor error 16",
                "channel block, module 0, input and output channel 0, 2 words, vendor error 31",
            ],
        );
    }

    #[test]
    fn parameters_are_read_as_dpv1() {
        expect(
            &call(61, &[0, 20, 5, 11, 0x12, 0x34, 0x05, 0, 0, 0, 1, 2]),
            &[
                "service Set_Prm call",
                "watchdog 1000 ms",
                "response 11 bit times",
                "ident 1234",
                "groups 1 3",
                "dpv1 status 00 00 00",
                "user data 01 02",
            ],
        );
        expect(
            &call(61, &[0xF8, 20, 5, 255, 0, 1, 0, 0xE4, 0xFD, 0x9F]),
            &[
                "service Set_Prm call",
                "flag WD_On",
                "flag Freeze_Req",
                "flag Sync_Req",
                "flag Unlock_Req",
                "flag Lock_Req",
                "watchdog 100 ms",
                "response 255 bit times",
                "ident 0001",
                "no group",
                "dpv1 status E4 FD 9F",
            ],
        );
    }

    #[test]
    fn worked_configuration() {
        let modules = [
            "3 modules, 36 in, 20 out",
            "module 1, 4 in at 0, 0 out at 0",
            "module 2, 0 in at 4, 12 out at 0",
            "module 3, 32 in at 4, 8 out at 12",
        ];
        let row = samples::configuration::WORKED_ROW;
        let expected = [&["service Get_Cfg answer"], &modules[..]].concat();
        expect(&answer(59, &row), &expected);
        let expected = [&["service Chk_Cfg call"], &modules[..]].concat();
        expect(&call(62, &row), &expected);
        // A module without sides, alone.
        expect(
            &call(62, &[0]),
            &[
                "service Chk_Cfg call",
                "1 modules, 0 in, 0 out",
                "module 1, 0 in at 0, 0 out at 0",
            ],
        );
    }

    #[test]
    fn addresses_and_commands() {
        for (lock, changes) in [
            (0, "further changes allowed"),
            (1, "further changes not allowed"),
        ] {
            let service = "service Set_Slave_Adr call";
            expect(
                &call(55, &[5, 0x12, 0x34, lock]),
                &[service, "new address 5", "ident 1234", changes],
            );
        }
        let service = "service Global_Control call";
        expect(
            &with_saps(0x44, [58, 62], &[0x3E, 0xFF]),
            &[
                service,
                "flag Clear_Data",
                "flag Unfreeze",
                "flag Freeze",
                "flag Unsync",
                "flag Sync",
                "groups 1 2 3 4 5 6 7 8",
            ],
        );
        expect(&with_saps(0x46, [58, 62], &[0, 0]), &[service, "no group"]);
    }

    #[test]
    fn dpv1_calls() {
        let service = "service DPV1 call";
        expect_dpv1(0x5C, &[], &[service, "poll"]);
        expect_dpv1(0x5C, &[0x48], &[service, "function idle"]);
        let at = ["slot 1", "index 7"];
        let read = [&[service, "function read"], &at[..], &["length 240"]].concat();
        expect_dpv1(0x5C, &[0x5E, 1, 7, 240], &read);
        let data = ["length 3", "data 41 42 43"];
        let write = [&[service, "function write"], &at[..], &data[..]].concat();
        expect_dpv1(0x5C, &[0x5F, 1, 7, 3, 0x41, 0x42, 0x43], &write);
        let transport = [service, "function data transport"];
        let empty = [&transport[..], &at, &["length 0"]].concat();
        expect_dpv1(0x5C, &[0x51, 1, 7, 0], &empty);
        expect_dpv1(
            0x7C,
            &[0x5C, 1, 2, 3],
            &[
                service,
                "function alarm acknowledgement",
                "slot 1",
                "alarm type 2",
                "specifier 3",
            ],
        );
    }

    #[test]
    fn dpv1_answers() {
        let service = "service DPV1 answer";
        expect_dpv1(0x08, &[0x48], &[service, "function idle"]);
        let at = ["slot 1", "index 7"];
        let data = ["length 2", "data AB CD"];
        let read = [&[service, "function read"], &at[..], &data[..]].concat();
        expect_dpv1(0x08, &[0x5E, 1, 7, 2, 0xAB, 0xCD], &read);
        let write = [&[service, "function write"], &at[..], &["length 240"]].concat();
        expect_dpv1(0x08, &[0x5F, 1, 7, 240], &write);
        let transport = [service, "function data transport"];
        let with_data = [&transport[..], &at, &data].concat();
        expect_dpv1(0x08, &[0x51, 1, 7, 2, 0xAB, 0xCD], &with_data);
        expect_dpv1(
            0x08,
            &[0x5C, 1, 1, 0],
            &[
                service,
                "function alarm acknowledgement",
                "slot 1",
                "alarm type 1",
                "specifier 0",
            ],
        );
    }

    #[test]
    fn negative_answers_have_class_and_code() {
        #[rustfmt::skip]
        let rows = [
            ([0xDF, 0x80, 0xB6, 0], "write", "11 access error", "6 access denied"),
            ([0xDE, 0x80, 0xB0, 0], "read", "11 access error", "0 invalid index"),
            ([0xDC, 0x80, 0xC9, 255], "alarm acknowledgement", "12 resource error", "9 user specific"),
            ([0xD1, 0x80, 0xA9, 1], "data transport", "10 application error", "9 feature not supported"),
            ([0xDF, 0x80, 0xD0, 2], "write", "13 user specific", "0 user specific"),
        ];
        for (data, function, class, code) in rows {
            let [_, _, _, second] = data;
            expect_dpv1(
                0x08,
                &data,
                &[
                    "service DPV1 answer",
                    &format!("negative {function}"),
                    "decode 128 PROFIBUS DP",
                    &format!("class {class}"),
                    &format!("code {code}"),
                    &format!("second code {second}"),
                ],
            );
        }
    }

    #[test]
    fn negative_answers_under_other_decodes() {
        for (decode, line) in [(254, "decode 254 PROFIBUS-FMS"), (255, "decode 255 HART")] {
            expect_dpv1(
                0x08,
                &[0xDE, decode, 0xB0, 0],
                &[
                    "service DPV1 answer",
                    "negative read",
                    line,
                    "first code 176",
                    "second code 0",
                ],
            );
        }
    }

    #[test]
    fn every_word_is_shown() {
        let text: String = shown::every_word()
            .iter()
            .map(|bytes| lines(bytes))
            .collect();
        let lines: BTreeSet<&str> = text.lines().collect();
        for (_, name) in [
            STATUS1_FLAGS,
            STATUS2_FLAGS,
            STATUS3_FLAGS,
            PARAMETER_FLAGS,
            COMMAND_FLAGS,
        ]
        .concat()
        {
            assert!(lines.contains(&*format!("flag {name}")), "{name}");
        }
        for (code, name) in [APPLICATION_ERRORS, ACCESS_ERRORS, RESOURCE_ERRORS].concat() {
            assert!(lines.contains(&*format!("code {code} {name}")), "{name}");
        }
        let names = [&DIRECTIONS[..], &CHANNEL_TYPES, &CHANNEL_ERRORS].concat();
        let channels = lines
            .iter()
            .filter(|line| line.starts_with("channel block, "));
        let channels: String = channels.map(|line| format!("{line}, ")).collect();
        for name in names {
            assert!(channels.contains(&format!(" {name}")), "{name}");
        }
    }
}

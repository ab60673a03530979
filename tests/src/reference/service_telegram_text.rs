//! Service telegrams as lines of the vectors: what reading answers, and what the
//! writer makes of it again.

use super::acyclic::{Alarm, Answer, Call};
use super::diagnosis::Header;
use super::fields::{SD1, SD2, SD3};
use super::parameters::Mode;
use super::service::{self, Content, ParameterFields, ServiceTelegram};
use super::service_text::again;
use super::telegram::Format;

/// The most bytes of a telegram.
const LONGEST_TELEGRAM: usize = 255;
/// FCS and ED, before which the part ends.
const TRAILER_LENGTH: usize = 2;

/// What stands after `=` in the line that announces service telegrams to read in
/// this mode.
pub fn letter(mode: Mode) -> &'static str {
    match mode {
        Mode::Dpv0 => "s",
        Mode::Dpv1 => "u",
    }
}

/// The mode that has this letter.
pub fn mode_of_letter(text: &str) -> Option<Mode> {
    let mut modes = [Mode::Dpv0, Mode::Dpv1].into_iter();
    modes.find(|mode| letter(*mode) == text)
}

/// What to call service telegrams that are read in this mode.
pub fn name(mode: Mode) -> &'static str {
    match mode {
        Mode::Dpv0 => "service telegram read as DPV0",
        Mode::Dpv1 => "service telegram read as DPV1",
    }
}

/// The line that answers these bytes: the refusal number, or 0 with the service,
/// the way, the kind, DA, SA, FC, the content's fields, and the start and length
/// of the part; then the bytes that writing makes again.
pub fn line(bytes: &[u8], mode: Mode) -> String {
    let telegram = match service::read(bytes, mode) {
        Ok(telegram) => telegram,
        Err(refusal) => return refusal.to_string(),
    };
    let again = again(written(&telegram));
    let ServiceTelegram {
        format,
        da,
        sa,
        fc,
        content,
        part,
    } = telegram;
    let name = content.service().name().to_lowercase();
    let way = telegram.way().name();
    let kind = match format {
        Format::Sd1 => SD1,
        Format::Sd2 => SD2,
        Format::Sd3 => SD3,
    };
    let fields = fields_text(&content);
    let start = bytes.len() - TRAILER_LENGTH - part.len();
    let length = part.len();
    format!("0 {name} {way} {kind} {da} {sa} {fc}{fields} {start} {length}{again}")
}

fn written(telegram: &ServiceTelegram<'_>) -> Result<Vec<u8>, u8> {
    let mut out = [0; LONGEST_TELEGRAM];
    let length = service::write(telegram, &mut out)?;
    Ok(out[..length].to_vec())
}

/// The fields, each after a space.
fn fields_text(content: &Content) -> String {
    match *content {
        Content::DataExchange
        | Content::ExtUserPrm
        | Content::RdInp
        | Content::RdOutp
        | Content::GetCfg
        | Content::SlaveDiagCall
        | Content::ChkCfg => String::new(),
        Content::Dpv1Call(call) => call_text(call),
        Content::Dpv1Answer(answer) => answer_text(answer),
        Content::SetSlaveAdr {
            address,
            ident,
            locked,
        } => format!(" {address} {ident} {locked}"),
        Content::GlobalControl { command, groups } => format!(" {command} {groups}"),
        Content::SlaveDiag(Header {
            status1,
            status2,
            status3,
            master,
            ident,
        }) => format!(" {status1} {status2} {status3} {master} {ident}"),
        Content::SetPrm(fields) => parameters_text(fields),
    }
}

fn call_text(call: Call) -> String {
    match call {
        Call::Poll => String::from(" poll"),
        Call::Read {
            slot,
            index,
            length,
        } => format!(" read {slot} {index} {length}"),
        Call::Write { slot, index } => format!(" write {slot} {index}"),
        Call::AlarmAck(alarm) => alarm_text(alarm),
        Call::Idle => String::from(" idle"),
        Call::Transport { slot, index } => format!(" transport {slot} {index}"),
    }
}

fn answer_text(answer: Answer) -> String {
    match answer {
        Answer::Read { slot, index } => format!(" read {slot} {index}"),
        Answer::Write {
            slot,
            index,
            length,
        } => format!(" write {slot} {index} {length}"),
        Answer::AlarmAck(alarm) => alarm_text(alarm),
        Answer::Idle => String::from(" idle"),
        Answer::Transport { slot, index } => format!(" transport {slot} {index}"),
        Answer::Negative { failed, error } => {
            let [number, decode] = [failed.number(), error.decode];
            let [code1, code2] = [error.code1, error.code2];
            format!(" negative {number} {decode} {code1} {code2}")
        }
    }
}

fn alarm_text(alarm: Alarm) -> String {
    let Alarm {
        slot,
        kind,
        specifier,
    } = alarm;
    format!(" alarm {slot} {kind} {specifier}")
}

fn parameters_text(fields: ParameterFields) -> String {
    let ParameterFields {
        flags,
        factor1,
        factor2,
        response,
        ident,
        groups,
        status,
    } = fields;
    let status = status.map_or_else(String::new, |[first, second, third]| {
        format!(" {first} {second} {third}")
    });
    let response = response.0;
    format!(" {flags} {factor1} {factor2} {response} {ident} {groups}{status}")
}

#[cfg(test)]
mod tests {
    use super::*;
    use crate::random::Random;
    use crate::reference::text::from_hex;
    use crate::samples::parameters::MODES;
    use crate::samples::service_telegrams as sample;

    /// Accepted telegrams, whose bytes writing makes again.
    fn check<const N: usize>(mode: Mode, rows: [(&str, &str); N]) {
        for (hex, expected) in rows {
            let bytes = from_hex(hex).expect("hex");
            let expected = format!("0 {expected} = {}", hex.to_lowercase());
            assert_eq!(line(&bytes, mode), expected, "{hex}");
        }
    }

    fn check_refused<const N: usize>(mode: Mode, rows: [(&str, &str); N]) {
        for (hex, number) in rows {
            let bytes = from_hex(hex).expect("hex");
            assert_eq!(line(&bytes, mode), number, "{hex}");
        }
    }

    #[test]
    fn data_exchange_lines() {
        check(
            Mode::Dpv0,
            [
                ("10 07 02 5D 66 16", "data_exchange call 2 7 2 93 4 0"),
                ("10 02 07 08 11 16", "data_exchange answer 2 2 7 8 4 0"),
                (
                    "68 05 05 68 07 02 7D AB CD FE 16",
                    "data_exchange call 3 7 2 125 7 2",
                ),
                (
                    "A2 02 07 1A 01 02 03 04 05 06 07 08 47 16",
                    "data_exchange answer 4 2 7 26 4 8",
                ),
            ],
        );
    }

    #[test]
    fn dpv1_call_lines() {
        check(
            Mode::Dpv0,
            [
                (
                    "68 05 05 68 87 82 5C 33 33 CB 16",
                    "dpv1 call 3 7 2 92 poll 9 0",
                ),
                (
                    "68 09 09 68 87 82 7C 33 33 5E 01 07 F0 41 16",
                    "dpv1 call 3 7 2 124 read 1 7 240 13 0",
                ),
                (
                    "A2 87 82 5C 33 33 5F 01 07 02 AB CD AC 16",
                    "dpv1 call 4 7 2 92 write 1 7 10 2",
                ),
                (
                    "68 09 09 68 87 82 7C 33 33 5C FF 02 03 4B 16",
                    "dpv1 call 3 7 2 124 alarm 255 2 3 13 0",
                ),
                (
                    "68 06 06 68 87 82 5C 33 33 48 13 16",
                    "dpv1 call 3 7 2 92 idle 10 0",
                ),
                (
                    "68 0A 0A 68 87 82 5C 33 33 51 00 FF 01 09 25 16",
                    "dpv1 call 3 7 2 92 transport 0 255 13 1",
                ),
            ],
        );
    }

    #[test]
    fn dpv1_answer_lines() {
        check(
            Mode::Dpv0,
            [
                (
                    "68 0B 0B 68 82 87 08 33 33 5E 01 07 02 AB CD 57 16",
                    "dpv1 answer 3 2 7 8 read 1 7 13 2",
                ),
                (
                    "68 09 09 68 82 87 08 33 33 5F 01 07 F0 CE 16",
                    "dpv1 answer 3 2 7 8 write 1 7 240 13 0",
                ),
                (
                    "68 09 09 68 82 87 08 33 33 5C 01 02 FF D5 16",
                    "dpv1 answer 3 2 7 8 alarm 1 2 255 13 0",
                ),
                (
                    "68 06 06 68 82 87 08 33 33 48 BF 16",
                    "dpv1 answer 3 2 7 8 idle 10 0",
                ),
                (
                    "68 09 09 68 82 87 08 33 33 51 00 FF 00 C7 16",
                    "dpv1 answer 3 2 7 8 transport 0 255 13 0",
                ),
                (
                    "68 09 09 68 82 87 08 33 33 DF 80 B2 05 8D 16",
                    "dpv1 answer 3 2 7 8 negative 95 128 178 5 13 0",
                ),
            ],
        );
    }

    #[test]
    fn lines_of_plain_bytes() {
        check(
            Mode::Dpv0,
            [
                (
                    "68 06 06 68 87 82 5D 35 3E AB 84 16",
                    "ext_user_prm call 3 7 2 93 9 1",
                ),
                (
                    "68 05 05 68 87 82 5D 38 3E DC 16",
                    "rd_inp call 3 7 2 93 9 0",
                ),
                (
                    "68 07 07 68 82 87 08 3E 38 01 02 8A 16",
                    "rd_inp answer 3 2 7 8 9 2",
                ),
                (
                    "68 05 05 68 87 82 5D 39 3E DD 16",
                    "rd_outp call 3 7 2 93 9 0",
                ),
                (
                    "68 05 05 68 82 87 38 3E 39 B8 16",
                    "rd_outp answer 3 2 7 56 9 0",
                ),
            ],
        );
    }

    #[test]
    fn lines_of_configurations_and_the_call_for_a_diagnosis() {
        check(
            Mode::Dpv0,
            [
                (
                    "68 05 05 68 87 82 5D 3B 3E DF 16",
                    "get_cfg call 3 7 2 93 9 0",
                ),
                (
                    "68 0B 0B 68 82 87 08 3E 3B 13 65 C1 07 4F 20 39 16",
                    "get_cfg answer 3 2 7 8 9 6",
                ),
                (
                    "A2 82 87 08 3E 3B 13 65 C1 07 4F 20 39 16",
                    "get_cfg answer 4 2 7 8 6 6",
                ),
                (
                    "68 05 05 68 87 82 6D 3C 3E F0 16",
                    "slave_diag call 3 7 2 109 9 0",
                ),
                (
                    "68 0B 0B 68 87 82 7D 3E 3E 13 65 C1 07 4F 20 B1 16",
                    "chk_cfg call 3 7 2 125 9 6",
                ),
            ],
        );
    }

    #[test]
    fn lines_of_services_with_fields() {
        check(
            Mode::Dpv0,
            [
                (
                    "68 09 09 68 FE 80 5D 37 3E 7D 12 34 01 14 16",
                    "set_slave_adr call 3 126 0 93 125 4660 1 13 0",
                ),
                (
                    "68 07 07 68 FF 82 46 3A 3E 3E FF 7C 16",
                    "global_control call 3 127 2 70 62 255 11 0",
                ),
                (
                    "68 07 07 68 FF 82 44 3A 3E 00 01 3E 16",
                    "global_control call 3 127 2 68 0 1 11 0",
                ),
                (
                    "68 0E 0E 68 82 87 08 3E 3C 08 0C 00 02 12 34 82 43 26 D2 16",
                    "slave_diag answer 3 2 7 8 8 12 0 2 4660 15 3",
                ),
                (
                    "A2 82 87 08 3E 3C 00 04 80 FF AB CD 86 16",
                    "slave_diag answer 4 2 7 8 0 4 128 255 43981 12 0",
                ),
            ],
        );
        let set_prm = "68 11 11 68 87 82 5D 3D 3E B8 14 05 FF 12 34 81 E4 FD 9F AB CD 70 16";
        let as_dpv0 = "set_prm call 3 7 2 93 184 20 5 255 4660 129 16 5";
        let as_dpv1 = "set_prm call 3 7 2 93 184 20 5 255 4660 129 228 253 159 19 2";
        check(Mode::Dpv0, [(set_prm, as_dpv0)]);
        check(Mode::Dpv1, [(set_prm, as_dpv1)]);
        let short = "68 0C 0C 68 87 82 5D 3D 3E 00 02 03 0B 00 01 00 F2 16";
        check(
            Mode::Dpv0,
            [(short, "set_prm call 3 7 2 93 0 2 3 11 1 0 16 0")],
        );
        check_refused(Mode::Dpv1, [(short, "20")]);
    }

    #[test]
    fn refused_telegrams_are_their_number() {
        let rows = [
            ("", "1"),
            ("10 07 02 5D 67 16", "6"),
            // A SAP above 63.
            ("68 05 05 68 87 82 5D 40 3E E4 16", "9"),
            ("E5", "10"),
            ("DC 02 02", "10"),
            ("10 07 02 49 52 16", "10"),
            ("68 04 04 68 87 02 5D 3C 22 16", "10"),
            ("68 0B 0B 68 82 87 08 3C 3E 00 04 80 FF AB CD 86 16", "10"),
            ("68 06 06 68 82 87 08 3E 3E 13 A0 16", "10"),
            ("68 0B 0B 68 82 87 08 3E 3C 08 0C 00 02 12 34 E7 16", "22"),
        ];
        for mode in MODES {
            check_refused(mode, rows);
        }
    }

    #[test]
    fn lines_end_with_the_bytes_of_what_was_read() {
        let random = &mut Random::new(1);
        for mode in MODES {
            for _ in 0..2000 {
                let bytes = sample::any_valid(random, mode);
                let hex: String = bytes.iter().map(|byte| format!(" {byte:02x}")).collect();
                let line = line(&bytes, mode);
                assert!(line.ends_with(&format!(" ={hex}")), "{line}");
            }
        }
    }
}

//! Telegrams as lines of text: the first that the show program prints, and the
//! vectors, in which the data of services stands too.
//!
//! In a vectors text every line ends with a newline. A line that starts with
//! `#` is a comment. One that starts with `=` says by one letter what the lines
//! after it are: `t` for telegrams, which those before any such line are too,
//! `s` and `u` for telegrams to read as services in DPV0 and in DPV1, `l` for
//! whole downloads, and a service's own letter for its data. One that starts with
//! `>` says by a writer's letter that they are fields for that writer. Any other
//! line is the bytes of one telegram, of one service's data, of one download or of
//! one writing, two hex digits for each byte with single spaces between them, and
//! an empty line is no bytes.

use super::download_text;
use super::fields;
use super::parameters::Mode;
use super::service_telegram_text;
use super::service_text::Service;
use super::telegram::{read, Format, Telegram};
use super::writer_text::Writer;
use std::fmt::Write;

/// What stands after `=` in the line that announces telegrams.
pub const TELEGRAMS: &str = "t";

/// The first line that the show program prints for these bytes.
pub fn line(bytes: &[u8]) -> String {
    match read(bytes) {
        Err(refusal) => format!("refused {refusal}"),
        Ok(Telegram::ShortConfirmation) => String::from("SC"),
        Ok(Telegram::Token { da, sa }) => format!("token to {da} from {sa}"),
        Ok(Telegram::Frame {
            format,
            da,
            sa,
            fc,
            dsap,
            ssap,
            user,
        }) => {
            let name = match format {
                Format::Sd1 => "SD1",
                Format::Sd2 => "SD2",
                Format::Sd3 => "SD3",
            };
            let dsap = dsap.map_or_else(String::new, |sap| format!(" dsap {sap}"));
            let ssap = ssap.map_or_else(String::new, |sap| format!(" ssap {sap}"));
            let data = if user.is_empty() { "" } else { " data " };
            let user = to_hex(user);
            format!("{name} to {da} from {sa} fc {fc:02X}{dsap}{ssap}{data}{user}")
        }
    }
}

/// The line that answers these bytes in the vectors: the refusal number, or 0
/// with the kind, DA, SA, FC, DSAP, SSAP, and the start and length of the user
/// data.
pub fn numbers(bytes: &[u8]) -> String {
    match read(bytes) {
        Err(refusal) => refusal.to_string(),
        Ok(telegram) => {
            let fields = fields::of(&telegram).map(|field| field.to_string());
            format!("0 {}", fields.join(" "))
        }
    }
}

/// What the lines of a vectors text are.
#[derive(Clone, Copy)]
enum Kind {
    Telegrams,
    ServiceTelegrams(Mode),
    Downloads,
    DataOf(Service),
    FieldsFor(Writer),
}

impl Kind {
    /// What a line that starts with `=` or `>` announces, or nothing when it is
    /// malformed.
    fn announced_by(line: &str) -> Option<Self> {
        match line.split_at_checked(1)? {
            ("=", TELEGRAMS) => Some(Kind::Telegrams),
            ("=", download_text::LETTER) => Some(Kind::Downloads),
            ("=", letter) => match service_telegram_text::mode_of_letter(letter) {
                Some(mode) => Some(Kind::ServiceTelegrams(mode)),
                None => Service::of_letter(letter).map(Kind::DataOf),
            },
            (">", letter) => Writer::of_letter(letter).map(Kind::FieldsFor),
            _ => None,
        }
    }

    fn answer(self, bytes: &[u8]) -> String {
        match self {
            Kind::Telegrams => numbers(bytes),
            Kind::ServiceTelegrams(mode) => service_telegram_text::line(bytes, mode),
            Kind::Downloads => download_text::line(bytes),
            Kind::DataOf(service) => service.answer(bytes),
            Kind::FieldsFor(writer) => writer.answer(bytes),
        }
    }
}

/// The answers to a vectors text, or the number of its first malformed line.
pub fn answers(vectors: &str) -> Result<String, usize> {
    let mut answers = String::new();
    let mut kind = Kind::Telegrams;
    for (number, line) in (1_usize..).zip(vectors.split_inclusive('\n')) {
        let line = line.strip_suffix('\n').ok_or(number)?;
        if line.starts_with('#') {
            continue;
        }
        if line.starts_with(['=', '>']) {
            kind = Kind::announced_by(line).ok_or(number)?;
            continue;
        }
        let bytes = from_hex(line).ok_or(number)?;
        answers += &kind.answer(&bytes);
        answers.push('\n');
    }
    Ok(answers)
}

/// Bytes as two capital hex digits each, with single spaces between them.
pub fn to_hex(bytes: &[u8]) -> String {
    let mut text = String::new();
    for (index, byte) in bytes.iter().enumerate() {
        let space = if index == 0 { "" } else { " " };
        write!(text, "{space}{byte:02X}").expect("a string takes any text");
    }
    text
}

/// The bytes of a hex line, or nothing when it is malformed.
pub fn from_hex(line: &str) -> Option<Vec<u8>> {
    if line.is_empty() {
        return Some(Vec::new());
    }
    line.split(' ').map(byte_from_hex).collect()
}

fn byte_from_hex(digits: &str) -> Option<u8> {
    // The standard library would also take a sign.
    if digits.len() != 2 || digits.starts_with('+') {
        return None;
    }
    u8::from_str_radix(digits, 16).ok()
}

#[cfg(test)]
mod tests {
    use super::*;
    use crate::samples::parameters::MODES;

    const SD2_BOTH_SAPS: &str = "68 08 08 68 87 82 5C 33 33 5F 01 07 32 16";

    fn bytes(hex: &str) -> Vec<u8> {
        from_hex(hex).expect("hex")
    }

    #[test]
    fn line_of_every_kind() {
        for (hex, expected) in [
            ("E5", "SC"),
            ("DC 02 02", "token to 2 from 2"),
            ("10 07 02 49 52 16", "SD1 to 7 from 2 fc 49"),
            ("10 07 02 49 53 16", "refused 6"),
            ("", "refused 1"),
            (
                SD2_BOTH_SAPS,
                "SD2 to 7 from 2 fc 5C dsap 51 ssap 51 data 5F 01 07",
            ),
            (
                "68 04 04 68 7F 00 08 0A 91 16",
                "SD2 to 127 from 0 fc 08 data 0A",
            ),
            (
                "68 04 04 68 80 01 08 3F C8 16",
                "SD2 to 0 from 1 fc 08 dsap 63",
            ),
            (
                "A2 07 82 5C 3E 01 02 03 04 05 06 07 3F 16",
                "SD3 to 7 from 2 fc 5C ssap 62 data 01 02 03 04 05 06 07",
            ),
        ] {
            assert_eq!(line(&bytes(hex)), expected, "{hex}");
        }
    }

    #[test]
    fn numbers_of_every_kind() {
        for (hex, expected) in [
            ("E5", "0 0 0 0 0 255 255 0 0"),
            ("DC 02 7E", "0 1 2 126 0 255 255 0 0"),
            ("10 07 02 49 52 16", "0 2 7 2 73 255 255 4 0"),
            ("10 07 02 49 53 16", "6"),
            (SD2_BOTH_SAPS, "0 3 7 2 92 51 51 9 3"),
            ("68 04 04 68 7F 00 08 0A 91 16", "0 3 127 0 8 255 255 7 1"),
            ("68 04 04 68 80 01 08 3F C8 16", "0 3 0 1 8 63 255 8 0"),
            (
                "A2 07 82 5C 3E 01 02 03 04 05 06 07 3F 16",
                "0 4 7 2 92 255 62 5 7",
            ),
        ] {
            assert_eq!(numbers(&bytes(hex)), expected, "{hex}");
        }
    }

    #[test]
    fn answers_skip_comments_and_take_the_empty_line() {
        let vectors = "# group\nE5\n\n# next\ndc 02 02\n";
        let expected = "0 0 0 0 0 255 255 0 0\n1\n0 1 2 2 0 255 255 0 0\n";
        assert_eq!(answers(vectors).as_deref(), Ok(expected));
        assert_eq!(answers("").as_deref(), Ok(""));
    }

    #[test]
    fn answers_are_of_what_was_announced_last() {
        let vectors = "E5\n=g\n# group\n3E FF\n\n=p\n=d\n\n=c\n00\n=t\nE5\n\n=t\nDC 02 02\n";
        let expected = [
            "0 0 0 0 0 255 255 0 0\n",
            "0 62 255 2 0 = 3e ff\n20\n",
            "20 ! 12\n",
            "0 1 0 0 0 0 | special - - 1 0 = 00 . = 00\n",
            "0 0 0 0 0 255 255 0 0\n1\n",
            "0 1 2 2 0 255 255 0 0\n",
        ];
        assert_eq!(answers(vectors), Ok(expected.concat()));
        for service in Service::ALL {
            let vectors = format!("={}\n02 0C\n", service.letter());
            let answer = service.answer(&[0x02, 0x0C]) + "\n";
            assert_eq!(answers(&vectors), Ok(answer));
        }
        for writer in Writer::ALL {
            let vectors = format!(">{}\n09 0C\n", writer.letter());
            let answer = writer.answer(&[0x09, 0x0C]) + "\n";
            assert_eq!(answers(&vectors), Ok(answer));
        }
        assert_eq!(answers("=d\n=t\n>d\n").as_deref(), Ok(""));
    }

    #[test]
    fn downloads_have_a_letter_of_their_own() {
        let letter = download_text::LETTER;
        let vectors = format!("={letter}\n07 02 01 02 08 00 00 00 01 07 01 41\n\n=t\nE5\n");
        let expected = "0 2 0 0 0 1 0\nmalformed\n0 0 0 0 0 255 255 0 0\n";
        assert_eq!(answers(&vectors).as_deref(), Ok(expected));
        assert_eq!(Service::of_letter(letter), None);
        assert_eq!(service_telegram_text::mode_of_letter(letter), None);
        assert_eq!(answers(&format!(">{letter}\n")), Err(1));
    }

    #[test]
    fn service_telegrams_are_read_in_their_mode() {
        // Parameters too short for DPV1, behind a telegram that carries nothing.
        let set_prm = "68 0C 0C 68 87 82 5D 3D 3E 00 02 03 0B 00 01 00 F2 16";
        let vectors = format!("=s\nE5\n{set_prm}\n=u\n# group\n{set_prm}\n\n=t\n{set_prm}\n");
        let again = set_prm.to_lowercase();
        let expected = [
            &format!("10\n0 set_prm call 3 7 2 93 0 2 3 11 1 0 16 0 = {again}\n"),
            "20\n1\n",
            "0 3 7 2 93 61 62 9 7\n",
        ];
        assert_eq!(answers(&vectors), Ok(expected.concat()));
        for mode in MODES {
            let letter = service_telegram_text::letter(mode);
            // No other kind of line has the letter.
            assert_eq!(Service::of_letter(letter), None);
            assert_ne!(letter, TELEGRAMS);
            for malformed in [format!(">{letter}"), format!("={letter}{letter}")] {
                assert_eq!(answers(&format!("{malformed}\n")), Err(1), "{malformed}");
            }
        }
    }

    #[test]
    fn writers_and_services_are_told_apart() {
        let vectors = "=g\n3E FF\n>g\n# group\n3E FF\n02 3E FF\n\n>e\n02 FF\n=g\n3E FF\n=t\nE5\n";
        let expected = [
            "0 62 255 2 0 = 3e ff\n",
            "malformed\n0 = 3e ff\nmalformed\n",
            "0 = 02 ff\n",
            "0 62 255 2 0 = 3e ff\n",
            "0 0 0 0 0 255 255 0 0\n",
        ];
        assert_eq!(answers(vectors), Ok(expected.concat()));
    }

    #[test]
    fn malformed_vectors_name_their_line() {
        for malformed in [
            "E", "E5 ", " E5", "E5  E5", "E5\tE5", "+5", "G5", "E5E5", "E5\r", "=", "=z", "=D",
            "=dd", "=d ", "=d\r", " =d", "= d", "==d", "=d E5", "E5 =d", "=\u{e9}",
        ] {
            assert_eq!(
                answers(&format!("E5\n{malformed}\n")),
                Err(2),
                "{malformed:?}"
            );
        }
        assert_eq!(answers("E5\nE5"), Err(2), "the last newline is missing");
        assert_eq!(answers("E5\n=d"), Err(2), "the last newline is missing");
    }

    #[test]
    fn malformed_announcements_of_writers_name_their_line() {
        for malformed in [
            ">", ">t", ">D", ">dd", ">d ", ">d\r", " >d", "> d", ">>d", "=>d", ">=d", ">d 00",
            "00 >d", ">\u{e9}", "=e",
        ] {
            let vectors = format!(">d\n{malformed}\n");
            assert_eq!(answers(&vectors), Err(2), "{malformed:?}");
        }
        assert_eq!(answers("E5\n>d"), Err(2), "the last newline is missing");
    }

    #[test]
    fn hex_of_every_byte_comes_back() {
        let all: Vec<u8> = (0..=255).collect();
        let text = to_hex(&all);
        assert!(text.starts_with("00 01 ") && text.ends_with(" FE FF"));
        assert_eq!(from_hex(&text), Some(all.clone()));
        assert_eq!(from_hex(&text.to_lowercase()), Some(all));
        assert_eq!(to_hex(&[]), "");
    }
}

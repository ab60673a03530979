//! Whole downloads as lines of the vectors.
//!
//! The bytes of such a line are the printer set, the controller set, R and P; the
//! printer's own address; the flag of boarding; how many entries the line has and
//! the entries, how many "not yet" numbers there are and the numbers, one byte
//! each; and the book. The printer is a fresh one without templates. The answer is
//! the refusal number, or 0 with the ending, the number of sendings, the printer's
//! count of writes, and each slot that has a template with its length and bytes.
//! Bytes that do not make a download are answered `malformed`.

use super::controller::Settings;
use super::download::{self, Outcome, Plan, ANY_DIAGNOSIS};
use super::printer::{Printer, Slots};
use super::service_text::hex_text;
use super::writer_text::{flag, split_counted, MALFORMED};

/// What stands after `=` in the line that announces downloads.
pub const LETTER: &str = "l";

/// What to call them.
pub const NAME: &str = "whole download";

/// The line that answers these bytes in the vectors.
pub fn line(bytes: &[u8]) -> String {
    answer(bytes).unwrap_or_else(|| String::from(MALFORMED))
}

/// The answer, or nothing when the bytes do not make a download.
fn answer(bytes: &[u8]) -> Option<String> {
    let (fields, rest) = bytes.split_first_chunk()?;
    let [printer, controller, repeats, polls, address, boarding] = *fields;
    let (line, rest) = split_counted(rest)?;
    let (not_yet, book) = split_counted(rest)?;
    let plan = Plan {
        settings: Settings {
            repeats,
            polls,
            printer,
            controller,
        },
        book,
        line,
        not_yet,
        diagnosis: &ANY_DIAGNOSIS,
    };
    let printer = Printer::fresh(address, flag(boarding)?);
    Some(match download::run_to_empty(&plan, printer, |_| {}) {
        Ok((outcome, slots)) => ended_text(&outcome, &slots),
        Err(refusal) => refusal.to_string(),
    })
}

fn ended_text(outcome: &Outcome, slots: &Slots) -> String {
    let ending = outcome.ending.fields().map(|field| field.to_string());
    let (ending, sendings, writes) = (ending.join(" "), outcome.sendings, outcome.printer.writes);
    let templates = slots.templates().map(|(slot, body)| {
        let (length, body) = (body.len(), hex_text(body));
        format!(" | {slot} {length}{body}")
    });
    let templates: String = templates.collect();
    format!("0 {ending} {sendings} {writes}{templates}")
}

#[cfg(test)]
mod tests {
    use super::*;
    use crate::reference::text::from_hex;

    fn check<const N: usize>(rows: [(&str, &str); N]) {
        for (hex, expected) in rows {
            let bytes = from_hex(hex).expect("hex");
            assert_eq!(line(&bytes), expected, "{hex}");
        }
    }

    #[test]
    fn downloads_that_end() {
        check([
            (
                "07 02 01 02 07 00 06 00 01 00 00 02 00 01 01 01 07 03 41 42 43",
                "0 1 0 0 0 6 1 | 7 3 41 42 43",
            ),
            (
                "07 02 01 02 07 01 06 00 01 00 00 02 00 01 01 01 07 03 41 42 43",
                "0 5 1 182 0 6 1",
            ),
            // Another printer than the one that is set.
            ("07 02 01 02 08 00 00 00 01 07 03 41 42 43", "0 2 0 0 0 1 0"),
            // The write is performed, and its replies are lost.
            (
                "07 02 01 02 07 00 03 00 02 02 00 01 0F 01 FF",
                "0 3 1 0 0 3 1 | 15 1 ff",
            ),
            (
                "00 7E 00 01 00 00 00 02 00 01 02 00 02 09 01 0A 0B 0C",
                "0 4 2 0 0 5 2 | 0 2 0a 0b | 9 1 0c",
            ),
        ]);
        let body = " 5a".repeat(200);
        let hex = format!("07 02 00 01 07 00 00 00 01 0C C8{body}");
        check([(&hex, &format!("0 1 0 0 0 3 1 | 12 200{body}"))]);
    }

    #[test]
    fn downloads_that_are_refused() {
        check([
            ("07 02 08 02 07 00 00 00 01 07 03 41 42 43", "12"),
            ("07 02 01 02 07 00 00 00", "1"),
            ("07 02 01 02 07 00 00 00 11", "32"),
            ("07 02 01 02 07 00 00 00 01 07 01 41 42", "4"),
            ("07 02 01 02 07 00 01 03 00 01 07 01 41", "12"),
            ("07 02 01 02 7F 00 00 00 01 07 01 41", "12"),
        ]);
    }

    #[test]
    fn bytes_that_make_no_download() {
        check(
            [
                "",
                "07 02 01 02 07",
                "07 02 01 02 07 00",
                "07 02 01 02 07 00 00",
                "07 02 01 02 07 00 02 00",
                "07 02 01 02 07 00 02 00 00",
                "07 02 01 02 07 00 02 00 00 02 01",
                "07 02 01 02 07 02 00 00 01 07 01 41",
                // The flag of boarding is looked at before what would be refused.
                "07 07 01 02 07 FF 00 00",
            ]
            .map(|hex| (hex, MALFORMED)),
        );
    }
}

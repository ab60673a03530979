//! What the simulate program prints for its input (`docs/SIMULATE.md`): a line
//! for each sending of a download, one for its ending and one for each new slot,
//! or the refusal.

use super::acyclic::{Answer, Failed};
use super::controller::{Ending, Heard, Settings};
use super::download::{self, Outcome, Plan, Sending, ANY_DIAGNOSIS, REPLY_LOST, REQUEST_LOST};
use super::printer::{Printer, Slots};
use super::refusal;
use super::service::Content;
use super::telegram::{self, Telegram};

/// The most bytes that are read.
const MOST_READ: usize = 8192;

/// What the program is given.
struct Input<'a> {
    settings: Settings,
    boarding: bool,
    book: &'a [u8],
    line: &'a [u8],
    not_yet: &'a [u8],
}

impl<'a> Input<'a> {
    fn read(bytes: &'a [u8]) -> Result<Self, u8> {
        let bytes = bytes.get(..MOST_READ).unwrap_or(bytes);
        let (head, rest) = bytes.split_first_chunk().ok_or(refusal::SHORT)?;
        let [printer, controller, repeats, polls, boarding] = *head;
        let (book, rest) = counted(rest)?;
        let (line, not_yet) = counted(rest)?;
        let settings = Settings {
            repeats,
            polls,
            printer,
            controller,
        };
        Ok(Input {
            settings,
            boarding: match boarding {
                0 => false,
                1 => true,
                _ => return Err(refusal::FIELD),
            },
            book,
            line,
            not_yet,
        })
    }

    /// The lines of the download to a fresh printer without templates.
    fn run(&self) -> Result<Vec<String>, u8> {
        let plan = Plan {
            settings: self.settings,
            book: self.book,
            line: self.line,
            not_yet: self.not_yet,
            diagnosis: &ANY_DIAGNOSIS,
        };
        let mut lines = Vec::new();
        let printer = Printer::fresh(self.settings.printer, self.boarding);
        let (outcome, slots) = download::run_to_empty(&plan, printer, |sending| {
            lines.push(sending_line(lines.len() + 1, sending, &self.settings));
        })?;
        lines.push(ending_line(&outcome));
        lines.extend(new_slot_lines(&slots));
        Ok(lines)
    }
}

/// The bytes behind their count, which has two bytes, and what follows them.
fn counted(bytes: &[u8]) -> Result<(&[u8], &[u8]), u8> {
    let (count, rest) = bytes.split_first_chunk().ok_or(refusal::SHORT)?;
    let count = u16::from_be_bytes(*count);
    rest.split_at_checked(count.into()).ok_or(refusal::SHORT)
}

/// All lines, each ended by a newline.
pub fn lines(bytes: &[u8]) -> String {
    let lines = Input::read(bytes).and_then(|input| input.run());
    let lines = lines.unwrap_or_else(|number| vec![format!("refused {number}")]);
    lines.join("\n") + "\n"
}

/// The first two words of the line behind the sendings, which tell the endings
/// and the refusals apart.
pub fn ending_words(lines: &str) -> String {
    let mut lines = lines.lines();
    let ending = lines.find(|line| !line.starts_with("sending"));
    let words = ending.unwrap_or_default().split(' ').take(2);
    words.collect::<Vec<&str>>().join(" ")
}

fn sending_line(number: usize, sending: &Sending<'_>, settings: &Settings) -> String {
    let Ok(Telegram::Frame { fc, .. }) = telegram::read(sending.request) else {
        unreachable!("every request is a frame");
    };
    let course = match sending.entry {
        REQUEST_LOST => String::from("request lost"),
        REPLY_LOST => String::from("reply lost"),
        _ => {
            let reply = sending.reply.unwrap_or_default();
            format!("through, {}", reply_text(reply, settings))
        }
    };
    format!("sending {number} fc {fc:02X} {course}")
}

fn reply_text(reply: &[u8], settings: &Settings) -> String {
    match Heard::of(reply, settings) {
        Heard::Nothing => String::from("no reply"),
        Heard::Confirmation => String::from("SC"),
        Heard::Printer(Content::SlaveDiag(_)) => String::from("diagnosis"),
        Heard::Printer(Content::Dpv1Answer(Answer::Write {
            slot,
            index,
            length,
        })) => format!("5F slot {slot} index {index} length {length}"),
        Heard::Printer(Content::Dpv1Answer(Answer::Negative {
            failed: Failed::Write,
            error,
        })) => format!("DF codes {:02X} {:02X}", error.code1, error.code2),
        Heard::Printer(_) | Heard::Other => String::from("other"),
    }
}

fn ending_line(outcome: &Outcome) -> String {
    let name = outcome.ending.name();
    let place = match outcome.ending {
        Ending::Done | Ending::NoOpening => String::new(),
        Ending::NoAnswer(k) | Ending::NotReady(k) | Ending::Strange(k) => format!(" at {k}"),
        Ending::Refused {
            template,
            codes: [code1, code2],
        } => format!(" at {template} codes {code1:02X} {code2:02X}"),
    };
    format!("{name}{place} after {} sendings", outcome.sendings)
}

/// A line for each slot that has a template: none had one before.
fn new_slot_lines(slots: &Slots) -> impl Iterator<Item = String> + '_ {
    let new = slots.templates();
    new.map(|(slot, body)| format!("new slot {slot} length {}", body.len()))
}

#[cfg(test)]
mod tests {
    use super::*;
    use crate::random::Random;
    use crate::samples::downloads::{any_wrong_settings, worked, worked_while_boarding};
    use crate::samples::{books, controllers, simulated as sample};
    use std::collections::BTreeSet;

    /// The page's example.
    const WORKED: &str = "\
sending 1 fc 6D through, diagnosis
sending 2 fc 5C request lost
sending 3 fc 5C through, SC
sending 4 fc 7C through, SC
sending 5 fc 5C reply lost
sending 6 fc 5C through, 5F slot 1 index 7 length 3
done after 6 sendings
new slot 7 length 3
";

    #[test]
    fn worked_download() {
        let input = b"\x07\x02\x01\x02\0\0\x06\x01\x07\x03ABC\0\x06\0\x01\0\0\x02\0\x01";
        assert_eq!(sample::input(&worked()), input);
        assert_eq!(lines(input), WORKED);
    }

    #[test]
    fn boarding_printer_refuses_slot_seven() {
        let text = lines(&sample::input(&worked_while_boarding()));
        let last: Vec<&str> = text.lines().skip(5).collect();
        let expected = [
            "sending 6 fc 5C through, DF codes B6 00",
            "refused at 1 codes B6 00 after 6 sendings",
        ];
        assert_eq!(last, expected);
    }

    #[test]
    fn every_new_slot_has_its_line() {
        let mut scene = worked();
        scene.book = vec![3, 0, 1, 9, 2, 15, 3, 1, 2, 3, 4, 5, 6];
        scene.line.clear();
        scene.not_yet.clear();
        let text = lines(&sample::input(&scene));
        let last: Vec<&str> = text.lines().skip(7).collect();
        let expected = [
            "done after 7 sendings",
            "new slot 0 length 1",
            "new slot 9 length 2",
            "new slot 15 length 3",
        ];
        assert_eq!(last, expected);
    }

    #[test]
    fn endings_are_as_the_page_has_them() {
        let refused = Ending::Refused {
            template: 1,
            codes: [0xB6, 0x00],
        };
        for (ending, sendings, line) in [
            (Ending::Done, 6, "done after 6 sendings"),
            (Ending::NoOpening, 1, "no opening after 1 sendings"),
            (Ending::NoAnswer(1), 5, "no answer at 1 after 5 sendings"),
            (Ending::NotReady(1), 4, "not ready at 1 after 4 sendings"),
            (refused, 3, "refused at 1 codes B6 00 after 3 sendings"),
            (Ending::Strange(1), 2, "strange reply at 1 after 2 sendings"),
        ] {
            let outcome = Outcome {
                printer: Printer::fresh(7, false),
                ending,
                sendings,
            };
            assert_eq!(ending_line(&outcome), line);
        }
    }

    #[test]
    fn replies_are_as_the_page_has_them() {
        let settings = worked().settings;
        let data = |saps, data: &[u8]| controllers::data_reply(&settings, saps, data);
        for (reply, text) in [
            (vec![0xE5], "SC"),
            (data([62, 60], &ANY_DIAGNOSIS), "diagnosis"),
            (
                data([51, 51], &[0x5F, 1, 7, 3]),
                "5F slot 1 index 7 length 3",
            ),
            (data([51, 51], &[0xDF, 128, 0xB6, 0]), "DF codes B6 00"),
            (data([51, 51], &[0x48]), "other"),
            (data([51, 51], &[0xDE, 128, 0xB6, 0]), "other"),
            (vec![0x10, 2, 7, 3, 12, 0x16], "other"),
            (vec![0xDC, 2, 7], "other"),
            (Vec::new(), "no reply"),
        ] {
            assert_eq!(reply_text(&reply, &settings), text);
        }
    }

    #[test]
    fn input_cut_before_the_last_entry_is_1() {
        let mut scene = worked();
        scene.settings.repeats = 9;
        let mut input = sample::input(&scene);
        input[4] = 2;
        let last_entry = input.len() - 1 - scene.not_yet.len();
        for length in 0..=last_entry {
            assert_eq!(lines(&input[..length]), "refused 1\n", "{length}");
        }
        assert_eq!(lines(&input[..=last_entry]), "refused 12\n");
    }

    #[test]
    fn refusals_come_in_their_order() {
        let random = &mut Random::new(1);
        let mut scene = worked();
        scene.line[5] = 3;
        assert_eq!(lines(&sample::input(&scene)), "refused 12\n");
        for (make, number) in books::DAMAGES {
            scene.book = make(random);
            let mut input = sample::input(&scene);
            assert_eq!(lines(&input), format!("refused {number}\n"));
            input[4] = 2;
            assert_eq!(lines(&input), "refused 12\n");
            scene.settings = any_wrong_settings(random);
            assert_eq!(lines(&sample::input(&scene)), "refused 12\n");
            scene.settings = worked().settings;
        }
    }

    #[test]
    fn no_more_is_read_than_8192_bytes() {
        let [just_enough, too_long] = sample::at_the_limit();
        assert_eq!(just_enough.len(), 8192);
        assert!(lines(&just_enough).ends_with("new slot 7 length 3\n"));
        assert_eq!(lines(&too_long), "refused 1\n");
        // What follows is not looked at.
        let longer = [&just_enough[..], &[3; 1000]].concat();
        assert_eq!(lines(&longer), lines(&just_enough));
    }

    #[test]
    fn samples_bring_every_ending_and_every_refusal() {
        let random = &mut Random::new(2);
        let mut endings = BTreeSet::new();
        for kind in sample::kinds() {
            endings.extend((0..500).map(|_| ending_words(&lines(&kind.sample(random)))));
        }
        assert_eq!(endings, sample::ENDINGS.map(String::from).into());
    }
}

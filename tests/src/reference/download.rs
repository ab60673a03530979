//! A download: the controller's step and the printer's, joined along a line
//! that may lose what goes over it.

use super::book::{self, Book};
use super::controller::{self, Ending, Move, Settings, State};
use super::printer::{self, Printer, Slots, BUFFER_ROOM};
use super::refusal;

/// An entry of the line: request and reply go through.
pub const THROUGH: u8 = 0;
/// An entry of the line: the request is lost.
pub const REQUEST_LOST: u8 = 1;
/// An entry of the line: the reply is lost.
pub const REPLY_LOST: u8 = 2;

/// A diagnosis for downloads of whose opening no more is told than that one came.
pub(super) const ANY_DIAGNOSIS: [u8; 6] = [0, 4, 0, 255, 0, 0];

/// What no step may refuse once a download has begun.
const JUDGED: &str = "all was judged before the first sending";

/// What is given for a download, but for the printer and its slots.
#[derive(Clone, Copy, Debug, PartialEq, Eq)]
pub struct Plan<'a> {
    /// The controller's settings.
    pub settings: Settings,
    /// The book's bytes.
    pub book: &'a [u8],
    /// What becomes of each sending, in turn; further ones go through.
    pub line: &'a [u8],
    /// How many "not yet" answers each write gets, in turn; further ones get
    /// none.
    pub not_yet: &'a [u8],
    /// The printer's diagnosis.
    pub diagnosis: &'a [u8],
}

/// What is lent to a download and changed in place; the buffers have 255 bytes
/// at least.
#[derive(Debug)]
pub struct Lent<'a> {
    /// The printer's slots.
    pub slots: &'a mut Slots,
    /// For the requests.
    pub request: &'a mut [u8],
    /// For the replies; a held reply stands at its front already.
    pub reply: &'a mut [u8],
}

/// One sending.
#[derive(Clone, Copy, Debug, PartialEq, Eq)]
pub struct Sending<'a> {
    /// What the controller sent.
    pub request: &'a [u8],
    /// The line's entry for it.
    pub entry: u8,
    /// What the printer sent back, whether or not it arrived.
    pub reply: Option<&'a [u8]>,
    /// The printer after it.
    pub printer: Printer,
}

/// What came of a download, but for what was lent to it.
#[derive(Clone, Copy, Debug, PartialEq, Eq)]
pub struct Outcome {
    /// The printer afterwards.
    pub printer: Printer,
    /// How it ended.
    pub ending: Ending,
    /// How many sendings there were.
    pub sendings: usize,
}

/// What carries the bytes between controller and printer.
pub(super) trait Line {
    /// What the printer gets of a request, if it gets anything.
    fn request<'a>(&'a mut self, entry: u8, sent: &'a [u8]) -> Option<&'a [u8]>;
    /// What the controller gets of a reply, if it gets anything.
    fn reply<'a>(&'a mut self, entry: u8, sent: &'a [u8]) -> Option<&'a [u8]>;
}

/// A line on which what is lost leaves nothing behind.
struct Losses;

impl Line for Losses {
    fn request<'a>(&'a mut self, entry: u8, sent: &'a [u8]) -> Option<&'a [u8]> {
        (entry != REQUEST_LOST).then_some(sent)
    }

    fn reply<'a>(&'a mut self, entry: u8, sent: &'a [u8]) -> Option<&'a [u8]> {
        (entry != REPLY_LOST).then_some(sent)
    }
}

/// Runs a download to its end and shows each sending to `seen`, or answers the
/// refusal number, and then nothing is changed.
pub fn run(
    plan: &Plan<'_>,
    printer: Printer,
    lent: Lent<'_>,
    seen: impl FnMut(&Sending<'_>),
) -> Result<Outcome, u8> {
    run_along(&mut Losses, plan, printer, lent, seen)
}

/// As `run`, to a printer without templates; its slots afterwards too.
pub(super) fn run_to_empty(
    plan: &Plan<'_>,
    printer: Printer,
    seen: impl FnMut(&Sending<'_>),
) -> Result<(Outcome, Slots), u8> {
    let mut slots = Slots::empty();
    let lent = Lent {
        slots: &mut slots,
        request: &mut [0; BUFFER_ROOM],
        reply: &mut [0; BUFFER_ROOM],
    };
    let outcome = run(plan, printer, lent, seen)?;
    Ok((outcome, slots))
}

/// As `run`, along any line.
pub(super) fn run_along(
    line: &mut impl Line,
    plan: &Plan<'_>,
    mut printer: Printer,
    lent: Lent<'_>,
    mut seen: impl FnMut(&Sending<'_>),
) -> Result<Outcome, u8> {
    let book = plan.judge(&printer, &lent)?;
    let mut sendings = 0;
    let mut state = State::Fresh;
    let mut arrived: &[u8] = &[];
    let ending = loop {
        let step = controller::proceed(&plan.settings, &book, state, arrived, lent.request);
        let (next, length) = match step.expect(JUDGED) {
            Move::Send { state, length } => (state, length),
            Move::End(ending) => break ending,
        };
        state = next;
        let request = &lent.request[..length];
        let entry = plan.line.get(sendings).copied().unwrap_or(THROUGH);
        sendings += 1;
        let got = line.request(entry, request);
        let length = got.and_then(|got| hear(plan, &mut printer, lent.slots, got, lent.reply));
        let reply = length.map(|length| &lent.reply[..length]);
        seen(&Sending {
            request,
            entry,
            reply,
            printer,
        });
        let back = reply.and_then(|sent| line.reply(entry, sent));
        arrived = back.unwrap_or_default();
    };
    Ok(Outcome {
        printer,
        ending,
        sendings,
    })
}

/// What the printer does with the bytes that it gets: the length of its reply,
/// if it sends one.
fn hear(
    plan: &Plan<'_>,
    printer: &mut Printer,
    slots: &mut Slots,
    bytes: &[u8],
    reply: &mut [u8],
) -> Option<usize> {
    let not_yet = plan.not_yet_of(printer.writes);
    let step = printer::hear(*printer, slots, plan.diagnosis, bytes, not_yet, reply);
    let (next, length) = step.expect(JUDGED);
    *printer = next;
    length
}

impl<'a> Plan<'a> {
    /// Refuses what no download can be made of, in document 01's order, and answers
    /// the book.
    fn judge(&self, printer: &Printer, lent: &Lent<'_>) -> Result<Book<'a>, u8> {
        self.settings.judge()?;
        let book = book::read(self.book)?;
        if self.line.iter().any(|entry| *entry > REPLY_LOST) {
            return Err(refusal::FIELD);
        }
        printer::judge(printer, lent.slots, self.diagnosis)?;
        printer::judge_buffer(lent.request)?;
        printer::judge_buffer(lent.reply)?;
        Ok(book)
    }

    /// The number of the write that comes after so many.
    fn not_yet_of(&self, writes: u8) -> u8 {
        let numbers = self.not_yet;
        numbers.get(usize::from(writes)).copied().unwrap_or(0)
    }
}

#[cfg(test)]
mod tests {
    use super::*;
    use crate::random::Random;
    use crate::samples::downloads::{bound, worked, Scene};
    use crate::samples::{books, diagnosis as diagnoses, sd2_around as sd2};

    const SC: &[u8] = &[0xE5];

    /// The request, the entry and the reply of a sending.
    type Sent = (Vec<u8>, u8, Option<Vec<u8>>);

    /// Runs a download in place, and answers the sendings too.
    fn run_scene(scene: &mut Scene) -> (Outcome, Vec<Sent>) {
        let mut sendings = Vec::new();
        let given = scene.clone();
        let lent = Lent {
            slots: &mut scene.slots,
            request: &mut [0; 255],
            reply: &mut scene.reply,
        };
        let outcome = run(&given.plan(), given.printer, lent, |sending| {
            let reply = sending.reply.map(<[u8]>::to_vec);
            sendings.push((sending.request.to_vec(), sending.entry, reply));
        });
        (outcome.expect("not refused"), sendings)
    }

    #[test]
    fn worked_download() {
        let mut scene = worked();
        let mut expected_slots = scene.slots.clone();
        let (outcome, sendings) = run_scene(&mut scene);
        let codes: Vec<u8> = sendings.iter().map(|(request, ..)| request[6]).collect();
        assert_eq!(codes, [0x6D, 0x5C, 0x5C, 0x7C, 0x5C, 0x5C]);
        assert_eq!((outcome.ending, outcome.sendings), (Ending::Done, 6));
        assert_eq!(bound(&scene.settings, 1), 7);
        assert_eq!(outcome.printer.writes, 1);
        expected_slots.lengths[7] = 3;
        expected_slots.bodies[7][..3].copy_from_slice(b"ABC");
        assert_eq!(scene.slots, expected_slots);

        let to_printer = |body: &[u8]| sd2(&[&[0x87, 0x82], body].concat());
        let write = to_printer(&[0x5C, 51, 51, 0x5F, 1, 7, 3, 0x41, 0x42, 0x43]);
        let second_poll = to_printer(&[0x5C, 51, 51]);
        let opened = [&[0x82, 0x87, 0x08, 62, 60][..], &diagnoses::WORKED_ROW].concat();
        let result = sd2(&[0x82, 0x87, 0x08, 51, 51, 0x5F, 1, 7, 3]);
        let expected = [
            (to_printer(&[0x6D, 60, 62]), 0, Some(sd2(&opened))),
            (write.clone(), 1, None),
            (write, 0, Some(SC.to_vec())),
            (to_printer(&[0x7C, 51, 51]), 0, Some(SC.to_vec())),
            (second_poll.clone(), 2, Some(result.clone())),
            (second_poll, 0, Some(result)),
        ];
        assert_eq!(sendings, expected);
    }

    #[test]
    fn boarding_printer_refuses_slot_seven() {
        let mut scene = worked();
        scene.printer.boarding = true;
        scene.book = vec![3, 3, 1, 7, 2, 9, 1, 0x41, 0x42, 0x43, 0x44];
        scene.line.clear();
        scene.not_yet = vec![0, 1];
        let mut expected_slots = scene.slots.clone();
        let (outcome, sendings) = run_scene(&mut scene);
        let ending = Ending::Refused {
            template: 2,
            codes: [0xB6, 0x00],
        };
        // The opening, a write and a poll, a write and two polls.
        assert_eq!((outcome.ending, outcome.sendings), (ending, 6));
        assert_eq!(sendings.len(), 6);
        assert_eq!(
            (outcome.printer.writes, outcome.printer.boarding),
            (2, true)
        );
        expected_slots.lengths[3] = 1;
        expected_slots.bodies[3][0] = 0x41;
        assert_eq!(scene.slots, expected_slots);
    }

    #[test]
    fn another_own_address_hears_nothing() {
        let mut scene = worked();
        scene.printer.address = 8;
        scene.printer.held = 6;
        let before = scene.clone();
        let (outcome, sendings) = run_scene(&mut scene);
        assert_eq!((outcome.ending, outcome.sendings), (Ending::NoOpening, 1));
        assert_eq!((sendings.len(), &sendings[0].2), (1, &None));
        assert_eq!(scene, before);
        // The request came, though not to it.
        assert_eq!(
            outcome.printer,
            Printer {
                held: 0,
                ..before.printer
            }
        );
    }

    #[test]
    fn lost_opening_is_not_repeated_and_a_lost_reply_to_it_ends_as_well() {
        for (entry, is_heard) in [(REQUEST_LOST, false), (REPLY_LOST, true)] {
            let mut scene = worked();
            scene.line = vec![entry];
            scene.printer.writes = 9;
            let (outcome, sendings) = run_scene(&mut scene);
            assert_eq!((outcome.ending, outcome.sendings), (Ending::NoOpening, 1));
            assert_eq!(sendings[0].2.is_some(), is_heard);
            assert_eq!(outcome.printer.writes, if is_heard { 0 } else { 9 });
        }
    }

    #[test]
    fn not_yet_numbers_go_to_the_writes_in_turn_and_missing_ones_are_0() {
        let mut scene = worked();
        scene.settings.polls = 4;
        scene.book = vec![3, 0, 1, 1, 1, 2, 1, 8, 8, 8];
        scene.line.clear();
        scene.not_yet = vec![1, 3];
        let (outcome, _) = run_scene(&mut scene);
        // Each template has a write and a poll more than its number.
        let sendings = 1 + (2 + 1) + (2 + 3) + 2;
        assert_eq!((outcome.ending, outcome.sendings), (Ending::Done, sendings));
        scene.settings.polls = 3;
        let (outcome, _) = run_scene(&mut scene);
        let sendings = 1 + (2 + 1) + (1 + 3);
        let expected = (Ending::NotReady(2), sendings);
        assert_eq!((outcome.ending, outcome.sendings), expected);
    }

    /// The number comes before any sending, and nothing is stored.
    fn expect_refused(scene: &Scene, rooms: [usize; 2], number: u8) {
        let mut slots = scene.slots.clone();
        let [mut request, mut reply] = rooms.map(|room| vec![0xAA; room]);
        let lent = Lent {
            slots: &mut slots,
            request: &mut request,
            reply: &mut reply,
        };
        let refuse = |_: &Sending<'_>| panic!("something was sent");
        let outcome = run(&scene.plan(), scene.printer, lent, refuse);
        assert_eq!(outcome, Err(number));
        assert_eq!(slots, scene.slots);
        assert!(request.iter().chain(&reply).all(|byte| *byte == 0xAA));
    }

    #[test]
    fn settings_come_before_the_book_and_the_book_before_all_else() {
        let mut scene = worked();
        scene.line[0] = 3;
        scene.printer.address = 127;
        for (make, number) in books::DAMAGES {
            scene.book = make(&mut Random::new(1));
            expect_refused(&scene, [0, 0], number);
        }
        for (repeats, polls, printer, controller) in [
            (8, 2, 7, 2),
            (1, 0, 7, 2),
            (1, 32, 7, 2),
            (1, 2, 127, 2),
            (1, 2, 7, 127),
            (1, 2, 7, 7),
        ] {
            scene.settings = Settings {
                repeats,
                polls,
                printer,
                controller,
            };
            expect_refused(&scene, [0, 0], 12);
        }
    }

    #[test]
    fn line_and_printer_come_before_the_buffers() {
        let scene = worked();
        for rooms in [[0, 0], [254, 300], [300, 254]] {
            expect_refused(&scene, rooms, 11);
        }
        let mut wrong = vec![scene.clone(); 3];
        wrong[0].printer.address = 127;
        wrong[1].slots.lengths[15] = 201;
        wrong[2].diagnosis = diagnoses::ext_diag_flipped(&mut Random::new(2));
        // An entry is wrong also where no sending would use it.
        for (place, entry) in [(0, 3), (5, 255), (6, 3), (500, 128)] {
            let mut scene = scene.clone();
            scene.line.resize(501, THROUGH);
            scene.line[place] = entry;
            wrong.push(scene);
        }
        for scene in wrong {
            expect_refused(&scene, [0, 0], 12);
            expect_refused(&scene, [255, 255], 12);
        }
    }
}

//! The controller of a download: its next request or the ending, from nothing
//! but the settings, the book, its own state and the last reply.

use super::acyclic::{Answer, Call, Failed};
use super::book::{self, Book, Template};
use super::parameters::Mode;
use super::printer::{DATA_REPLY, TEMPLATES};
use super::refusal;
use super::service::{self, Content, ServiceTelegram};
use super::telegram::{self, Format, Telegram};

/// The most repeats of a request and the most polls for a result.
const MOST_REPEATS: u8 = 7;
const MOST_POLLS: u8 = 31;

/// The function codes of the opening and of the other requests with FCB 0.
const OPENING: u8 = 0x6D;
const SRD_LOW: u8 = 0x5C;

/// What the caller sets for a download.
#[derive(Clone, Copy, Debug, PartialEq, Eq)]
pub struct Settings {
    /// R: how often a request without answer is sent again, 0..=7.
    pub repeats: u8,
    /// P: how often a result is asked for, 1..=31.
    pub polls: u8,
    /// The station that the requests go to, 0..=126.
    pub printer: u8,
    /// The station that they come from, 0..=126 and another.
    pub controller: u8,
}

impl Settings {
    pub(super) fn judge(&self) -> Result<(), u8> {
        let is_right = self.repeats <= MOST_REPEATS
            && (1..=MOST_POLLS).contains(&self.polls)
            && self.printer.max(self.controller) <= telegram::LAST_STATION
            && self.printer != self.controller;
        is_right.then_some(()).ok_or(refusal::FIELD)
    }
}

/// What a controller knows between two steps.
#[derive(Clone, Copy, Debug, PartialEq, Eq, PartialOrd, Ord)]
pub enum State {
    /// It has sent nothing yet.
    Fresh,
    /// It has sent this request.
    Waiting(Request),
}

/// A request.
#[derive(Clone, Copy, Debug, PartialEq, Eq, PartialOrd, Ord)]
pub enum Request {
    /// Slave_Diag, which is never repeated.
    Opening,
    /// A template's write.
    Write(Turn),
    /// A poll for a template's result, and how many more may follow it.
    Poll(Turn, u8),
}

/// What every request of a template has.
#[derive(Clone, Copy, Debug, PartialEq, Eq, PartialOrd, Ord)]
pub struct Turn {
    /// The template, counted from 1.
    pub template: u8,
    /// FCB, which stays the same when the request is repeated.
    pub fcb: bool,
    /// How often the request may still be repeated.
    pub repeats: u8,
}

impl Turn {
    /// The same once more, unless it was the last time.
    fn again(self) -> Option<Self> {
        let repeats = self.repeats.checked_sub(1)?;
        Some(Turn { repeats, ..self })
    }

    /// That of the next request.
    fn next(self, settings: &Settings) -> Self {
        Turn {
            fcb: !self.fcb,
            repeats: settings.repeats,
            ..self
        }
    }
}

/// How a download ends; a template is counted from 1.
#[derive(Clone, Copy, Debug, PartialEq, Eq)]
pub enum Ending {
    /// Every template was taken.
    Done,
    /// No diagnosis came back.
    NoOpening,
    /// A request of the template was never answered.
    NoAnswer(u8),
    /// The template's result was not there within P polls.
    NotReady(u8),
    /// The printer did not take the template.
    Refused {
        /// The template.
        template: u8,
        /// Error codes 1 and 2.
        codes: [u8; 2],
    },
    /// The reply to a request of the template was none that belongs there.
    Strange(u8),
}

impl Ending {
    /// Document 01's word for it.
    pub fn name(self) -> &'static str {
        match self {
            Ending::Done => "done",
            Ending::NoOpening => "no opening",
            Ending::NoAnswer(_) => "no answer",
            Ending::NotReady(_) => "not ready",
            Ending::Refused { .. } => "refused",
            Ending::Strange(_) => "strange reply",
        }
    }

    /// Kind, template, code 1 and code 2 as the C interface has them
    /// (`include/rabtunex.h`), each 0 where the ending has none.
    pub fn fields(self) -> [u8; 4] {
        match self {
            Ending::Done => [1, 0, 0, 0],
            Ending::NoOpening => [2, 0, 0, 0],
            Ending::NoAnswer(k) => [3, k, 0, 0],
            Ending::NotReady(k) => [4, k, 0, 0],
            Ending::Refused {
                template,
                codes: [code1, code2],
            } => [5, template, code1, code2],
            Ending::Strange(k) => [6, k, 0, 0],
        }
    }
}

/// What a controller does next.
#[derive(Clone, Copy, Debug, PartialEq, Eq)]
pub enum Move {
    /// It sends the request that stands at the front of the buffer.
    Send {
        /// What it knows from then on.
        state: State,
        /// How many bytes the request has.
        length: usize,
    },
    /// It ends.
    End(Ending),
}

/// What the controller makes of a reply's bytes.
pub(super) enum Heard {
    /// No reply, or bytes that framing refuses.
    Nothing,
    /// SC.
    Confirmation,
    /// Data of the printer that is set, to the controller that is set.
    Printer(Content),
    /// Any other telegram.
    Other,
}

impl Heard {
    pub(super) fn of(reply: &[u8], settings: &Settings) -> Self {
        let heard = match telegram::read(reply) {
            Err(_) => return Heard::Nothing,
            Ok(Telegram::ShortConfirmation) => return Heard::Confirmation,
            Ok(heard @ (Telegram::Token { .. } | Telegram::Frame { .. })) => heard,
        };
        match service::of_telegram(heard, Mode::Dpv1) {
            Ok(ServiceTelegram {
                format: Format::Sd2,
                fc: DATA_REPLY,
                da,
                sa,
                content,
                ..
            }) if (sa, da) == (settings.printer, settings.controller) => Heard::Printer(content),
            _ => Heard::Other,
        }
    }
}

/// The controller's next request, stored at the front of `out`, or the ending.
/// No reply is the empty slice. A refusal stores nothing.
pub fn step(
    settings: &Settings,
    book: &[u8],
    state: State,
    reply: &[u8],
    out: &mut [u8],
) -> Result<Move, u8> {
    settings.judge()?;
    let book = book::read(book)?;
    state.judge(settings, &book)?;
    proceed(settings, &book, state, reply, out)
}

/// As `step`, of what was judged already.
pub(super) fn proceed(
    settings: &Settings,
    book: &Book<'_>,
    state: State,
    reply: &[u8],
    out: &mut [u8],
) -> Result<Move, u8> {
    let heard = Heard::of(reply, settings);
    let next = match state {
        State::Fresh => Ok(Request::Opening),
        State::Waiting(Request::Opening) => after_opening(&heard, settings),
        State::Waiting(Request::Write(turn)) => after_write(turn, &heard, settings),
        State::Waiting(Request::Poll(turn, left)) => after_poll(turn, left, &heard, settings, book),
    };
    match next {
        Ok(request) => Ok(Move::Send {
            state: State::Waiting(request),
            length: write(request, settings, book, out)?,
        }),
        Err(ending) => Ok(Move::End(ending)),
    }
}

impl State {
    /// Refuses a state that no run leads to.
    fn judge(self, settings: &Settings, book: &Book<'_>) -> Result<(), u8> {
        // How many requests of the template came before this one.
        let (turn, before) = match self {
            State::Fresh | State::Waiting(Request::Opening) => return Ok(()),
            State::Waiting(Request::Write(turn)) => (turn, 0),
            State::Waiting(Request::Poll(turn, left)) if left < settings.polls => {
                (turn, settings.polls - left)
            }
            State::Waiting(Request::Poll(..)) => return Err(refusal::FIELD),
        };
        // A template has one write and 1..=P polls. With one poll at most, or
        // with no template before, FCB is known; else it may be either.
        let is_fcb_known = turn.template == 1 || settings.polls == 1;
        let is_right = (1..=book.count()).contains(&turn.template.into())
            && turn.repeats <= settings.repeats
            && (!is_fcb_known || turn.fcb != before.is_multiple_of(2));
        is_right.then_some(()).ok_or(refusal::FIELD)
    }
}

/// The first template's write, if the reply to the opening was a diagnosis.
fn after_opening(heard: &Heard, settings: &Settings) -> Result<Request, Ending> {
    let Heard::Printer(Content::SlaveDiag(_)) = heard else {
        return Err(Ending::NoOpening);
    };
    Ok(Request::Write(Turn {
        template: 1,
        fcb: false,
        repeats: settings.repeats,
    }))
}

/// What follows a write: a poll, unless something is wrong.
fn after_write(turn: Turn, heard: &Heard, settings: &Settings) -> Result<Request, Ending> {
    let k = turn.template;
    match heard {
        Heard::Nothing => turn.again().map(Request::Write).ok_or(Ending::NoAnswer(k)),
        Heard::Confirmation => Ok(Request::Poll(turn.next(settings), settings.polls - 1)),
        Heard::Printer(_) | Heard::Other => Err(Ending::Strange(k)),
    }
}

/// What follows a poll: another poll or the next template, unless something is
/// wrong or there is no other template.
fn after_poll(
    turn: Turn,
    left: u8,
    heard: &Heard,
    settings: &Settings,
    book: &Book<'_>,
) -> Result<Request, Ending> {
    let k = turn.template;
    match heard {
        Heard::Nothing => {
            let again = turn.again().ok_or(Ending::NoAnswer(k))?;
            Ok(Request::Poll(again, left))
        }
        Heard::Confirmation => {
            let left = left.checked_sub(1).ok_or(Ending::NotReady(k))?;
            Ok(Request::Poll(turn.next(settings), left))
        }
        Heard::Printer(Content::Dpv1Answer(Answer::Negative {
            failed: Failed::Write,
            error,
        })) => Err(Ending::Refused {
            template: k,
            codes: [error.code1, error.code2],
        }),
        Heard::Printer(Content::Dpv1Answer(answer)) if is_written(*answer, k, book) => {
            if usize::from(k) == book.count() {
                return Err(Ending::Done);
            }
            let template = k + 1;
            let turn = turn.next(settings);
            Ok(Request::Write(Turn { template, ..turn }))
        }
        Heard::Printer(_) | Heard::Other => Err(Ending::Strange(k)),
    }
}

/// Whether the answer says that just this template was written.
fn is_written(answer: Answer, k: u8, book: &Book<'_>) -> bool {
    let said = |template: Template<'_>| Answer::Write {
        slot: TEMPLATES,
        index: template.slot,
        // No body is longer than a byte can count.
        length: template.body.len() as u8,
    };
    book.template(k.into()).map(said) == Some(answer)
}

/// Stores a request at the front of `out` and answers its length.
fn write(
    request: Request,
    settings: &Settings,
    book: &Book<'_>,
    out: &mut [u8],
) -> Result<usize, u8> {
    let counted = |turn: Turn| SRD_LOW | if turn.fcb { telegram::FCB } else { 0 };
    let (fc, content, part) = match request {
        Request::Opening => (OPENING, Content::SlaveDiagCall, &[][..]),
        Request::Write(turn) => {
            let template = book.template(turn.template.into());
            let Template { slot, body } = template.ok_or(refusal::FIELD)?;
            let call = Call::Write {
                slot: TEMPLATES,
                index: slot,
            };
            (counted(turn), Content::Dpv1Call(call), body)
        }
        Request::Poll(turn, _) => (counted(turn), Content::Dpv1Call(Call::Poll), &[][..]),
    };
    let telegram = ServiceTelegram {
        format: Format::Sd2,
        da: settings.printer,
        sa: settings.controller,
        fc,
        content,
        part,
    };
    service::write(&telegram, out)
}

#[cfg(test)]
mod tests {
    use super::*;
    use crate::random::Random;
    use crate::samples::FUNCTION_CODES;
    use crate::samples::{self, books, diagnosis as diagnoses, downloads, sd2_around as sd2};
    use std::collections::BTreeSet;

    const SC: &[u8] = &[0xE5];
    const NONE: &[u8] = &[];
    const SETTINGS: Settings = downloads::WORKED_SETTINGS;
    const BOOK: [u8; 8] = books::SMALL_BOOK;
    const ROOM: usize = 300;

    /// What a step does, in an output with room: the bytes of the request and
    /// the state, or the ending. Nothing else is stored.
    fn next(settings: &Settings, state: State, reply: &[u8]) -> Result<(Vec<u8>, State), Ending> {
        let mut out = vec![0xAA; ROOM];
        let stepped = step(settings, &BOOK, state, reply, &mut out).expect("not refused");
        let (next, length) = match stepped {
            Move::Send { state, length } => (Ok(state), length),
            Move::End(ending) => (Err(ending), 0),
        };
        let (sent, rest) = out.split_at(length);
        assert!(rest.iter().all(|byte| *byte == 0xAA));
        next.map(|state| (sent.to_vec(), state))
    }

    fn expect_ending(state: State, reply: &[u8], ending: Ending) {
        assert_eq!(next(&SETTINGS, state, reply), Err(ending), "{reply:02X?}");
    }

    /// A DPV1 request to 7 from 2.
    fn to_51(fc: u8, data: &[u8]) -> Vec<u8> {
        sd2(&[&[0x87, 0x82, fc, 51, 51], data].concat())
    }

    /// An answer of code 08 to 2 from 7.
    fn answer(saps: [u8; 2], data: &[u8]) -> Vec<u8> {
        answer_by(0x08, saps, data)
    }

    fn answer_by(fc: u8, saps: [u8; 2], data: &[u8]) -> Vec<u8> {
        sd2(&[&[0x82, 0x87, fc][..], &saps, data].concat())
    }

    fn result(data: [u8; 4]) -> Vec<u8> {
        answer([51, 51], &data)
    }

    fn diagnosis() -> Vec<u8> {
        answer([62, 60], &diagnoses::WORKED_ROW)
    }

    /// The state after these replies to a fresh controller's requests.
    fn after(replies: &[&[u8]]) -> State {
        let first = next(&SETTINGS, State::Fresh, NONE).expect("the opening").1;
        replies.iter().fold(first, |state, reply| {
            next(&SETTINGS, state, reply).expect("no ending").1
        })
    }

    #[test]
    fn whole_download_without_loss() {
        let mut state = State::Fresh;
        for (reply, request) in [
            (NONE, sd2(&[0x87, 0x82, 0x6D, 60, 62])),
            (&diagnosis(), to_51(0x5C, &[0x5F, 1, 3, 2, 0x41, 0x42])),
            (SC, to_51(0x7C, &[])),
            (SC, to_51(0x5C, &[])),
            (
                &result([0x5F, 1, 3, 2]),
                to_51(0x7C, &[0x5F, 1, 15, 1, 0x43]),
            ),
            (SC, to_51(0x5C, &[])),
        ] {
            let (sent, then) = next(&SETTINGS, state, reply).expect("no ending");
            assert_eq!(sent, request);
            state = then;
        }
        expect_ending(state, &result([0x5F, 1, 15, 1]), Ending::Done);
    }

    #[test]
    fn fresh_state_opens_whatever_the_reply() {
        let random = &mut Random::new(1);
        let opening = Ok((
            sd2(&[0x87, 0x82, 0x6D, 60, 62]),
            State::Waiting(Request::Opening),
        ));
        for reply in [NONE, SC, &diagnosis(), &result([0xDF, 128, 0xB0, 0])] {
            assert_eq!(next(&SETTINGS, State::Fresh, reply), opening);
        }
        for _ in 0..100 {
            let reply = samples::any_valid(random);
            assert_eq!(next(&SETTINGS, State::Fresh, &reply), opening);
        }
    }

    #[test]
    fn every_diagnosis_opens() {
        let state = after(&[]);
        let expected = to_51(0x5C, &[0x5F, 1, 3, 2, 0x41, 0x42]);
        for bytes in diagnoses::few_forms(&mut Random::new(2)) {
            let reply = answer([62, 60], &bytes);
            let (sent, _) = next(&SETTINGS, state, &reply).expect("no ending");
            assert_eq!(sent, expected);
        }
    }

    /// Telegrams that are right for framing, and are no data of 7 to 2 in SD2 by
    /// code 08, though the data would be right.
    fn others(saps: [u8; 2], data: &[u8]) -> Vec<Vec<u8>> {
        let mut others = vec![vec![0xDC, 2, 7]];
        for fc in FUNCTION_CODES {
            let mut bare = vec![0x10, 2, 7, fc, 0, 0x16];
            samples::mend(&mut bare);
            others.push(bare);
            if fc != 0x08 {
                others.push(answer_by(fc, saps, data));
            }
        }
        for [da, sa] in [[0x83, 0x87], [0x82, 0x86], [0x87, 0x82], [0xFF, 0x87]] {
            others.push(sd2(&[&[da, sa, 0x08][..], &saps, data].concat()));
        }
        let [dsap, ssap] = saps;
        others.push(answer([dsap, ssap - 1], data));
        others.push(answer([dsap + 1, ssap], data));
        // With one SAP and with none.
        others.push(sd2(&[&[0x82, 0x07, 0x08, dsap], data].concat()));
        others.push(sd2(&[&[0x02, 0x87, 0x08, ssap], data].concat()));
        others.push(sd2(&[&[0x02, 0x07, 0x08], data].concat()));
        // Data that the service refuses.
        others.push(answer(saps, &[]));
        others.push(answer(saps, &[data, &[0; 200]].concat()));
        others
    }

    #[test]
    fn no_other_reply_opens() {
        let state = after(&[]);
        let mut replies = others([62, 60], &diagnoses::WORKED_ROW);
        replies.extend([NONE.to_vec(), SC.to_vec(), vec![0x10], vec![0xE5, 0xE5]]);
        replies.push(result([0x5F, 1, 3, 2]));
        replies.push(answer([62, 56], &diagnoses::WORKED_ROW));
        // A diagnosis in SD3.
        let sd3 = [0x82, 0x87, 0x08, 62, 60, 0x00, 0x0C, 0x00, 2, 0x12, 0x34];
        let mut sd3 = [&[0xA2][..], &sd3, &[0, 0x16]].concat();
        samples::mend(&mut sd3);
        assert!(service::read(&sd3, Mode::Dpv1).is_ok());
        replies.push(sd3);
        for reply in replies {
            expect_ending(state, &reply, Ending::NoOpening);
        }
    }

    /// Bytes that framing refuses, and none.
    fn refused_by_framing() -> [Vec<u8>; 4] {
        let [mut damaged, mut cut] = [result([0x5F, 1, 3, 2]), diagnosis()];
        damaged[10] ^= 1;
        cut.pop();
        [Vec::new(), damaged, cut, vec![0xE5, 0xE5]]
    }

    /// The state's request is repeated as it was, as often as R says, and then
    /// the download ends.
    fn expect_repeats(settings: &Settings, replies: &[&[u8]]) {
        let mut state = State::Fresh;
        let mut request = Vec::new();
        for reply in [&[NONE], replies].concat() {
            (request, state) = next(settings, state, reply).expect("no ending");
        }
        let mut silences = refused_by_framing().into_iter().cycle();
        for _ in 0..settings.repeats {
            let reply = silences.next().expect("endless");
            let (again, then) = next(settings, state, &reply).expect("no ending");
            assert_eq!(again, request);
            state = then;
        }
        for reply in refused_by_framing() {
            let ended = next(settings, state, &reply);
            assert!(matches!(ended, Err(Ending::NoAnswer(1 | 2))), "{ended:?}");
        }
    }

    #[test]
    fn request_without_answer_is_repeated_r_times() {
        let (opened, written) = (diagnosis(), result([0x5F, 1, 3, 2]));
        for repeats in 0..=7 {
            let settings = Settings {
                repeats,
                ..SETTINGS
            };
            expect_repeats(&settings, &[&opened]);
            expect_repeats(&settings, &[&opened, SC]);
            expect_repeats(&settings, &[&opened, SC, SC]);
            expect_repeats(&settings, &[&opened, SC, SC, &written]);
        }
        // The template is named, and a repeat that is answered goes on.
        let state = after(&[&opened, NONE, SC, NONE, &written, SC, NONE]);
        expect_ending(state, NONE, Ending::NoAnswer(2));
        expect_ending(after(&[&opened, NONE]), NONE, Ending::NoAnswer(1));
    }

    #[test]
    fn not_ready_when_p_polls_got_sc() {
        for polls in 1..=31 {
            let settings = Settings { polls, ..SETTINGS };
            let mut state = State::Fresh;
            for reply in [NONE, &diagnosis()] {
                state = next(&settings, state, reply).expect("no ending").1;
            }
            // SC to the write, then to all polls but the last.
            for _ in 0..polls {
                // A repeat is no other poll.
                state = next(&settings, state, NONE).expect("no ending").1;
                state = next(&settings, state, SC).expect("no ending").1;
            }
            assert_eq!(next(&settings, state, SC), Err(Ending::NotReady(1)));
        }
    }

    #[test]
    fn anything_but_sc_to_a_write_is_strange() {
        let state = after(&[&diagnosis()]);
        let mut replies = others([51, 51], &[0x5F, 1, 3, 2]);
        replies.extend([
            diagnosis(),
            result([0x5F, 1, 3, 2]),
            result([0xDF, 128, 0xB6, 0]),
        ]);
        for reply in replies {
            expect_ending(state, &reply, Ending::Strange(1));
        }
    }

    #[test]
    fn df_to_a_poll_is_refused_with_its_codes() {
        let first = after(&[&diagnosis(), SC]);
        let second = after(&[&diagnosis(), SC, &result([0x5F, 1, 3, 2]), SC, SC]);
        for (state, template) in [(first, 1), (second, 2)] {
            for codes in [[0xB6, 0], [0xB0, 9], [0xFF, 0xFF]] {
                let ending = Ending::Refused { template, codes };
                for decode in [128, 254, 255] {
                    let [code1, code2] = codes;
                    let reply = result([0xDF, decode, code1, code2]);
                    expect_ending(state, &reply, ending);
                }
            }
        }
    }

    #[test]
    fn any_other_reply_to_a_poll_is_strange() {
        let state = after(&[&diagnosis(), SC]);
        let mut replies = others([51, 51], &[0x5F, 1, 3, 2]);
        replies.extend(others([51, 51], &[0xDF, 128, 0xB6, 0]));
        for data in [
            // Another slot, index or length.
            [0x5F, 0, 3, 2],
            [0x5F, 2, 3, 2],
            [0x5F, 1, 15, 2],
            [0x5F, 1, 3, 1],
            [0x5F, 1, 15, 1],
            [0x5F, 1, 3, 241],
            // Another function, or codes that are reserved.
            [0x5C, 1, 3, 2],
            [0x5E, 1, 3, 0],
            [0xDE, 128, 0xB6, 0],
            [0xDC, 128, 0xB6, 0],
            [0xD1, 128, 0xB6, 0],
            [0xDF, 127, 0xB6, 0],
            [0xDF, 128, 0x96, 0],
            [0xDF, 1, 3, 2],
        ] {
            replies.push(result(data));
        }
        replies.push(diagnosis());
        replies.push(answer([51, 51], &[0x48]));
        for reply in replies {
            assert!(telegram::read(&reply).is_ok());
            expect_ending(state, &reply, Ending::Strange(1));
        }
    }

    /// A state of a third template, which the book has not.
    const PAST_THE_BOOK: State = State::Waiting(Request::Write(Turn {
        template: 3,
        fcb: false,
        repeats: 0,
    }));

    /// The number comes before that of too small an output, and nothing is
    /// stored.
    fn expect_refused(settings: &Settings, book: &[u8], state: State, number: u8) {
        for room in [0, ROOM] {
            let mut out = vec![0xAA; room];
            let stepped = step(settings, book, state, SC, &mut out);
            assert_eq!(stepped, Err(number));
            assert!(out.iter().all(|byte| *byte == 0xAA));
        }
    }

    #[test]
    fn settings_come_first() {
        for (repeats, polls, printer, controller) in [
            (8, 2, 7, 2),
            (255, 2, 7, 2),
            (1, 0, 7, 2),
            (1, 32, 7, 2),
            (1, 2, 127, 2),
            (1, 2, 7, 127),
            (1, 2, 255, 2),
            (1, 2, 7, 7),
        ] {
            let settings = Settings {
                repeats,
                polls,
                printer,
                controller,
            };
            expect_refused(&settings, &[], PAST_THE_BOOK, 12);
            expect_refused(&settings, &BOOK, State::Fresh, 12);
        }
    }

    #[test]
    fn book_comes_before_the_state_and_the_state_before_the_room() {
        for (make, number) in books::DAMAGES {
            let book = make(&mut Random::new(3));
            expect_refused(&SETTINGS, &book, PAST_THE_BOOK, number);
            expect_refused(&SETTINGS, &book, State::Fresh, number);
        }
        expect_refused(&SETTINGS, &BOOK, PAST_THE_BOOK, 12);
    }

    #[test]
    fn settings_at_their_limits_are_taken() {
        for (repeats, polls, printer, controller) in [(0, 1, 0, 126), (7, 31, 126, 0)] {
            let settings = Settings {
                repeats,
                polls,
                printer,
                controller,
            };
            let opening = sd2(&[0x80 | printer, 0x80 | controller, 0x6D, 60, 62]);
            let (sent, _) = next(&settings, State::Fresh, NONE).expect("no ending");
            assert_eq!(sent, opening);
        }
    }

    #[test]
    fn room_is_what_the_request_needs_and_an_ending_needs_none() {
        let states = [
            (State::Fresh, NONE.to_vec()),
            (after(&[]), diagnosis()),
            (after(&[&diagnosis()]), SC.to_vec()),
        ];
        for (state, reply) in states {
            let (sent, then) = next(&SETTINGS, state, &reply).expect("no ending");
            for room in 0..=sent.len() {
                let mut out = vec![0xAA; room];
                let stepped = step(&SETTINGS, &BOOK, state, &reply, &mut out);
                if let Ok(stepped) = stepped {
                    let length = sent.len();
                    assert_eq!(
                        stepped,
                        Move::Send {
                            state: then,
                            length
                        }
                    );
                    assert_eq!(out, sent);
                } else {
                    assert_eq!(stepped, Err(11));
                    assert!(room < sent.len() && out.iter().all(|byte| *byte == 0xAA));
                }
            }
        }
        let ended = step(&SETTINGS, &BOOK, after(&[]), NONE, &mut []);
        assert_eq!(ended, Ok(Move::End(Ending::NoOpening)));
    }

    /// Every state that replies can lead to.
    fn states_led_to(settings: &Settings) -> BTreeSet<State> {
        let replies = [
            NONE.to_vec(),
            SC.to_vec(),
            diagnosis(),
            result([0x5F, 1, 3, 2]),
            result([0x5F, 1, 15, 1]),
        ];
        let mut found = BTreeSet::from([State::Fresh]);
        let mut open = vec![State::Fresh];
        while let Some(state) = open.pop() {
            for reply in &replies {
                if let Ok((_, then)) = next(settings, state, reply) {
                    if found.insert(then) {
                        open.push(then);
                    }
                }
            }
        }
        found
    }

    /// Every state with numbers somewhat beyond all that are led to.
    fn all_states() -> Vec<State> {
        let mut states = vec![State::Fresh, State::Waiting(Request::Opening)];
        for (template, fcb) in (0..=4).flat_map(|template| [(template, false), (template, true)]) {
            for repeats in (0..=4).chain([255]) {
                let turn = Turn {
                    template,
                    fcb,
                    repeats,
                };
                states.push(State::Waiting(Request::Write(turn)));
                for left in (0..=5).chain([255]) {
                    states.push(State::Waiting(Request::Poll(turn, left)));
                }
            }
        }
        states
    }

    #[test]
    fn states_that_no_run_leads_to_are_12_and_no_others() {
        for (repeats, polls) in
            (0..=2).flat_map(|repeats| (1..=4).map(move |polls| (repeats, polls)))
        {
            let settings = Settings {
                repeats,
                polls,
                ..SETTINGS
            };
            let led_to = states_led_to(&settings);
            let all = all_states();
            assert!(led_to.iter().all(|state| all.contains(state)));
            for state in all {
                let stepped = step(&settings, &BOOK, state, NONE, &mut [0; ROOM]);
                if led_to.contains(&state) {
                    assert!(stepped.is_ok(), "{settings:?} {state:?}");
                } else {
                    assert_eq!(stepped, Err(12), "{settings:?} {state:?}");
                }
            }
        }
    }
}

//! Samples of a controller's states, and of what may come back to it.

use super::service_telegrams::any_valid as any_service;
use super::EXTENSION_FLAG;
use super::{any_valid as any_telegram, changed_and_mended, changed_cut_or_lengthened, closed};
use super::{diagnosis, mostly_up_to, readdressed, sd2_around, short_confirmation, station};
use crate::random::Random;
use crate::reference::book;
use crate::reference::controller::{Request, Settings, State, Turn};
use crate::reference::parameters::Mode;
use crate::reference::telegram::{SD1, SD3};

/// The function code of the printer's data.
const DATA_REPLY: u8 = 0x08;
/// The SAPs of its diagnosis and of its DPV1 answers.
const DIAGNOSIS_SAPS: [u8; 2] = [62, 60];
const DPV1_SAPS: [u8; 2] = [51, 51];

/// Any state, mostly one that a download of so many templates leads to.
pub fn any_state(random: &mut Random, settings: &Settings, count: usize) -> State {
    let turn = Turn {
        template: match random.below(16) {
            0 => random.byte(),
            1 => *random.pick(&[0, count as u8 + 1]),
            _ => random.between(1, count) as u8,
        },
        fcb: random.below(2) == 0,
        repeats: mostly_up_to(random, settings.repeats),
    };
    match random.below(8) {
        0 => State::Fresh,
        1 => State::Waiting(Request::Opening),
        2..=4 => State::Waiting(Request::Write(turn)),
        _ => {
            let left = mostly_up_to(random, settings.polls - 1);
            State::Waiting(Request::Poll(turn, left))
        }
    }
}

/// What may come back to a controller: mostly what its printer sends in this
/// state; else nothing, that damaged, of other stations or out of place, and any
/// other telegram. The book is a right one.
pub fn any_reply(random: &mut Random, settings: &Settings, book: &[u8], state: State) -> Vec<u8> {
    match random.below(16) {
        0 | 1 => Vec::new(),
        2 => {
            let reply = any_of_printer(random, settings, book, state);
            changed_cut_or_lengthened(random, &reply)
        }
        3 => {
            let reply = any_data(random, settings, book, state);
            changed_and_mended(random, &reply)
        }
        4 => {
            let reply = any_data(random, settings, book, state);
            of_other_stations(random, reply, settings)
        }
        5 => {
            let bytes = any_service(random, Mode::Dpv1);
            readdressed(bytes, [settings.controller, settings.printer])
        }
        6 => any_telegram(random),
        7 => any_of_printer(random, settings, book, state),
        _ => in_its_place(random, settings, book, state),
    }
}

/// The printer's reply to the state's request, often SC to a poll and now and
/// then that its write was refused.
pub fn in_its_place(
    random: &mut Random,
    settings: &Settings,
    book: &[u8],
    state: State,
) -> Vec<u8> {
    match state {
        State::Fresh => Vec::new(),
        State::Waiting(Request::Opening) => diagnosis_reply(random, settings),
        State::Waiting(Request::Write(_)) => short_confirmation(),
        State::Waiting(Request::Poll(turn, _)) => match random.below(16) {
            0 => refused_reply(random, settings),
            1..=9 => written_reply(settings, book, turn.template),
            _ => short_confirmation(),
        },
    }
}

/// Data from the printer that is set to the controller that is set.
pub fn data_reply(settings: &Settings, saps: [u8; 2], data: &[u8]) -> Vec<u8> {
    sd2_around(&reply_body(settings, saps, data))
}

/// The same, DA through the last data byte.
fn reply_body(settings: &Settings, saps: [u8; 2], data: &[u8]) -> Vec<u8> {
    let stations = [settings.controller, settings.printer];
    let stations = stations.map(|station| station | EXTENSION_FLAG);
    [&stations[..], &[DATA_REPLY], &saps, data].concat()
}

fn diagnosis_reply(random: &mut Random, settings: &Settings) -> Vec<u8> {
    let data = diagnosis::any_valid(random);
    data_reply(settings, DIAGNOSIS_SAPS, &data)
}

/// A diagnosis in the format that a printer does not use.
fn diagnosis_in_sd3(settings: &Settings) -> Vec<u8> {
    let body = reply_body(settings, DIAGNOSIS_SAPS, &[0, 4, 0, 255, 0, 1]);
    closed(vec![SD3], &body)
}

/// That a template was written; of one that the book has not, any.
fn written_reply(settings: &Settings, book: &[u8], template: u8) -> Vec<u8> {
    let written = book::template(book, template.into());
    let [slot, length] = written.map_or([1; 2], |one| [one.slot, one.body.len() as u8]);
    data_reply(settings, DPV1_SAPS, &[0x5F, 1, slot, length])
}

/// That a write was refused, often with the codes of slot seven.
fn refused_reply(random: &mut Random, settings: &Settings) -> Vec<u8> {
    let decode = *random.pick(&[128, 254, 255]);
    let codes = match random.below(2) {
        0 => [0xB6, 0x00],
        _ => [0xB0 | random.below(16) as u8, random.byte()],
    };
    let [code1, code2] = codes;
    data_reply(settings, DPV1_SAPS, &[0xDF, decode, code1, code2])
}

fn bare_reply(random: &mut Random, settings: &Settings) -> Vec<u8> {
    let function = random.below(4) as u8;
    closed(
        vec![SD1],
        &[settings.controller, settings.printer, function],
    )
}

/// That some template was written or refused, or a diagnosis.
fn any_data(random: &mut Random, settings: &Settings, book: &[u8], state: State) -> Vec<u8> {
    let template = match state {
        State::Waiting(Request::Write(turn) | Request::Poll(turn, _)) => turn.template,
        State::Fresh | State::Waiting(Request::Opening) => 1,
    };
    match random.below(8) {
        0 => diagnosis_in_sd3(settings),
        1 | 2 => diagnosis_reply(random, settings),
        3 | 4 => refused_reply(random, settings),
        5 => written_reply(settings, book, template.wrapping_add(1)),
        _ => written_reply(settings, book, template),
    }
}

/// Any reply of a printer, whatever was asked.
fn any_of_printer(random: &mut Random, settings: &Settings, book: &[u8], state: State) -> Vec<u8> {
    match random.below(4) {
        0 => short_confirmation(),
        1 => bare_reply(random, settings),
        _ => any_data(random, settings, book, state),
    }
}

/// The frame from another station, to another one, or both.
fn of_other_stations(random: &mut Random, frame: Vec<u8>, settings: &Settings) -> Vec<u8> {
    let (da, sa) = (settings.controller, settings.printer);
    let (other_da, other_sa) = (station(random), station(random));
    let stations = [[other_da, sa], [da, other_sa], [other_da, other_sa]];
    readdressed(frame, *random.pick(&stations))
}

#[cfg(test)]
mod tests {
    use super::*;
    use crate::reference::controller::{step, Move};
    use crate::samples::{books, downloads};
    use std::collections::BTreeMap;

    fn name(stepped: Result<Move, u8>) -> String {
        match stepped {
            Err(number) => format!("refused {number}"),
            Ok(Move::Send { state, .. }) => match state {
                State::Fresh => "nothing was sent".into(),
                State::Waiting(Request::Opening) => "opening".into(),
                State::Waiting(Request::Write(_)) => "write".into(),
                State::Waiting(Request::Poll(..)) => "poll".into(),
            },
            Ok(Move::End(ending)) => ending.name().into(),
        }
    }

    #[test]
    fn every_move_and_every_ending_comes() {
        let random = &mut Random::new(1);
        let mut names: BTreeMap<String, usize> = BTreeMap::new();
        for _ in 0..20_000 {
            let settings = downloads::any_settings(random);
            let book = books::any_valid(random);
            let state = any_state(random, &settings, book[0].into());
            let reply = any_reply(random, &settings, &book, state);
            let stepped = step(&settings, &book, state, &reply, &mut [0; 255]);
            *names.entry(name(stepped)).or_default() += 1;
        }
        let expected = [
            "done",
            "no answer",
            "no opening",
            "not ready",
            "opening",
            "poll",
            "refused",
            "refused 12",
            "strange reply",
            "write",
        ];
        assert!(names.keys().eq(expected), "{names:?}");
        assert!(names.values().all(|count| *count > 50), "{names:?}");
    }

    #[test]
    fn replies_in_their_place_are_never_strange() {
        let random = &mut Random::new(2);
        for _ in 0..5000 {
            let settings = downloads::any_settings(random);
            let book = books::any_valid(random);
            let state = any_state(random, &settings, book[0].into());
            let reply = in_its_place(random, &settings, &book, state);
            let stepped = name(step(&settings, &book, state, &reply, &mut [0; 255]));
            let wrong = ["strange reply", "no opening", "no answer"];
            assert!(!wrong.contains(&&stepped[..]), "{stepped} {reply:02X?}");
        }
    }
}

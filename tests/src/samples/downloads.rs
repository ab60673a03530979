//! Samples of downloads: settings, a book, a line, and a printer that has often
//! done other work before.

use super::books;
use super::diagnosis;
use super::printers::{any_slots, any_state, MASTERS};
use crate::random::Random;
use crate::reference::controller::Settings;
use crate::reference::download::{Plan, REPLY_LOST, REQUEST_LOST, THROUGH};
use crate::reference::printer::{Printer, Slots, BUFFER_ROOM};

/// The highest address of a station.
const LAST_STATION: usize = 126;
/// The most that a line loses, in percent.
const MOST_LOSS: usize = 90;
/// The most entries of a line and numbers of "not yet" answers that no download
/// uses.
const MOST_LEFT_OVER: usize = 4;

/// Everything that a download is given.
#[derive(Clone, Debug, PartialEq, Eq)]
pub struct Scene {
    /// The controller's settings.
    pub settings: Settings,
    /// The book's bytes.
    pub book: Vec<u8>,
    /// The line's entries.
    pub line: Vec<u8>,
    /// The number of "not yet" answers for each write.
    pub not_yet: Vec<u8>,
    /// The printer's diagnosis.
    pub diagnosis: Vec<u8>,
    /// The printer before it.
    pub printer: Printer,
    /// Its slots before it.
    pub slots: Slots,
    /// The reply buffer before it, with the held reply at its front.
    pub reply: [u8; BUFFER_ROOM],
}

impl Scene {
    /// What is given but for the printer, its slots and the buffers.
    pub fn plan(&self) -> Plan<'_> {
        Plan {
            settings: self.settings,
            book: &self.book,
            line: &self.line,
            not_yet: &self.not_yet,
            diagnosis: &self.diagnosis,
        }
    }

    /// How many templates the book has.
    pub fn count(&self) -> usize {
        usize::from(self.book[0])
    }

    /// The same download to the printer as other work left it, which changes
    /// neither its address nor whether it is boarding.
    pub fn after(self, left: Printer, slots: Slots, reply: [u8; BUFFER_ROOM]) -> Self {
        let Printer {
            address, boarding, ..
        } = self.printer;
        Scene {
            printer: Printer {
                address,
                boarding,
                ..left
            },
            slots,
            reply,
            ..self
        }
    }
}

/// The settings of document 01's download, to the printer 7 from the controller 2.
pub const WORKED_SETTINGS: Settings = Settings {
    repeats: 1,
    polls: 2,
    printer: 7,
    controller: 2,
};

/// Document 01's download, to a printer 7 that has heard nothing and has no
/// templates.
pub fn worked() -> Scene {
    Scene {
        settings: WORKED_SETTINGS,
        book: books::WORKED_BOOK.to_vec(),
        line: vec![THROUGH, REQUEST_LOST, THROUGH, THROUGH, REPLY_LOST, THROUGH],
        not_yet: vec![1],
        diagnosis: diagnosis::WORKED_ROW.to_vec(),
        printer: Printer::fresh(7, false),
        slots: Slots::empty(),
        reply: [0; BUFFER_ROOM],
    }
}

/// Document 01's download to a printer that is boarding.
pub fn worked_while_boarding() -> Scene {
    let mut scene = worked();
    scene.printer.boarding = true;
    scene
}

/// Document 01's download along every line that is as long as its bound, with
/// each number of "not yet" answers from 0 to 3, boarding and not.
pub fn worked_on_every_line() -> impl Iterator<Item = Scene> {
    let scene = worked();
    let length = bound(&scene.settings, scene.count()) as u32;
    let lines = (0..3_usize.pow(length)).map(move |number| {
        let digits = (0..length).map(|place| (number / 3_usize.pow(place) % 3) as u8);
        digits.collect::<Vec<u8>>()
    });
    let printers = (0..4).flat_map(|not_yet| [(not_yet, false), (not_yet, true)]);
    lines.flat_map(move |line| {
        let scene = Scene {
            line,
            ..scene.clone()
        };
        printers.clone().map(move |(not_yet, boarding)| Scene {
            not_yet: vec![not_yet],
            printer: Printer::fresh(scene.printer.address, boarding),
            ..scene.clone()
        })
    })
}

/// Any download that is not refused. Some go to another station than the
/// printer is.
pub fn any_scene(random: &mut Random) -> Scene {
    let settings = any_settings(random);
    let book = books::any_valid(random);
    any_scene_of(random, settings, book)
}

/// Any such download of this book with these settings.
pub fn any_scene_of(random: &mut Random, settings: Settings, book: Vec<u8>) -> Scene {
    let address = match random.below(16) {
        0 => random.between(0, LAST_STATION) as u8,
        _ => settings.printer,
    };
    let mut reply = [0; BUFFER_ROOM];
    random.fill(&mut reply);
    Scene {
        settings,
        line: any_line(random, bound(&settings, book[0].into())),
        not_yet: any_not_yet(random, book[0].into(), settings.polls),
        book,
        diagnosis: diagnosis::any_valid(random),
        printer: any_state(random, address),
        slots: any_slots(random),
        reply,
    }
}

/// Makes one download.
pub type Make = fn(&mut Random) -> Scene;

/// Downloads with settings, a book or a line that is wrong, but for a book that
/// the damage left right.
pub const WRONG: [(&str, Make); 3] = [
    ("settings wrong", |random| Scene {
        settings: any_wrong_settings(random),
        ..any_scene(random)
    }),
    ("book damaged", |random| Scene {
        book: books::damaged(random),
        ..any_scene(random)
    }),
    ("line entry wrong", |random| {
        let mut scene = any_scene(random);
        let entry = random.between(usize::from(REPLY_LOST) + 1, 255) as u8;
        let place = random.between(0, scene.line.len());
        scene.line.insert(place, entry);
        scene
    }),
];

/// The most sendings that a download of so many templates can take.
pub fn bound(settings: &Settings, count: usize) -> usize {
    let sendings_of_each = usize::from(settings.repeats) + 1;
    let requests_of_each = usize::from(settings.polls) + 1;
    1 + count * sendings_of_each * requests_of_each
}

/// Settings in range; the controller is often one that printers remember.
pub fn any_settings(random: &mut Random) -> Settings {
    let printer = random.between(0, LAST_STATION) as u8;
    let controller = match random.below(2) {
        0 => *random.pick(&MASTERS),
        _ => random.between(0, LAST_STATION) as u8,
    };
    if printer == controller {
        return any_settings(random);
    }
    Settings {
        repeats: random.between(0, 7) as u8,
        polls: random.between(1, 31) as u8,
        printer,
        controller,
    }
}

/// Settings of which one is out of range, or both addresses the same.
pub fn any_wrong_settings(random: &mut Random) -> Settings {
    let mut settings = any_settings(random);
    let mut above = |limit: usize| random.between(limit + 1, 255) as u8;
    let (repeats, polls, address) = (above(7), above(31), above(LAST_STATION));
    match random.below(6) {
        0 => settings.repeats = repeats,
        1 => settings.polls = polls,
        2 => settings.polls = 0,
        3 => settings.printer = address,
        4 => settings.controller = address,
        _ => settings.controller = settings.printer,
    }
    settings
}

/// A line that loses 0 to 90 percent and has entries for all sendings, for fewer
/// or for some more. Its first entry often goes through, without which there is
/// nothing to see of the others.
fn any_line(random: &mut Random, bound: usize) -> Vec<u8> {
    let loss = random.between(0, MOST_LOSS);
    let length = random.between(0, bound + MOST_LEFT_OVER);
    let mut line: Vec<u8> = (0..length)
        .map(|_| match random.below(100) < loss {
            true => *random.pick(&[REQUEST_LOST, REPLY_LOST]),
            false => THROUGH,
        })
        .collect();
    if let Some(first) = line.first_mut() {
        *first *= random.below(2) as u8;
    }
    line
}

/// As many numbers as there are templates, fewer or some more, every second time
/// all below P.
fn any_not_yet(random: &mut Random, count: usize, polls: u8) -> Vec<u8> {
    let length = random.between(0, count + MOST_LEFT_OVER);
    let are_all_below = random.below(2) == 0;
    (0..length)
        .map(|_| match random.below(8) {
            0 if !are_all_below => polls,
            1 if !are_all_below => random.between(polls.into(), 255) as u8,
            2 => polls - 1,
            _ => random.below(polls.into()) as u8,
        })
        .collect()
}

#[cfg(test)]
mod tests {
    use super::*;
    use std::collections::BTreeSet;

    #[test]
    fn scenes_have_every_setting_count_and_loss() {
        let random = &mut Random::new(1);
        let mut repeats = BTreeSet::new();
        let mut polls = BTreeSet::new();
        let mut counts = BTreeSet::new();
        let mut losses = BTreeSet::new();
        let mut own_addresses = BTreeSet::new();
        for _ in 0..5000 {
            let scene = any_scene(random);
            let settings = scene.settings;
            repeats.insert(settings.repeats);
            polls.insert(settings.polls);
            counts.insert(scene.count());
            own_addresses.insert(scene.printer.address == settings.printer);
            let lost = scene.line.iter().filter(|entry| **entry != THROUGH);
            if scene.line.len() > 100 {
                losses.insert(lost.count() * 10 / scene.line.len());
            }
        }
        assert_eq!(repeats, (0..=7).collect());
        assert_eq!(polls, (1..=31).collect());
        assert_eq!(counts, (1..=16).collect());
        assert_eq!(losses, (0..=9).collect());
        assert_eq!(own_addresses, BTreeSet::from([false, true]));
    }
}

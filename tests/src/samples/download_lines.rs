//! Lines of the vectors that are whole downloads, to a fresh printer without
//! templates: right ones, refused ones and ones that make no download.

use super::downloads::{any_scene, any_scene_of, any_settings, Make, Scene, WRONG};
use super::downloads::{worked, worked_while_boarding};
use super::services::Source;
use super::{books, cut_short, group, Group};
use crate::random::Random;
use crate::reference::controller::Settings;
use crate::reference::download::{REPLY_LOST, REQUEST_LOST, THROUGH};
use std::iter;

/// The most bytes of a book of the vectors' downloads.
const SHORT_BOOK: usize = 24;
/// The most entries of a line, and the most "not yet" numbers.
const MOST_COUNTED: usize = 255;
/// Where a line says whether the printer is boarding.
const BOARDING: usize = 5;

/// What the answers to all of them begin with, and what that is. Nobody but the
/// printer answers, so that a strange reply never comes.
pub const OUTCOMES: [(&str, &str); 10] = [
    ("0 1", "done"),
    ("0 2", "no opening"),
    ("0 3", "no answer"),
    ("0 4", "not ready"),
    ("0 5", "refused by the printer"),
    ("1", "refused 1"),
    ("4", "refused 4"),
    ("12", "refused 12"),
    ("32", "refused 32"),
    ("malformed", "malformed"),
];

/// Which of the outcomes an answer is.
pub fn outcome_of(answer: &str) -> Option<&'static str> {
    let first: Vec<&str> = answer.split(' ').take(2).collect();
    let first = first.join(" ");
    let mut outcomes = OUTCOMES.into_iter();
    outcomes.find_map(|(begin, outcome)| (begin == first).then_some(outcome))
}

/// The bytes of a download's line, of whose printer they have no more than its
/// address and whether it is boarding.
pub fn bytes(scene: &Scene) -> Vec<u8> {
    let settings = scene.settings;
    let mut bytes = vec![
        settings.printer,
        settings.controller,
        settings.repeats,
        settings.polls,
        scene.printer.address,
        scene.printer.boarding.into(),
    ];
    for part in [&scene.line, &scene.not_yet] {
        bytes.push(u8::try_from(part.len()).expect("the count is one byte"));
        bytes.extend(part);
    }
    bytes.extend(&scene.book);
    bytes
}

/// The longest download: as many entries and "not yet" numbers as a line can
/// count, and the longest book.
pub fn longest(random: &mut Random) -> Vec<u8> {
    let mut scene = worked();
    scene.line = vec![THROUGH; MOST_COUNTED];
    scene.not_yet = vec![1; MOST_COUNTED];
    let books = books::all_forms(random).into_iter();
    scene.book = books.max_by_key(Vec::len).expect("there are some");
    bytes(&scene)
}

/// The kinds of lines.
pub fn kinds() -> Vec<Source> {
    let mut kinds = vec![
        Source::new("right", any_right),
        Source::new("own address wrong", |random| {
            let mut scene = countable(random, any_scene);
            scene.printer.address = random.between(127, 255) as u8;
            bytes(&scene)
        }),
        Source::new("boarding above 1", |random| {
            let mut bytes = any_right(random);
            bytes[BOARDING] = random.between(2, 255) as u8;
            bytes
        }),
        Source::new("cut", |random| {
            let bytes = any_right(random);
            cut_short(random, &bytes)
        }),
    ];
    kinds.extend(
        WRONG.map(|(name, make)| Source::new(name, move |random| bytes(&countable(random, make)))),
    );
    kinds
}

/// Any download that is not refused.
pub fn any_right(random: &mut Random) -> Vec<u8> {
    bytes(&countable(random, any_scene))
}

/// A download whose line is not too long to be counted by a byte.
fn countable(random: &mut Random, make: Make) -> Scene {
    let mut scenes = iter::repeat_with(|| make(random));
    let scene = scenes.find(|scene| scene.line.len() <= MOST_COUNTED);
    scene.expect("some are short")
}

/// The downloads of the vectors: the same at every call.
pub fn groups() -> Vec<Group> {
    const SEEDED: usize = 30;
    let random = &mut Random::new(2036);
    let of = |scenes: Vec<Scene>| scenes.iter().map(bytes).collect();
    vec![
        group("worked download of document 01", of(vec![worked()])),
        group("the same while boarding", of(vec![worked_while_boarding()])),
        group("the same to another printer", of(vec![to_another()])),
        group("every ending", of(every_ending())),
        group("settings wrong", of(settings_wrong())),
        group("book damaged", of(books_damaged(random))),
        group("line entry wrong", of(entries_wrong())),
        group("own address wrong", of(own_addresses_wrong())),
        group(
            "several wrong, of which the first decides",
            of(several_wrong()),
        ),
        group("malformed", malformed()),
        group(
            "seeded",
            of((0..SEEDED).map(|_| any_short(random)).collect()),
        ),
    ]
}

/// Document 01's download, sent to another station than the printer is.
fn to_another() -> Scene {
    let mut scene = worked();
    scene.printer.address = 8;
    scene
}

/// Downloads of two templates, R 1 and P 2, that end in every way and place; the
/// second template is for slot seven.
fn every_ending() -> Vec<Scene> {
    let lost_behind = |count| [vec![THROUGH; count], vec![REQUEST_LOST, REPLY_LOST]].concat();
    let mut courses = vec![
        (vec![], vec![]),
        (vec![], vec![1, 1]),
        (vec![], vec![2]),
        (vec![], vec![0, 255]),
        (vec![REQUEST_LOST], vec![]),
        (vec![REPLY_LOST], vec![]),
    ];
    // The opening, then a write and a poll for each template.
    courses.extend((1..=4).map(|count| (lost_behind(count), vec![])));
    let mut scenes: Vec<Scene> = courses
        .into_iter()
        .map(|(line, not_yet)| Scene {
            book: vec![2, 3, 2, 7, 1, 0x41, 0x42, 0x43],
            line,
            not_yet,
            ..worked()
        })
        .collect();
    let mut boarding = scenes[0].clone();
    boarding.printer.boarding = true;
    scenes.push(boarding);
    scenes
}

/// Document 01's download with each setting out of range, and with both addresses
/// the same.
fn settings_wrong() -> Vec<Scene> {
    let right = worked().settings;
    let wrong = [
        Settings {
            repeats: 8,
            ..right
        },
        Settings { polls: 0, ..right },
        Settings { polls: 32, ..right },
        Settings {
            printer: 127,
            ..right
        },
        Settings {
            controller: 127,
            ..right
        },
        Settings {
            controller: right.printer,
            ..right
        },
    ];
    let scenes = wrong.map(|settings| Scene {
        settings,
        ..worked()
    });
    scenes.to_vec()
}

/// Document 01's download with a short book of each kind of damage.
fn books_damaged(random: &mut Random) -> Vec<Scene> {
    let scenes = books::DAMAGES.map(|(make, _)| Scene {
        book: short(|| make(random)),
        ..worked()
    });
    scenes.to_vec()
}

/// Document 01's download with a wrong entry of the line, also where no sending
/// uses it.
fn entries_wrong() -> Vec<Scene> {
    let scenes = [(0, 3), (5, 255), (6, 3)].map(|(place, entry)| {
        let mut scene = worked();
        scene.line.insert(place, entry);
        scene
    });
    scenes.to_vec()
}

/// Document 01's download to printers with addresses that no printer has.
fn own_addresses_wrong() -> Vec<Scene> {
    let scenes = [127, 135, 255].map(|address| {
        let mut scene = worked();
        scene.printer.address = address;
        scene
    });
    scenes.to_vec()
}

/// Document 01's download with everything wrong, and with all but its settings.
fn several_wrong() -> Vec<Scene> {
    let mut scene = worked();
    scene.book.push(0);
    scene.line[0] = 3;
    scene.printer.address = 127;
    let mut all = scene.clone();
    all.settings.repeats = 8;
    vec![all, scene]
}

/// Document 01's download cut at every part before the book, and with flags of
/// boarding that are none.
fn malformed() -> Vec<Vec<u8>> {
    let right = bytes(&worked());
    let cut = [0, 5, 6, 9, 13, 14].map(|length| right[..length].to_vec());
    let flags = [2, 255].map(|flag| {
        let mut line = right.clone();
        line[BOARDING] = flag;
        line
    });
    [&cut[..], &flags].concat()
}

/// A download of few short templates, with few repeats and polls.
fn any_short(random: &mut Random) -> Scene {
    let settings = Settings {
        repeats: random.below(3) as u8,
        polls: random.between(1, 4) as u8,
        ..any_settings(random)
    };
    let count = random.between(1, 3);
    let book = short(|| books::fields_of(random, count).bytes());
    any_scene_of(random, settings, book)
}

/// The first book that is short.
fn short(make: impl FnMut() -> Vec<u8>) -> Vec<u8> {
    let mut books = iter::repeat_with(make);
    let book = books.find(|book| book.len() <= SHORT_BOOK);
    book.expect("some are short")
}

#[cfg(test)]
mod tests {
    use super::*;
    use crate::reference::download_text::line;
    use std::collections::BTreeSet;

    fn outcome(bytes: &[u8]) -> &'static str {
        let answer = line(bytes);
        outcome_of(&answer).unwrap_or_else(|| panic!("no outcome: {answer}"))
    }

    fn all_outcomes() -> BTreeSet<&'static str> {
        OUTCOMES.map(|(_, outcome)| outcome).into()
    }

    #[test]
    fn kinds_come_to_every_outcome() {
        let random = &mut Random::new(1);
        let mut outcomes = BTreeSet::new();
        for kind in kinds() {
            let found: BTreeSet<&str> = (0..300).map(|_| outcome(&kind.sample(random))).collect();
            let expected: &[&str] = match kind.name {
                "settings wrong" | "own address wrong" | "line entry wrong" => &["refused 12"],
                "boarding above 1" => &["malformed"],
                _ => &[],
            };
            if !expected.is_empty() {
                assert!(found.iter().eq(expected), "{}: {found:?}", kind.name);
            }
            outcomes.extend(found);
        }
        assert_eq!(outcomes, all_outcomes());
    }

    #[test]
    fn groups_come_to_every_outcome() {
        let groups = groups();
        let lines = groups.iter().flat_map(|group| &group.inputs);
        let outcomes: BTreeSet<&str> = lines.clone().map(|bytes| outcome(bytes)).collect();
        assert_eq!(outcomes, all_outcomes());
        assert!(lines.clone().all(|bytes| bytes.len() <= 100));
        let count = lines.count();
        assert!((60..=80).contains(&count), "{count}");
    }

    fn answers(scenes: &[Scene]) -> Vec<String> {
        scenes.iter().map(|scene| line(&bytes(scene))).collect()
    }

    #[test]
    fn endings_are_at_each_request() {
        let expected = [
            "0 1 0 0 0 5 2 | 3 2 41 42 | 7 1 43",
            "0 1 0 0 0 7 2 | 3 2 41 42 | 7 1 43",
            "0 4 1 0 0 4 1 | 3 2 41 42",
            "0 4 2 0 0 6 2 | 3 2 41 42 | 7 1 43",
            "0 2 0 0 0 1 0",
            "0 2 0 0 0 1 0",
            "0 3 1 0 0 3 1 | 3 2 41 42",
            "0 3 1 0 0 4 1 | 3 2 41 42",
            "0 3 2 0 0 5 2 | 3 2 41 42 | 7 1 43",
            "0 3 2 0 0 6 2 | 3 2 41 42 | 7 1 43",
            "0 5 2 182 0 5 2 | 3 2 41 42",
        ];
        assert_eq!(answers(&every_ending()), expected);
    }

    #[test]
    fn first_of_several_faults_decides() {
        assert_eq!(answers(&several_wrong()), ["12", "4"]);
    }
}

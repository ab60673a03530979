//! Inputs of the simulate program (`docs/SIMULATE.md`): right ones, refused ones
//! and ones that are cut.

use super::cut_short;
use super::downloads::{any_scene, worked, Scene, WRONG};
use super::services::Source;
use crate::random::Random;
use crate::reference::download::THROUGH;

/// The most bytes that are read.
const MOST_READ: usize = 8192;
/// Where the input says whether the printer is boarding.
const BOARDING: usize = 4;

/// The input for a download. The printer is always a fresh one, with the address
/// that is set.
pub fn input(scene: &Scene) -> Vec<u8> {
    let settings = scene.settings;
    let mut bytes = vec![
        settings.printer,
        settings.controller,
        settings.repeats,
        settings.polls,
        scene.printer.boarding.into(),
    ];
    for part in [&scene.book, &scene.line] {
        let count = u16::try_from(part.len()).expect("the count has two bytes");
        bytes.extend(count.to_be_bytes());
        bytes.extend(part);
    }
    bytes.extend(&scene.not_yet);
    bytes
}

/// Document 01's download with a line that is just read to its end, and with one
/// that has an entry more.
pub fn at_the_limit() -> [Vec<u8>; 2] {
    let mut scene = worked();
    scene.not_yet.clear();
    let used = input(&scene).len() - scene.line.len();
    [MOST_READ, MOST_READ + 1].map(|length| {
        scene.line.resize(length - used, THROUGH);
        input(&scene)
    })
}

/// The kinds of input.
pub fn kinds() -> Vec<Source> {
    let mut kinds = vec![
        Source::new("right", any_right),
        Source::new("boarding above 1", |random| {
            let mut bytes = any_right(random);
            bytes[BOARDING] = random.between(2, 255) as u8;
            bytes
        }),
        Source::new("cut", |random| {
            let bytes = any_right(random);
            cut_short(random, &bytes)
        }),
    ];
    kinds.extend(WRONG.map(|(name, make)| Source::new(name, move |random| input(&make(random)))));
    kinds
}

/// The first words of all endings and refusals that they come to.
pub const ENDINGS: [&str; 9] = [
    "done after",
    "no opening",
    "no answer",
    "not ready",
    "refused at",
    "refused 1",
    "refused 4",
    "refused 12",
    "refused 32",
];

fn any_right(random: &mut Random) -> Vec<u8> {
    let scene = any_scene(random);
    input(&scene)
}

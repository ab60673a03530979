//! Fields to write, right and wrong, as lines of the vectors.

use super::services::{LONGEST_BOOK_LINE, LONGEST_LINE};
use super::{acyclic_fields, books, configuration, control, diagnosis, parameters, typed};
use super::{group, often_up_to, Group};
use crate::random::Random;
use crate::reference::book;
use crate::reference::configuration::{Identifier, Side};
use crate::reference::parameters::Mode;
use crate::reference::writer_text::Writer;
use std::iter;
use std::ops::RangeInclusive;

/// The most room that a line can give.
const MOST_ROOM: usize = 255;
/// The most bytes of a device or module block after its header.
const MOST_BLOCK_DATA: usize = 62;

/// The numbers that the writer can refuse with, written out from document 01.
pub fn refusals(writer: Writer) -> &'static [u8] {
    match writer {
        Writer::Diagnosis => &[11, 20, 21, 22, 23, 24, 25],
        Writer::DeviceBlock | Writer::ModuleBlock => &[11, 21, 23],
        Writer::ChannelBlock => &[11, 21, 25],
        Writer::Module => &[11, 20, 21, 26],
        Writer::Configuration => &[11, 20, 24, 26, 27],
        Writer::Parameters(_) | Writer::SetSlaveAdr | Writer::GlobalControl | Writer::Dpv1Call => {
            &[11, 20, 21]
        }
        Writer::Dpv1Answer => &[11, 20, 21, 28],
        Writer::TypedValue => &[11, 12],
        Writer::Book => &[11, 32],
    }
}

/// A line of fields and mostly enough room: about half are accepted, most others
/// are wrong in one place and some in several.
pub fn line(random: &mut Random, writer: Writer) -> Vec<u8> {
    let mut fields = match random.below(16) {
        0..=8 => right(random, writer),
        9..=13 => wrong(random, writer),
        _ => wrong_in_several_places(random, writer),
    };
    fields.truncate(longest_line(writer) - 1);
    let room = room(random, to_be_stored(writer, &fields));
    [&[room], &fields[..]].concat()
}

/// The most bytes of a line of the writer.
fn longest_line(writer: Writer) -> usize {
    match writer {
        Writer::Book => LONGEST_BOOK_LINE,
        _ => LONGEST_LINE,
    }
}

/// A line whose bytes do not make fields.
pub fn malformed(random: &mut Random, writer: Writer) -> Vec<u8> {
    let mut line = line(random, writer);
    let takes_no_more = matches!(writer, Writer::ChannelBlock | Writer::TypedValue);
    match random.below(3) {
        0 if !choices(writer).is_empty() => spoil_choice(random, writer, &mut line[1..]),
        1 if takes_no_more => {
            line.truncate(1 + fewest(writer));
            let surplus = random.between(1, 20);
            line.extend(random.bytes(surplus));
        }
        1 if writer == Writer::Book => {
            // Cut among the slots or the lengths.
            let slots = usize::from(line[1]);
            let lengths = usize::from(line[2 + slots]);
            line.truncate(random.between(0, 2 + slots + lengths));
        }
        _ => line.truncate(random.between(0, fewest(writer))),
    }
    line
}

/// Gives fields that have a choice a byte that is none of those to choose from.
fn spoil_choice(random: &mut Random, writer: Writer, fields: &mut [u8]) {
    if writer == Writer::TypedValue && random.below(2) == 0 {
        // The last byte is a flag, but only of a Boolean.
        fields[0] = 1;
        fields[4] = random.between(2, 255) as u8;
        return;
    }
    let (place, known) = random.pick(choices(writer));
    let (least, most) = known.clone().into_inner();
    fields[*place] = match least.checked_sub(1) {
        Some(below) if random.below(2) == 0 => below,
        _ => random.between(usize::from(most) + 1, 255) as u8,
    };
}

/// How many bytes the fields have without what is lent after them.
fn fewest(writer: Writer) -> usize {
    match writer {
        Writer::Diagnosis => 6,
        Writer::DeviceBlock | Writer::ModuleBlock | Writer::Configuration => 0,
        Writer::ChannelBlock => 5,
        Writer::Parameters(Mode::Dpv0) => 7,
        Writer::Parameters(Mode::Dpv1) => 10,
        Writer::Module => 9,
        Writer::SetSlaveAdr | Writer::Dpv1Call | Writer::Dpv1Answer => 4,
        Writer::GlobalControl | Writer::Book => 2,
        Writer::TypedValue => 5,
    }
}

/// The places among the fields at which a flag, a kind or a code stands, and the
/// bytes that can stand there.
fn choices(writer: Writer) -> &'static [(usize, RangeInclusive<u8>)] {
    match writer {
        Writer::Module => &[
            (0, 0..=1),
            (1, 0..=1),
            (3, 0..=1),
            (4, 0..=1),
            (5, 0..=1),
            (7, 0..=1),
            (8, 0..=1),
        ],
        Writer::Dpv1Call => &[(0, 0..=5)],
        Writer::Dpv1Answer | Writer::TypedValue => &[(0, 1..=9)],
        _ => &[],
    }
}

/// Those places, and any other whose few right bytes must all be accepted.
fn few_right_bytes(writer: Writer) -> &'static [(usize, RangeInclusive<u8>)] {
    match writer {
        // The lock: a wrong one is refused, and the fields are fields.
        Writer::SetSlaveAdr => &[(3, 0..=1)],
        _ => choices(writer),
    }
}

/// How many bytes there are to be stored for the fields, when they are right.
fn to_be_stored(writer: Writer, fields: &[u8]) -> usize {
    match (writer, fields) {
        (Writer::DeviceBlock | Writer::ModuleBlock, data) => 1 + data.len(),
        (Writer::ChannelBlock, _) => 3,
        (Writer::Module, [0, ..]) => 1,
        (Writer::Module, [_, input, _, _, _, output, _, _, _, vendor @ ..]) => {
            1 + usize::from(*input) + usize::from(*output) + vendor.len()
        }
        // A poll has no bytes, and idle has only its number.
        (Writer::Dpv1Call, [0, ..]) => 0,
        (Writer::Dpv1Call | Writer::Dpv1Answer, [4, ..]) => 1,
        (Writer::TypedValue, [1 | 2 | 5, ..]) => 2,
        (Writer::TypedValue, [3 | 6, ..]) => 3,
        // There is one count instead of two.
        (Writer::Book, bytes) => bytes.len() - 1,
        // The kind takes the place of the number, and other fields their own.
        (_, bytes) => bytes.len(),
    }
}

/// Mostly enough room, every fourth time of these just enough; else one byte too
/// little or none.
fn room(random: &mut Random, to_be_stored: usize) -> u8 {
    let enough = to_be_stored.min(MOST_ROOM);
    let room = match random.below(16) {
        0 => 0,
        1 | 2 => enough.saturating_sub(1),
        3..=5 => enough,
        _ => random.between(enough, MOST_ROOM),
    };
    room as u8
}

/// Fields that are right, those of a channel, of a module and of DPV1 mostly.
fn right(random: &mut Random, writer: Writer) -> Vec<u8> {
    match writer {
        Writer::Diagnosis => diagnosis::any_valid(random),
        Writer::DeviceBlock | Writer::ModuleBlock => {
            let length = often_up_to(random, 1, 4, MOST_BLOCK_DATA);
            random.bytes(length)
        }
        Writer::ChannelBlock => right_channel(random).to_vec(),
        Writer::Parameters(mode) => parameters::any_valid(random, mode),
        Writer::Module => module(random),
        Writer::Configuration => configuration::any_valid(random).bytes,
        Writer::SetSlaveAdr => control::set_slave_adr(random),
        Writer::GlobalControl => control::global_control(random),
        Writer::Dpv1Call => acyclic_fields::call_line(random),
        Writer::Dpv1Answer => acyclic_fields::answer_line(random),
        Writer::TypedValue => {
            let value = typed::right_value(random);
            typed::value_line(random, value)
        }
        Writer::Book => right_book(random),
    }
}

/// Fields that are wrong in one place, and some that are right by chance.
fn wrong(random: &mut Random, writer: Writer) -> Vec<u8> {
    let samples = iter::repeat_with(|| match writer {
        Writer::Diagnosis => diagnosis::damaged(random),
        Writer::DeviceBlock | Writer::ModuleBlock => wrong_block_data(random),
        Writer::ChannelBlock => any_channel(random).to_vec(),
        Writer::Parameters(mode) => parameters::damaged(random, mode),
        Writer::Module => module(random),
        Writer::Configuration => configuration::damaged(random),
        Writer::SetSlaveAdr => control::damaged_set_slave_adr(random),
        Writer::GlobalControl => control::damaged_global_control(random),
        Writer::Dpv1Call => acyclic_fields::call_line(random),
        Writer::Dpv1Answer => acyclic_fields::answer_line(random),
        Writer::TypedValue => {
            let value = typed::wrong_value(random);
            typed::value_line(random, value)
        }
        Writer::Book => wrong_book(random),
    });
    // Damaged data need not make fields any more.
    let mut fields = samples.filter(|bytes| {
        let mut choices = choices(writer).iter();
        bytes.len() >= fewest(writer)
            && choices.all(|(place, known)| known.contains(&bytes[*place]))
    });
    fields.next().expect("they never end")
}

/// Wrong fields with what other wrong fields have after them, or with more of
/// their own made wrong.
fn wrong_in_several_places(random: &mut Random, writer: Writer) -> Vec<u8> {
    let mut fields = wrong(random, writer);
    match writer {
        // Often wrong in several places already.
        Writer::ChannelBlock => {}
        // Nothing else can be wrong.
        Writer::TypedValue => {}
        // The bodies too.
        Writer::Book => fields.extend(random.bytes(3)),
        Writer::Module => spoil_module(random, &mut fields),
        // Both of its bytes that can be wrong.
        Writer::SetSlaveAdr if random.below(2) == 0 => {
            fields[0] = *random.pick(&[126, 255]);
            fields[3] = *random.pick(&[2, 3, 128, 255]);
        }
        Writer::SetSlaveAdr | Writer::GlobalControl | Writer::Dpv1Call | Writer::Dpv1Answer => {
            let count = often_up_to(random, 1, 3, LONGEST_LINE);
            fields.extend(random.bytes(count));
        }
        _ => {
            fields.truncate(fewest(writer));
            for _ in 0..2 {
                fields.extend(&wrong(random, writer)[fewest(writer)..]);
            }
        }
    }
    fields
}

/// Data for a device or module block: none, or too much.
fn wrong_block_data(random: &mut Random) -> Vec<u8> {
    let length = match random.below(4) {
        0 => 0,
        _ => often_up_to(
            random,
            MOST_BLOCK_DATA + 1,
            MOST_BLOCK_DATA + 3,
            LONGEST_LINE,
        ),
    };
    random.bytes(length)
}

fn right_channel(random: &mut Random) -> [u8; 5] {
    [
        random.below(64) as u8,
        random.between(1, 3) as u8,
        random.below(64) as u8,
        random.between(1, 6) as u8,
        *random.pick(&diagnosis::ERRORS),
    ]
}

fn any_channel(random: &mut Random) -> [u8; 5] {
    let channel = diagnosis::any_channel(random);
    [
        channel.module,
        channel.direction,
        channel.channel,
        channel.kind,
        channel.error,
    ]
}

/// The fields of a module, mostly right.
fn module(random: &mut Random) -> Vec<u8> {
    let lent = random.bytes(300);
    let module = configuration::any_fields(random, &lent);
    let identifier = match module.identifier {
        Identifier::General => 0,
        Identifier::Special => 1,
    };
    let input = side(random, module.input);
    let output = side(random, module.output);
    [&[identifier], &input[..], &output, module.vendor].concat()
}

/// The fields of a side; what an absent one has is any, but for the flags.
fn side(random: &mut Random, side: Option<Side>) -> [u8; 4] {
    match side {
        Some(side) => [
            1,
            side.units,
            u8::from(side.words),
            u8::from(side.consistent),
        ],
        None => {
            let flag = |random: &mut Random| random.below(2) as u8;
            [0, random.byte(), flag(random), flag(random)]
        }
    }
}

/// Gives a module units that are too few or too many on both sides, and vendor
/// bytes that are too many: any are for a general one.
fn spoil_module(random: &mut Random, fields: &mut Vec<u8>) {
    for place in [2, 6] {
        fields[place] = *random.pick(&[0, 65, 128, 255]);
    }
    let count = match fields[0] {
        0 => often_up_to(random, 1, 3, 300),
        _ => often_up_to(random, 15, 17, 300),
    };
    fields.truncate(fewest(Writer::Module));
    fields.extend(random.bytes(count));
}

/// The fields of a right book for which there can be room.
fn right_book(random: &mut Random) -> Vec<u8> {
    let any = iter::repeat_with(|| books::any_fields_that_are_right(random));
    let mut small = any.filter(|fields| fields.bytes().len() <= MOST_ROOM);
    book_line(&small.next().expect("they never end"))
}

/// The fields of a wrong book, with counts that are a byte each.
fn wrong_book(random: &mut Random) -> Vec<u8> {
    let any = iter::repeat_with(|| books::any_fields(random));
    let mut wrong = any.filter(|fields| {
        let out = &mut [0; books::LONGEST];
        let counts = [fields.slots.len(), fields.lengths.len()];
        counts.iter().all(|count| *count < 256)
            && book::write(&fields.slots, &fields.lengths, &fields.bodies, out).is_err()
    });
    book_line(&wrong.next().expect("they never end"))
}

fn book_line(fields: &books::Fields) -> Vec<u8> {
    let books::Fields {
        slots,
        lengths,
        bodies,
    } = fields;
    let (slot_count, length_count) = (slots.len() as u8, lengths.len() as u8);
    [&[slot_count], &slots[..], &[length_count], lengths, bodies].concat()
}

/// The fields of the vectors: the same at every call.
pub fn groups() -> Vec<(Writer, Group)> {
    let random = &mut Random::new(2029);
    let mut groups = Vec::new();
    for writer in Writer::ALL {
        let of_writer = groups_of(random, writer).into_iter();
        groups.extend(of_writer.map(|group| (writer, group)));
    }
    groups
}

fn groups_of(random: &mut Random, writer: Writer) -> [Group; 3] {
    const OF_EACH_NUMBER: usize = 2;
    let accepted = accepted(random, writer);
    let mut refused = Vec::new();
    for number in refusals(writer) {
        refused.extend(answered(random, writer, *number, OF_EACH_NUMBER));
    }
    // Where there are no fields, only the line without bytes is malformed.
    let count = if fewest(writer) == 0 { 1 } else { 5 };
    let no_fields = (0..count).map(|_| malformed(random, writer)).collect();
    [
        group("accepted", accepted),
        group("refused", refused),
        group("malformed", no_fields),
    ]
}

/// A few lines that are accepted, among them each flag, kind and code.
fn accepted(random: &mut Random, writer: Writer) -> Vec<Vec<u8>> {
    const FEW: usize = 8;
    let mut lines = answered(random, writer, 0, FEW);
    for (place, known) in few_right_bytes(writer) {
        for byte in known.clone() {
            let has_byte = |line: &Vec<u8>| line[1 + place] == byte;
            if !lines.iter().any(has_byte) {
                let mut more = iter::repeat_with(|| answered(random, writer, 0, 1)).flatten();
                lines.extend(more.find(has_byte));
            }
        }
    }
    lines
}

/// Lines whose answers begin with the number; they are short, unless they are
/// refused for their length.
fn answered(random: &mut Random, writer: Writer, number: u8, count: usize) -> Vec<Vec<u8>> {
    const SHORT: usize = 80;
    let lines = iter::repeat_with(|| line(random, writer));
    let short = lines.filter(|line| line.len() <= SHORT || number == 20);
    let answered = short.filter(|line| first_number(writer, line) == Some(number));
    answered.take(count).collect()
}

/// The number that an answer line begins with, if it does.
fn first_number(writer: Writer, line: &[u8]) -> Option<u8> {
    writer.answer(line).split(' ').next()?.parse().ok()
}

#[cfg(test)]
mod tests {
    use super::*;
    use crate::reference::writer_text::MALFORMED;
    use std::collections::{BTreeMap, BTreeSet};

    /// The numbers of the writer and 0.
    fn all_numbers(writer: Writer) -> BTreeSet<u8> {
        let refusals = refusals(writer).iter().copied();
        refusals.chain([0]).collect()
    }

    #[test]
    fn lines_reach_every_number_often_and_no_other() {
        const LINES: usize = 10_000;
        let random = &mut Random::new(1);
        for writer in Writer::ALL {
            let mut counts: BTreeMap<u8, usize> = BTreeMap::new();
            for _ in 0..LINES {
                let line = line(random, writer);
                assert!(line.len() <= longest_line(writer), "{writer:?} {line:02X?}");
                let number = first_number(writer, &line).expect("fields");
                *counts.entry(number).or_default() += 1;
            }
            let numbers: BTreeSet<u8> = counts.keys().copied().collect();
            assert_eq!(numbers, all_numbers(writer), "{writer:?}");
            let accepted = counts[&0];
            let about_half = LINES * 4 / 10..=LINES * 6 / 10;
            assert!(about_half.contains(&accepted), "{writer:?} {counts:?}");
            let rarest = *counts.values().min().expect("some");
            assert!(rarest >= LINES / 50, "{writer:?} {counts:?}");
        }
    }

    #[test]
    fn room_is_enough_or_not_in_every_way() {
        let random = &mut Random::new(2);
        for to_be_stored in [2, 17, 244, 254] {
            let rooms: Vec<u8> = (0..2000).map(|_| room(random, to_be_stored)).collect();
            for wanted in [0, to_be_stored - 1, to_be_stored, to_be_stored + 1] {
                let count = rooms.iter().filter(|room| usize::from(**room) == wanted);
                assert!(count.count() > 0, "{to_be_stored}: {wanted}");
            }
            let enough = rooms
                .iter()
                .filter(|room| usize::from(**room) >= to_be_stored);
            assert!((1500..1750).contains(&enough.count()), "{to_be_stored}");
        }
        assert!((0..100).all(|_| [0, 254, 255].contains(&room(random, 300))));
    }

    /// Room that is just enough is accepted, and one byte less is not.
    #[test]
    fn what_is_to_be_stored_is_stored() {
        let random = &mut Random::new(3);
        for writer in Writer::ALL {
            for _ in 0..2000 {
                let mut line = line(random, writer);
                line[0] = 255;
                let number = first_number(writer, &line).expect("fields");
                assert_ne!(number, 11, "{writer:?} {line:02X?}");
                if number != 0 {
                    continue;
                }
                line[0] = to_be_stored(writer, &line[1..]) as u8;
                assert_eq!(first_number(writer, &line), Some(0), "{line:02X?}");
                // A poll needs no room.
                if line[0] > 0 {
                    line[0] -= 1;
                    assert_eq!(first_number(writer, &line), Some(11), "{line:02X?}");
                }
            }
        }
    }

    #[test]
    fn every_kind_and_code_is_accepted_and_refused() {
        let random = &mut Random::new(6);
        for (writer, accepted, refused) in [
            (Writer::Dpv1Call, 0..=5, 0..=5),
            (Writer::Dpv1Answer, 1..=9, 1..=9),
            (Writer::TypedValue, 1..=9, 1..=9),
        ] {
            let mut found = [BTreeSet::new(), BTreeSet::new()];
            for _ in 0..2000 {
                let line = line(random, writer);
                let number = first_number(writer, &line).expect("fields");
                found[usize::from(number > 0)].insert(line[1]);
            }
            let expected = [accepted.collect(), refused.collect()];
            assert_eq!(found, expected, "{writer:?}");
        }
    }

    fn has_wrong_header(line: &[u8]) -> bool {
        let [_, status1, status2, status3, master, ..] = *line else {
            return false;
        };
        let has_master = matches!(master, 0..=125 | 255);
        status1 & 0xA1 != 0 || status2 & 0xC4 != 4 || status3 & 0x7F != 0 || !has_master
    }

    /// Whether a line has two faults that get different numbers, by its first bytes
    /// or its length.
    type Faults = fn(&[u8]) -> bool;

    fn check_together<const N: usize>(pairs: [(Writer, Faults); N]) {
        let random = &mut Random::new(4);
        for (place, (writer, has_both)) in pairs.into_iter().enumerate() {
            let found = (0..10_000).filter(|_| has_both(&line(random, writer)));
            let count = found.count();
            assert!(count >= 10, "pair {place}, {writer:?}: {count}");
        }
    }

    #[test]
    fn faults_come_together() {
        const DPV0: Writer = Writer::Parameters(Mode::Dpv0);
        const DPV1: Writer = Writer::Parameters(Mode::Dpv1);
        check_together([
            (Writer::Diagnosis, |line| {
                has_wrong_header(line) && line.len() > 245
            }),
            (Writer::Diagnosis, |line| {
                has_wrong_header(line) && line.get(7) >= Some(&0xC0)
            }),
            (Writer::ChannelBlock, |line| line[1] > 63 && line[2] == 0),
            (Writer::ChannelBlock, |line| line[2] == 0 && line[3] > 63),
            (Writer::ChannelBlock, |line| line[2] == 0 && line[4] > 7),
            (Writer::ChannelBlock, |line| line[4] == 7 && line[5] > 31),
            (DPV0, |line| line[4] < 11 && line.len() > 245),
            (DPV1, |line| line[9] & 0x02 != 0 && line.len() > 245),
            (Writer::Module, |line| {
                line[1] == 1 && line[2] == 1 && line[3] > 64 && line.len() > 24
            }),
            (Writer::Module, |line| {
                line[1] == 1 && line[6] == 1 && line[7] == 0 && line.len() > 24
            }),
            // General ones with vendor bytes: no units, too many, and no side.
            (Writer::Module, |line| {
                line[1] == 0 && line[2] == 1 && line[3] == 0 && line.len() > 10
            }),
            (Writer::Module, |line| {
                line[1] == 0 && line[6] == 1 && line[7] > 16 && line.len() > 10
            }),
            (Writer::Module, |line| {
                line[1] == 0 && line[2] == 0 && line[6] == 0 && line.len() > 10
            }),
            (Writer::SetSlaveAdr, |line| line[1] > 125 && line.len() > 5),
            (Writer::SetSlaveAdr, |line| line[4] > 1 && line.len() > 5),
            (Writer::SetSlaveAdr, |line| line[4] > 1 && line[1] > 125),
            (Writer::GlobalControl, |line| {
                line[1] & 0xC1 != 0 && line.len() > 3
            }),
        ]);
    }

    #[test]
    fn faults_of_dpv1_and_typed_values_come_together() {
        check_together([
            (Writer::Dpv1Call, |line| {
                line[1] == 1 && line[4] > 240 && line.len() > 5
            }),
            (Writer::Dpv1Answer, |line| {
                line[1] == 2 && line[4] > 240 && line.len() > 5
            }),
            (Writer::Dpv1Answer, |line| {
                line[1] > 5 && line[2] < 128 && line.len() > 5
            }),
            (Writer::Dpv1Answer, |line| {
                line[1] > 5 && line[2] == 128 && line[3] < 0xA0 && line.len() > 5
            }),
            (Writer::Dpv1Answer, |line| {
                line[1] > 5 && line[2] < 128 && line[3] < 0xA0
            }),
            (Writer::TypedValue, |line| {
                line[0] < 5 && line[1] == 9 && line[2] < 0x7F
            }),
        ]);
    }

    #[test]
    fn malformed_lines_are_malformed_in_every_way() {
        let random = &mut Random::new(5);
        for writer in Writer::ALL {
            let mut lengths = BTreeSet::new();
            for _ in 0..2000 {
                let line = malformed(random, writer);
                assert_eq!(writer.answer(&line), MALFORMED, "{writer:?} {line:02X?}");
                lengths.insert(line.len().min(1 + fewest(writer)));
            }
            assert!((0..=fewest(writer)).all(|length| lengths.contains(&length)));
            let is_more = lengths.contains(&(1 + fewest(writer)));
            let can_be_more = !choices(writer).is_empty()
                || matches!(writer, Writer::ChannelBlock | Writer::Book);
            assert_eq!(is_more, can_be_more, "{writer:?}");
        }
    }

    #[test]
    fn kinds_codes_and_booleans_are_malformed_in_every_way() {
        type Way = fn(&[u8]) -> bool;
        let ways: [(Writer, Way); 8] = [
            (Writer::Dpv1Call, |line| line[1] == 6),
            (Writer::Dpv1Call, |line| line[1] == 255),
            (Writer::Dpv1Answer, |line| line[1] == 0),
            (Writer::Dpv1Answer, |line| line[1] > 9),
            (Writer::TypedValue, |line| line[1] == 0),
            (Writer::TypedValue, |line| line[1] > 9),
            (Writer::TypedValue, |line| line[1] == 1 && line[5] > 1),
            (Writer::TypedValue, |line| {
                (2..=9).contains(&line[1]) && line.len() > 6
            }),
        ];
        let random = &mut Random::new(7);
        for (place, (writer, is_so)) in ways.into_iter().enumerate() {
            let lines = (0..10_000).map(|_| malformed(random, writer));
            let whole = lines.filter(|line| line.len() > fewest(writer));
            let count = whole.filter(|line| is_so(line)).count();
            assert!(count >= 5, "way {place}, {writer:?}: {count}");
        }
    }

    /// The lines have each flag, kind and code, and no other.
    fn check_choices(writer: Writer, lines: &[Vec<u8>]) {
        for (place, known) in few_right_bytes(writer) {
            let found: BTreeSet<u8> = lines.iter().map(|line| line[1 + place]).collect();
            assert!(found.into_iter().eq(known.clone()), "{writer:?} {place}");
        }
    }

    #[test]
    fn groups_of_each_writer_reach_every_answer() {
        let mut numbers: BTreeMap<&str, Vec<Option<u8>>> = BTreeMap::new();
        for (writer, group) in groups() {
            let found = group.inputs.iter().map(|line| first_number(writer, line));
            let found: Vec<Option<u8>> = found.collect();
            let is_right = |number: &Option<u8>| match group.name {
                "accepted" => *number == Some(0),
                "refused" => number.is_some_and(|number| number > 0),
                _ => number.is_none(),
            };
            assert!(found.iter().all(is_right), "{writer:?} {}", group.name);
            if group.name == "accepted" {
                check_choices(writer, &group.inputs);
            }
            numbers.entry(writer.letter()).or_default().extend(found);
        }
        for writer in Writer::ALL {
            let found = &numbers[writer.letter()];
            assert!((12..=27).contains(&found.len()), "{writer:?} {found:?}");
            let found: BTreeSet<Option<u8>> = found.iter().copied().collect();
            let expected = all_numbers(writer).into_iter().map(Some);
            assert_eq!(found, expected.chain([None]).collect(), "{writer:?}");
        }
    }
}

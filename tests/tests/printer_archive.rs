//! The proved library and the reference as the same printer, step by step through
//! the C interface: every lent byte must be the same after each step, and a
//! refusal must leave all as it was.

#![deny(unsafe_code)]

// Of it only how a call ended.
#[allow(dead_code)]
mod archive;
// A printer's step is no writing.
#[allow(dead_code)]
mod memory;
mod printer_side;
mod tally;

use archive::Outcome::{self, Accepted, Refused};
use memory::{Buffer, Count};
use printer_side::{Given, State, Station, NO_PRINTERS, NO_ROOM, NO_STATES};
use rabtunex_tests::random::Random;
use rabtunex_tests::reference::printer::{self, Pending, Printer, WriteResult};
use rabtunex_tests::reference::printer::{BUFFER_ROOM, SLOTS};
use rabtunex_tests::reference::{refusal, text};
use rabtunex_tests::samples::service_telegrams::with_saps;
use rabtunex_tests::samples::{self, diagnosis as diagnoses, downloads, printers};
use std::ops::Range;
use tally::Tally;

/// The long runs, and the steps of each.
const RUNS: usize = 1000;
const STEPS: usize = 300;
/// The most room that is lent for the reply.
const MOST_ROOM: usize = 300;

/// What a step can come to that is not refused.
const REPLIES: [Outcome; 16] = [
    Accepted("nothing"),
    Accepted("held reply dropped"),
    Accepted("held reply again"),
    Accepted("bare function 0"),
    Accepted("bare function 1"),
    Accepted("bare function 2"),
    Accepted("bare function 3"),
    Accepted("diagnosis"),
    Accepted("write performed"),
    Accepted("write refused B0"),
    Accepted("write refused B1"),
    Accepted("write refused B2"),
    Accepted("write refused B6"),
    Accepted("SC to a poll"),
    Accepted("5F"),
    Accepted("DF"),
];

/// Those of them that the telegrams of each kind bring of a fresh printer.
const REPLIES_OF_A_FRESH_PRINTER: [Outcome; 6] = [
    Accepted("nothing"),
    Accepted("bare function 0"),
    Accepted("bare function 3"),
    Accepted("diagnosis"),
    Accepted("write performed"),
    Accepted("SC to a poll"),
];

/// The highest value of each byte of a state.
const HIGHEST: State = [126, 1, 1, 255, 255, 2, 255, 255, 255, 255, 255];

/// A step by the reference, done in place: the printer before and after it, and
/// how many bytes it sends.
fn step_by_reference(
    station: &mut Station,
    given: &Given<'_>,
) -> Result<([Printer; 2], usize), u8> {
    let before = station.printer().ok_or(refusal::FIELD)?;
    let mut slots = station.slots();
    let Given {
        telegram,
        diagnosis,
        not_yet,
    } = *given;
    let reply = station.reply.lent();
    let (after, sent) = printer::step(before, &mut slots, diagnosis, telegram, not_yet, reply)?;
    station.store(&after, &slots);
    Ok(([before, after], sent.unwrap_or(0)))
}

/// A step through both from the same bytes.
fn check(station: &mut Station, given: &Given<'_>) -> Outcome {
    let mut expected = station.clone();
    let stepped = step_by_reference(&mut expected, given);
    let mut sent = Count::UNSTORED;
    let number = printer_side::step(station, given, sent.lent());
    let answer = match stepped {
        Ok((_, length)) => (0, Count::holding(length)),
        Err(refusal) => (refusal, Count::UNSTORED),
    };
    assert_eq!((number, sent), answer, "{given:02X?}");
    station.expect(&expected, given);
    match stepped {
        Ok((printers, length)) => Accepted(kind(printers, &station.reply.lent()[..length])),
        Err(refusal) => Refused(refusal),
    }
}

/// What came of a step between these two printers that sends this.
fn kind([before, after]: [Printer; 2], reply: &[u8]) -> &'static str {
    match reply {
        [] if after == before => "nothing",
        [] => "held reply dropped",
        // A new call changes SA or FCB; no other reply is held.
        _ if after == before && after.held > 0 => "held reply again",
        [0xE5] => match (before.pending, after.pending) {
            (None, Some(pending)) => write_kind(pending),
            _ => "SC to a poll",
        },
        [0x10, _, _, 0, ..] => "bare function 0",
        [0x10, _, _, 1, ..] => "bare function 1",
        [0x10, _, _, 2, ..] => "bare function 2",
        [0x10, _, _, 3, ..] => "bare function 3",
        [0x68, _, _, _, _, _, 0x08, 62, 60, ..] => "diagnosis",
        [0x68, _, _, _, _, _, 0x08, 51, 51, 0x5F, ..] => "5F",
        [0x68, _, _, _, _, _, 0x08, 51, 51, 0xDF, ..] => "DF",
        other => panic!("no reply of a printer: {other:02X?}"),
    }
}

fn write_kind(pending: Pending) -> &'static str {
    match pending.result {
        WriteResult::Positive { .. } => "write performed",
        WriteResult::Negative { code1: 0xB0, .. } => "write refused B0",
        WriteResult::Negative { code1: 0xB1, .. } => "write refused B1",
        WriteResult::Negative { code1: 0xB2, .. } => "write refused B2",
        WriteResult::Negative { code1: 0xB6, .. } => "write refused B6",
        WriteResult::Negative { .. } => panic!("no result of a write: {pending:?}"),
    }
}

/// A printer in any state, with any slots and any bytes in its reply buffer.
fn any_station(random: &mut Random, address: u8) -> Station {
    let printer = printers::any_state(random, address);
    station_with(random, &printer)
}

fn station_with(random: &mut Random, printer: &Printer) -> Station {
    let slots = printers::any_slots(random);
    let room = random.between(BUFFER_ROOM, MOST_ROOM);
    let reply = random.bytes(room);
    Station::new(printer, &slots, &reply)
}

/// Often few "not yet" answers, so that results come.
fn any_not_yet(random: &mut Random) -> u8 {
    match random.below(16) {
        0 => random.byte(),
        _ => random.below(4) as u8,
    }
}

/// What a printer 7 hears from 2 with this function code: SD1, SD3, polls, writes,
/// for its diagnosis, Data_Exchange.
fn telegrams_with(fc: u8) -> Vec<Vec<u8>> {
    let mut sd1 = vec![0x10, 7, 2, fc, 0, 0x16];
    let mut sd3 = vec![0xA2, 0x87, 0x82, fc, 51, 51, 0x5F, 1, 3, 2, 8, 9, 0, 0x16];
    samples::mend(&mut sd1);
    samples::mend(&mut sd3);
    vec![
        sd1,
        sd3,
        with_saps(fc, [51, 51], &[]),
        with_saps(fc, [51, 51], &[0x5F, 1, 7, 1, 9]),
        with_saps(fc, [51, 51], &[0x5E, 1, 7, 1]),
        with_saps(fc, [60, 62], &[]),
        with_saps(fc, [58, 62], &[0, 0]),
        samples::sd2_around(&[7, 2, fc, 1]),
    ]
}

/// A poll, a write and a call for the diagnosis with FCB 0, with FCB 1, one of
/// which is new, and as an opening; FDL status, of 7 and of another station.
fn telegrams_of_each_kind() -> Vec<Vec<u8>> {
    let mut telegrams = vec![
        vec![0x10, 7, 2, 0x49, 0x52, 0x16],
        vec![0x10, 8, 2, 0x49, 0x53, 0x16],
    ];
    for fc in [0x5C, 0x7C, 0x6D] {
        telegrams.push(with_saps(fc, [51, 51], &[]));
        telegrams.push(with_saps(fc, [51, 51], &[0x5F, 1, 3, 2, 8, 9]));
        telegrams.push(with_saps(fc, [60, 62], &[]));
    }
    telegrams
}

/// A telegram, the printer's reply and its state then, all written out.
struct Row {
    telegram: &'static str,
    reply: &'static str,
    state: State,
}

const OPENING: &str = "68 05 05 68 87 82 6D 3C 3E F0 16";
const DIAGNOSIS: &str = "68 0E 0E 68 82 87 08 3E 3C 08 0C 00 02 12 34 82 43 26 D2 16";
const WRITE: &str = "68 0C 0C 68 87 82 5C 33 33 5F 01 07 03 41 42 43 FB 16";
const POLL_7C: &str = "68 05 05 68 87 82 7C 33 33 EB 16";
const POLL_5C: &str = "68 05 05 68 87 82 5C 33 33 CB 16";

const fn row(telegram: &'static str, reply: &'static str, state: State) -> Row {
    Row {
        telegram,
        reply,
        state,
    }
}

const ROWS: [Row; 7] = [
    row(OPENING, DIAGNOSIS, [7, 0, 1, 2, 0, 0, 0, 0, 0, 0, 0]),
    row(WRITE, "E5", [7, 0, 0, 2, 1, 1, 1, 7, 3, 1, 1]),
    row(WRITE, "E5", [7, 0, 0, 2, 1, 1, 1, 7, 3, 1, 1]),
    row(POLL_7C, "E5", [7, 0, 1, 2, 1, 1, 1, 7, 3, 0, 1]),
    row(
        POLL_5C,
        "68 09 09 68 82 87 08 33 33 5F 01 07 03 E1 16",
        [7, 0, 0, 2, 15, 0, 0, 0, 0, 0, 1],
    ),
    row(
        "10 07 02 49 52 16",
        "10 02 07 00 09 16",
        [7, 0, 0, 2, 0, 0, 0, 0, 0, 0, 1],
    ),
    row(POLL_5C, "", [7, 0, 0, 2, 0, 0, 0, 0, 0, 0, 1]),
];

const ROWS_WHILE_BOARDING: [Row; 4] = [
    row(OPENING, DIAGNOSIS, [7, 1, 1, 2, 0, 0, 0, 0, 0, 0, 0]),
    row(WRITE, "E5", [7, 1, 0, 2, 1, 2, 0xB6, 0, 0, 1, 1]),
    row(POLL_7C, "E5", [7, 1, 1, 2, 1, 2, 0xB6, 0, 0, 0, 1]),
    row(
        POLL_5C,
        "68 09 09 68 82 87 08 33 33 DF 80 B6 00 8C 16",
        [7, 1, 0, 2, 15, 0, 0, 0, 0, 0, 1],
    ),
];

/// The telegrams of document 01's download, and what a fresh printer does.
#[test]
fn worked_telegrams() {
    for (boarding, rows, written) in [(0, &ROWS[..], 3), (1, &ROWS_WHILE_BOARDING, 0)] {
        let slots = downloads::worked().slots;
        let printer = Printer::fresh(7, boarding == 1);
        let mut station = Station::new(&printer, &slots, &[0; BUFFER_ROOM]);
        assert_eq!(
            station.state.fields,
            [7, boarding, 0, 255, 0, 0, 0, 0, 0, 0, 0]
        );
        for row in rows {
            let telegram = text::from_hex(row.telegram).expect("hex");
            let given = Given {
                telegram: &telegram,
                diagnosis: &diagnoses::WORKED_ROW,
                not_yet: 1,
            };
            let mut sent = usize::MAX;
            assert_eq!(printer_side::step(&mut station, &given, &mut sent), 0);
            let reply = text::to_hex(&station.reply.lent()[..sent]);
            assert_eq!(reply, row.reply, "{}", row.telegram);
            assert_eq!(station.state.fields, row.state, "{}", row.telegram);
        }
        assert_eq!(station.lengths.fields[7], written);
        let body = station.slots().bodies[7];
        assert!(body.starts_with(&b"ABC"[..written.into()]));
    }
}

/// Each run goes on from what the steps before have left.
#[test]
fn long_runs_are_alike() {
    let random = &mut Random::new(1);
    let mut tally = Tally::new("steps of printers in long runs");
    for _ in 0..RUNS {
        let address = random.below(127) as u8;
        let mut station = any_station(random, address);
        let diagnosis = diagnoses::any_valid(random);
        for _ in 0..STEPS {
            let telegram = printers::any_heard(random, address);
            let given = Given {
                telegram: &telegram,
                diagnosis: &diagnosis,
                not_yet: any_not_yet(random),
            };
            tally.add(check(&mut station, &given));
        }
    }
    tally.expect_only(&REPLIES);
    assert_eq!(tally.total(), RUNS * STEPS);
}

/// Steps from the same station, one for each of the telegrams.
fn check_each(tally: &mut Tally<Outcome>, station: &Station, telegrams: &[Vec<u8>]) {
    for telegram in telegrams {
        let given = Given {
            telegram,
            diagnosis: &diagnoses::WORKED_ROW,
            not_yet: 2,
        };
        tally.add(check(&mut station.clone(), &given));
    }
}

#[test]
fn every_function_code_is_heard_alike() {
    const STATIONS: usize = 20;
    let random = &mut Random::new(2);
    let mut tally = Tally::new("every function code");
    for fc in 0..=255 {
        let telegrams = telegrams_with(fc);
        for _ in 0..STATIONS {
            check_each(&mut tally, &any_station(random, 7), &telegrams);
        }
    }
    tally.expect_at_least(&[Accepted("nothing"), Accepted("bare function 0")]);
    assert_eq!(tally.total(), 256 * STATIONS * telegrams_with(0).len());
}

#[test]
fn every_pair_of_saps_is_heard_alike() {
    let mut tally = Tally::new("every pair of SAPs in a new call and in an opening");
    let station = station_with(&mut Random::new(3), &Printer::fresh(7, false));
    for (dsap, ssap) in (0..64).flat_map(|dsap| (0..64).map(move |ssap| (dsap, ssap))) {
        let data: [&[u8]; 2] = [&[], &[0x5F, 1, 3, 1, 9]];
        let calls = [0x7D, 0x6C].map(|fc| data.map(|data| with_saps(fc, [dsap, ssap], data)));
        check_each(&mut tally, &station, calls.as_flattened());
    }
    // Of empty data 55, 61 and 62 make nothing, of those of a write 55, 61 and the
    // four whose calls are empty; both by a new call and by an opening.
    let undecodable = 2 * (3 + 6);
    let others = 64 * 64 * 4 - undecodable - 4;
    tally.expect_counts([
        (Accepted("SC to a poll"), 1),
        (Accepted("write performed"), 1),
        (Accepted("diagnosis"), 2),
        (Accepted("bare function 1"), undecodable),
        (Accepted("bare function 3"), others),
    ]);
}

/// A printer without a result, with a positive and with a negative one.
fn printers_of_each_kind() -> [Printer; 3] {
    let positive = WriteResult::Positive {
        slot: 1,
        index: 3,
        length: 2,
    };
    let negative = WriteResult::Negative {
        code1: 0xB6,
        code2: 0,
    };
    [None, Some(positive), Some(negative)].map(|result| Printer {
        sa: 2,
        pending: result.map(|result| Pending { result, not_yet: 0 }),
        ..Printer::fresh(7, false)
    })
}

/// Also at the places that the kind of result does not have: they are not looked
/// at, and stored as 0.
#[test]
fn every_value_of_each_state_byte() {
    let random = &mut Random::new(4);
    let telegrams = telegrams_of_each_kind();
    let mut right = Tally::new("every right value of each byte of a state");
    let mut wrong = Tally::new("every wrong value of each byte of a state");
    for printer in printers_of_each_kind() {
        let station = station_with(random, &printer);
        for (place, byte) in with_every_byte(0..HIGHEST.len()) {
            let mut station = station.clone();
            station.state.fields[place] = byte;
            let is_right = byte <= HIGHEST[place];
            let tally = if is_right { &mut right } else { &mut wrong };
            check_each(tally, &station, &telegrams);
        }
    }
    right.expect_only(&[
        Accepted("nothing"),
        Accepted("held reply dropped"),
        Accepted("held reply again"),
        Accepted("bare function 0"),
        Accepted("bare function 2"),
        Accepted("bare function 3"),
        Accepted("diagnosis"),
        Accepted("write performed"),
        Accepted("SC to a poll"),
        Accepted("5F"),
        Accepted("DF"),
    ]);
    let bytes = 3 * (129 + 254 + 254 + 253);
    wrong.expect_counts([(Refused(12), bytes * telegrams.len())]);
}

fn with_every_byte(places: Range<usize>) -> impl Iterator<Item = (usize, u8)> {
    places.flat_map(|place| (0..=255).map(move |byte| (place, byte)))
}

#[test]
fn every_length_of_each_slot() {
    let telegrams = telegrams_of_each_kind();
    let station = station_with(&mut Random::new(5), &Printer::fresh(7, false));
    let mut right = Tally::new("slots of up to 200 bytes");
    let mut wrong = Tally::new("slots of more than 200 bytes");
    for (slot, length) in with_every_byte(0..SLOTS) {
        let mut station = station.clone();
        station.lengths.fields[slot] = length;
        let tally = if length <= 200 {
            &mut right
        } else {
            &mut wrong
        };
        check_each(tally, &station, &telegrams);
    }
    right.expect_only(&REPLIES_OF_A_FRESH_PRINTER);
    wrong.expect_counts([(Refused(12), SLOTS * 55 * telegrams.len())]);
}

#[test]
fn every_room_for_the_reply() {
    let telegrams = telegrams_of_each_kind();
    let mut station = station_with(&mut Random::new(6), &Printer::fresh(7, false));
    let mut right = Tally::new("rooms of 255 bytes and more");
    let mut wrong = Tally::new("rooms of less than 255 bytes");
    // In two bytes the last is no room at all.
    for room in (0..=MOST_ROOM).chain([1 << 16]) {
        station.reply = Buffer::untouched(room);
        let is_enough = room >= BUFFER_ROOM;
        let tally = if is_enough { &mut right } else { &mut wrong };
        check_each(tally, &station, &telegrams);
    }
    right.expect_only(&REPLIES_OF_A_FRESH_PRINTER);
    wrong.expect_counts([(Refused(11), BUFFER_ROOM * telegrams.len())]);
}

/// Every choice of faults: room for the reply is looked at last.
#[test]
fn refusals_come_in_their_order() {
    const ROUNDS: usize = 40;
    let random = &mut Random::new(7);
    let faults = [&NO_STATES[..], &NO_PRINTERS, &[NO_ROOM]].concat();
    let room_alone = 1 << (faults.len() - 1);
    let mut tally = Tally::new("every choice of faults of a printer");
    for choice in (1..2 * room_alone).flat_map(|choice| [choice; ROUNDS]) {
        let mut station = any_station(random, 7);
        let mut diagnosis = diagnoses::any_valid(random);
        let chosen = (0..faults.len()).filter(|place| choice >> place & 1 == 1);
        for place in chosen {
            faults[place](random, &mut station, &mut diagnosis);
        }
        let given = Given {
            telegram: &printers::any_heard(random, 7),
            diagnosis: &diagnosis,
            not_yet: any_not_yet(random),
        };
        tally.add(check(&mut station, &given));
    }
    let others = 2 * room_alone - 2;
    tally.expect_counts([(Refused(11), ROUNDS), (Refused(12), others * ROUNDS)]);
}

/// Lengths that in one or two bytes are those of a right telegram or diagnosis.
#[test]
fn lengths_that_a_short_number_would_not_show() {
    let mut tally = Tally::new("telegrams and diagnoses with 2^8 and 2^16 bytes more");
    let station = station_with(&mut Random::new(8), &Printer::fresh(7, false));
    for more in [1 << 8, 1 << 16] {
        for telegram in telegrams_of_each_kind() {
            let longer = [&telegram[..], &vec![0; more]].concat();
            check_each(&mut tally, &station, &[longer]);
            let given = Given {
                telegram: &telegram,
                diagnosis: &[&diagnoses::WORKED_ROW[..], &vec![2; more]].concat(),
                not_yet: 0,
            };
            tally.add(check(&mut station.clone(), &given));
        }
    }
    let each = 2 * telegrams_of_each_kind().len();
    tally.expect_counts([(Accepted("nothing"), each), (Refused(12), each)]);
}

//! The proved library and the reference on the same downloads, through the C
//! interface: ending, count and every lent byte must be the same, and a refusal
//! must leave all as it was. The library's two steps, joined here, must do the same
//! as its download.

#![deny(unsafe_code)]

// Of it only how a call ended.
#[allow(dead_code)]
mod archive;
mod controller_side;
mod download_side;
// A download is no writing.
#[allow(dead_code)]
mod memory;
mod printer_side;
mod tally;

use archive::Outcome::{self, Accepted, Refused};
use controller_side::{Standing, GOES_ON};
use memory::{Buffer, Count, Lent};
use printer_side::{any_buffer_too_short, Given, Station};
use printer_side::{NO_PRINTERS, NO_ROOM, NO_STATES};
use rabtunex_tests::random::Random;
use rabtunex_tests::reference::download::{self, Plan, REPLY_LOST, REQUEST_LOST, THROUGH};
use rabtunex_tests::reference::printer::BUFFER_ROOM;
use rabtunex_tests::reference::refusal;
use rabtunex_tests::samples::books;
use rabtunex_tests::samples::downloads::{any_scene, any_wrong_settings, bound, worked};
use rabtunex_tests::samples::downloads::{worked_on_every_line, Scene};
use tally::Tally;

/// How many seeded downloads there are.
const DOWNLOADS: usize = 24_000;
/// The most room that is lent for requests and for replies.
const MOST_ROOM: usize = 300;

/// How a download can end. Nobody but the printer answers, so that a strange reply
/// never comes.
const ENDINGS: [Outcome; 5] = [
    Accepted("done"),
    Accepted("no opening"),
    Accepted("no answer"),
    Accepted("not ready"),
    Accepted("refused"),
];

/// All that a download may change, with memory on either side that is not lent.
#[derive(Clone)]
struct Memory {
    station: Station,
    request: Buffer,
    standing: Lent<4>,
    sendings: Count,
}

impl Memory {
    /// What is lent to the download of a scene, with so much room for requests.
    fn of(scene: &Scene, room: usize) -> Self {
        Memory {
            station: Station::new(&scene.printer, &scene.slots, &scene.reply),
            request: Buffer::untouched(room),
            standing: Lent::untouched(),
            sendings: Count::UNSTORED,
        }
    }

    /// Stores how a download ended.
    fn end(&mut self, standing: Standing, sendings: usize) {
        self.standing = Lent::holding(standing);
        self.sendings = Count::holding(sendings);
    }

    fn expect(&self, expected: &Memory, plan: &Plan<'_>) {
        let of = |memory: &Memory| (memory.standing, memory.sendings);
        assert_eq!(of(self), of(expected), "{plan:02X?}");
        assert_eq!(self.request, expected.request, "{plan:02X?}");
        self.station.expect(&expected.station, plan);
    }
}

/// The library's download, done in place: 0 or the refusal number.
fn run_library(plan: &Plan<'_>, memory: &mut Memory) -> u8 {
    download_side::run(
        plan,
        &mut memory.station,
        memory.request.lent(),
        &mut memory.standing.fields,
        memory.sendings.lent(),
    )
}

/// The reference's download, done in place.
fn run_reference(plan: &Plan<'_>, memory: &mut Memory) -> Result<download::Outcome, u8> {
    let printer = memory.station.printer().ok_or(refusal::FIELD)?;
    let mut slots = memory.station.slots();
    let lent = download::Lent {
        slots: &mut slots,
        request: memory.request.lent(),
        reply: memory.station.reply.lent(),
    };
    let outcome = download::run(plan, printer, lent, |_| {})?;
    memory.station.store(&outcome.printer, &slots);
    memory.end(outcome.ending.fields(), outcome.sendings);
    Ok(outcome)
}

/// The download joined from the library's two steps, which shows each request to
/// `seen`.
fn run_steps(plan: &Plan<'_>, memory: &mut Memory, mut seen: impl FnMut(&[u8])) {
    let mut state = [0; 5];
    let mut standing = GOES_ON;
    let (mut got, mut sendings) = (0, 0);
    loop {
        let mut stored = 0;
        let reply = &memory.station.reply.lent()[..got];
        let request = memory.request.lent();
        let number = controller_side::step(
            &plan.settings,
            plan.book,
            &mut state,
            reply,
            request,
            &mut stored,
            &mut standing,
        );
        assert_eq!(number, 0, "{plan:02X?}");
        if standing != GOES_ON {
            break memory.end(standing, sendings);
        }
        let request = &request[..stored];
        seen(request);
        let entry = plan.line.get(sendings).copied().unwrap_or(THROUGH);
        sendings += 1;
        let sent = match entry {
            REQUEST_LOST => 0,
            _ => hear(plan, &mut memory.station, request),
        };
        got = if entry == REPLY_LOST { 0 } else { sent };
    }
}

/// The library's printer hears a request; how many bytes it sends back.
fn hear(plan: &Plan<'_>, station: &mut Station, telegram: &[u8]) -> usize {
    let [.., writes] = station.state.fields;
    let given = Given {
        telegram,
        diagnosis: plan.diagnosis,
        not_yet: plan.not_yet.get(usize::from(writes)).copied().unwrap_or(0),
    };
    let mut sent = 0;
    let number = printer_side::step(station, &given, &mut sent);
    assert_eq!(number, 0, "{given:02X?}");
    sent
}

/// A download through both, done in place, and where it is not refused through the
/// library's steps.
fn check(plan: &Plan<'_>, memory: &mut Memory) -> Result<download::Outcome, u8> {
    let mut expected = memory.clone();
    let mut joined = memory.clone();
    let outcome = run_reference(plan, &mut expected);
    let number = run_library(plan, memory);
    assert_eq!(number, outcome.err().unwrap_or(0), "{plan:02X?}");
    memory.expect(&expected, plan);
    if outcome.is_ok() {
        run_steps(plan, &mut joined, |_| {});
        joined.expect(memory, plan);
    }
    outcome
}

fn check_scene(scene: &Scene, room: usize) -> (download::Outcome, Memory) {
    let mut memory = Memory::of(scene, room);
    let outcome = check(&scene.plan(), &mut memory).expect("not refused");
    (outcome, memory)
}

fn ended(outcome: &download::Outcome) -> Outcome {
    Accepted(outcome.ending.name())
}

/// Document 01's download, and the same while boarding, with what comes of them
/// written out.
#[test]
fn worked_downloads() {
    for (boarding, ending) in [(0, [1, 0, 0, 0]), (1, [5, 1, 0xB6, 0x00])] {
        let mut scene = worked();
        scene.printer.boarding = boarding == 1;
        let (_, memory) = check_scene(&scene, BUFFER_ROOM);
        assert_eq!(memory.standing, Lent::holding(ending));
        assert_eq!(memory.sendings, Count::holding(6));
        let state = [7, boarding, 0, 2, 15, 0, 0, 0, 0, 0, 1];
        assert_eq!(memory.station.state, Lent::holding(state));
        let mut slots = scene.slots.clone();
        if boarding == 0 {
            slots.lengths[7] = 3;
            slots.bodies[7][..3].copy_from_slice(b"ABC");
        }
        assert!(memory.station.slots() == slots);
        let mut codes = Vec::new();
        let mut joined = Memory::of(&scene, BUFFER_ROOM);
        run_steps(&scene.plan(), &mut joined, |request| codes.push(request[6]));
        assert_eq!(codes, [0x6D, 0x5C, 0x5C, 0x7C, 0x5C, 0x5C]);
    }
}

/// Every second one to the printer as the download before has left it.
#[test]
fn seeded_downloads_are_alike() {
    let random = &mut Random::new(1);
    let mut tally = Tally::new("seeded downloads");
    let mut sendings = 0;
    let mut left: Option<(download::Outcome, Station)> = None;
    for _ in 0..DOWNLOADS {
        let mut scene = any_scene(random);
        if let Some((outcome, mut station)) = left.filter(|_| random.below(2) == 0) {
            let reply = *station.reply.lent().first_chunk().expect("enough");
            scene = scene.after(outcome.printer, station.slots(), reply);
        }
        let room = random.between(BUFFER_ROOM, MOST_ROOM);
        let (outcome, memory) = check_scene(&scene, room);
        tally.add(ended(&outcome));
        sendings += outcome.sendings;
        left = Some((outcome, memory.station));
    }
    println!("sendings of seeded downloads: {sendings}");
    tally.expect_only(&ENDINGS);
    assert_eq!(tally.total(), DOWNLOADS);
}

#[test]
fn worked_download_on_every_line_is_alike() {
    let mut tally = Tally::new("document 01's download on every line");
    for scene in worked_on_every_line() {
        let (outcome, _) = check_scene(&scene, BUFFER_ROOM);
        tally.add(ended(&outcome));
    }
    tally.expect_only(&ENDINGS);
}

/// Each "not yet" number below, at and above P, for every P.
#[test]
fn every_number_of_not_yet_answers() {
    let mut tally = Tally::new("every number of \"not yet\" answers with every P");
    for (polls, not_yet) in (1..=31).flat_map(|polls| (0..=255).map(move |number| (polls, number)))
    {
        let mut scene = worked();
        scene.settings.polls = polls;
        scene.line.clear();
        scene.not_yet = vec![not_yet];
        let (outcome, _) = check_scene(&scene, BUFFER_ROOM);
        let is_ready = not_yet < polls;
        let name = if is_ready { "done" } else { "not ready" };
        assert_eq!(ended(&outcome), Accepted(name));
        tally.add(ended(&outcome));
    }
    let ready = (1..=31).sum();
    let late = 31 * 256 - ready;
    tally.expect_counts([(Accepted("done"), ready), (Accepted("not ready"), late)]);
}

/// The longest book over a line that loses all that it can: as many sendings as a
/// download can have.
#[test]
fn most_sendings() {
    let random = &mut Random::new(2);
    let mut scene = any_scene(random);
    scene.settings.repeats = 7;
    scene.settings.polls = 31;
    scene.printer.address = scene.settings.printer;
    scene.printer.boarding = false;
    scene.book = books::all_forms(random).pop().expect("the longest");
    scene.not_yet = vec![30; 16];
    for lost in [REQUEST_LOST, REPLY_LOST] {
        let each = [[lost; 7].as_slice(), &[THROUGH]].concat();
        let most = bound(&scene.settings, 16);
        scene.line = [&[THROUGH], &each.repeat(most / each.len())[..]].concat();
        let (outcome, _) = check_scene(&scene, BUFFER_ROOM);
        assert_eq!(ended(&outcome), Accepted("done"));
        assert_eq!((outcome.sendings, most), (4097, 4097));
    }
}

/// A scene, its memory, and what is to go wrong with them.
struct Case {
    scene: Scene,
    memory: Memory,
}

/// Makes something of a case wrong, and answers its number.
type Fault = fn(&mut Random, &mut Case) -> u8;

/// The faults of a download in the order in which they decide.
const FAULTS: [Fault; 7] = [
    |random, case| {
        case.scene.settings = any_wrong_settings(random);
        12
    },
    |random, case| case.spoil(random, &NO_STATES, 12),
    |random, case| {
        let (make, number) = random.pick(&books::DAMAGES);
        case.scene.book = make(random);
        *number
    },
    |random, case| {
        let line = &mut case.scene.line;
        let entry = random.between(usize::from(REPLY_LOST) + 1, 255) as u8;
        // Also where no sending would use it.
        let place = random.between(0, line.len());
        line.insert(place, entry);
        12
    },
    |random, case| case.spoil(random, &NO_PRINTERS, 12),
    |random, case| case.spoil(random, &[NO_ROOM], 11),
    |random, case| {
        case.memory.request = any_buffer_too_short(random);
        11
    },
];

impl Case {
    /// Makes something of the printer wrong.
    fn spoil(&mut self, random: &mut Random, faults: &[printer_side::Fault], number: u8) -> u8 {
        let fault = random.pick(faults);
        let (station, diagnosis) = (&mut self.memory.station, &mut self.scene.diagnosis);
        fault(random, station, diagnosis);
        number
    }
}

/// Every choice of faults: the first decides.
#[test]
fn refusals_come_in_their_order() {
    const ROUNDS: usize = 40;
    let random = &mut Random::new(3);
    let mut tally = Tally::new("every choice of faults of a download");
    for choice in (1..1 << FAULTS.len()).flat_map(|choice| [choice; ROUNDS]) {
        let scene = any_scene(random);
        let memory = Memory::of(&scene, BUFFER_ROOM);
        let mut case = Case { scene, memory };
        let chosen = (0..FAULTS.len()).filter(|place| choice >> place & 1 == 1);
        let numbers: Vec<u8> = chosen
            .map(|place| FAULTS[place](random, &mut case))
            .collect();
        let outcome = check(&case.scene.plan(), &mut case.memory);
        assert_eq!(outcome, Err(numbers[0]));
        tally.add(Refused(numbers[0]));
    }
    tally.expect_only(&[1, 4, 11, 12, 32].map(Refused));
}

/// A list with more entries than one or two bytes can count, whose last is wrong or
/// never used.
#[test]
fn lengths_that_a_short_number_would_not_show() {
    let mut tally = Tally::new("lines and lists with 2^8 and 2^16 entries more");
    for more in [1 << 8, 1 << 16] {
        let mut scene = worked();
        scene.not_yet.resize(more + 1, 200);
        scene.line.resize(more + 6, THROUGH);
        let (outcome, _) = check_scene(&scene, more + BUFFER_ROOM - 1);
        tally.add(ended(&outcome));
        scene.line[more] = REPLY_LOST + 1;
        let refused = check(&scene.plan(), &mut Memory::of(&scene, BUFFER_ROOM));
        tally.add(Refused(refused.expect_err("an entry is wrong")));
        scene.line.clear();
        scene.book.resize(more + scene.book.len(), 0);
        let refused = check(&scene.plan(), &mut Memory::of(&scene, BUFFER_ROOM));
        tally.add(Refused(refused.expect_err("bytes follow the book")));
    }
    tally.expect_counts([(Accepted("done"), 2), (Refused(4), 2), (Refused(12), 2)]);
}

//! The proved library and the reference as the same controller, step by step
//! through the C interface: every lent byte must be the same after each step, and
//! a refusal must leave all as it was.

#![deny(unsafe_code)]

// The inputs of services are of no use here.
#[allow(dead_code)]
mod archive;
mod controller_side;
// Of what it lends, a controller needs no buffer besides its output.
#[allow(dead_code)]
mod memory;
mod tally;

use archive::pairs;
use archive::Outcome::{self, Accepted, Refused};
use controller_side::{State, GOES_ON};
use memory::{any_room, Lent, Written, MOST_ROOM};
use rabtunex_tests::random::Random;
use rabtunex_tests::reference::controller::{self, Move, Request, Settings, Turn};
use rabtunex_tests::reference::{refusal, text};
use rabtunex_tests::samples::controllers::{any_reply, any_state, data_reply, in_its_place};
use rabtunex_tests::samples::downloads::{any_settings, any_wrong_settings, WORKED_SETTINGS};
use rabtunex_tests::samples::{self, books, diagnosis as diagnoses};
use tally::Tally;

/// How many steps each of the long tests has at least.
const STEPS: usize = 200_000;
/// So much room is never too small.
const ENOUGH: usize = 255;

/// What a step can come to that is not refused.
const MOVES: [Outcome; 13] = [
    Accepted("opening"),
    Accepted("first write"),
    Accepted("write again"),
    Accepted("first poll"),
    Accepted("poll again"),
    Accepted("next poll"),
    Accepted("next write"),
    Accepted("done"),
    Accepted("no opening"),
    Accepted("no answer"),
    Accepted("not ready"),
    Accepted("refused"),
    Accepted("strange reply"),
];

/// The bytes of a controller's state.
fn bytes_of(state: controller::State) -> State {
    let of_turn = |kind, turn: Turn, left| {
        let fcb = turn.fcb.into();
        [kind, turn.template, fcb, turn.repeats, left]
    };
    match state {
        controller::State::Fresh => [0; 5],
        controller::State::Waiting(request) => match request {
            Request::Opening => [1, 0, 0, 0, 0],
            Request::Write(turn) => of_turn(2, turn, 0),
            Request::Poll(turn, left) => of_turn(3, turn, left),
        },
    }
}

/// The state that has these bytes, if one has.
fn state_of(bytes: &State) -> Option<controller::State> {
    let [kind, template, fcb, repeats, left] = *bytes;
    let turn = || match fcb {
        0 | 1 => Some(Turn {
            template,
            fcb: fcb == 1,
            repeats,
        }),
        _ => None,
    };
    let request = match kind {
        0 => return Some(controller::State::Fresh),
        1 => Request::Opening,
        2 => Request::Write(turn()?),
        3 => Request::Poll(turn()?, left),
        _ => return None,
    };
    Some(controller::State::Waiting(request))
}

/// What a step is given besides the state.
#[derive(Clone, Copy, Debug)]
struct Given<'a> {
    settings: Settings,
    book: &'a [u8],
    reply: &'a [u8],
    room: usize,
}

/// All that a step may change.
#[derive(Debug, PartialEq, Eq)]
struct Stepped {
    written: Written,
    state: Lent<5>,
    standing: Lent<4>,
}

impl Stepped {
    fn by_library(before: State, given: &Given<'_>) -> Self {
        let Given {
            settings,
            book,
            reply,
            room,
        } = *given;
        let mut state = Lent::holding(before);
        let mut standing = Lent::untouched();
        let written = Written::by(room, |request, stored| {
            let (state, standing) = (&mut state.fields, &mut standing.fields);
            controller_side::step(&settings, book, state, reply, request, stored, standing)
        });
        Stepped {
            written,
            state,
            standing,
        }
    }

    fn by_reference(before: State, given: &Given<'_>) -> (Self, Outcome) {
        let room = given.room;
        let mut out = vec![0; room];
        let mut stepped = Stepped {
            written: Written::bytes(&[], room),
            state: Lent::holding(before),
            standing: Lent::holding(GOES_ON),
        };
        let outcome = match step_by_reference(before, given, &mut out) {
            Ok(Move::Send { state, length }) => {
                let state = bytes_of(state);
                stepped.written = Written::bytes(&out[..length], room);
                stepped.state = Lent::holding(state);
                Accepted(request_kind(before, state))
            }
            Ok(Move::End(ending)) => {
                stepped.standing = Lent::holding(ending.fields());
                Accepted(ending.name())
            }
            Err(number) => {
                stepped.written = Written::nothing(number, room);
                stepped.standing = Lent::untouched();
                Refused(number)
            }
        };
        (stepped, outcome)
    }
}

fn step_by_reference(before: State, given: &Given<'_>, out: &mut [u8]) -> Result<Move, u8> {
    let state = state_of(&before).ok_or(refusal::FIELD)?;
    controller::step(&given.settings, given.book, state, given.reply, out)
}

/// A step through both; the state goes on as the library leaves it.
fn check(state: &mut State, given: &Given<'_>) -> Outcome {
    let before = *state;
    let stepped = Stepped::by_library(before, given);
    let (expected, outcome) = Stepped::by_reference(before, given);
    assert_eq!(stepped, expected, "{before:?} {given:02X?}");
    *state = stepped.state.fields;
    outcome
}

/// The request that is sent between these two states.
fn request_kind(before: State, after: State) -> &'static str {
    match (before[0], after[0]) {
        (_, 1) => "opening",
        (1, 2) => "first write",
        (2, 2) => "write again",
        (2, 3) => "first poll",
        (3, 3) if before[2] == after[2] => "poll again",
        (3, 3) => "next poll",
        (3, 2) => "next write",
        _ => panic!("no request leads from {before:?} to {after:?}"),
    }
}

/// Document 01's download: what comes back, the request then, and the state.
#[test]
fn worked_requests() {
    const WRITE: &str = "68 0C 0C 68 87 82 5C 33 33 5F 01 07 03 41 42 43 FB 16";
    const POLL_7C: &str = "68 05 05 68 87 82 7C 33 33 EB 16";
    const POLL_5C: &str = "68 05 05 68 87 82 5C 33 33 CB 16";
    const DIAGNOSIS: &str = "68 0E 0E 68 82 87 08 3E 3C 08 0C 00 02 12 34 82 43 26 D2 16";
    const RESULT: &str = "68 09 09 68 82 87 08 33 33 5F 01 07 03 E1 16";
    let mut state = [0; 5];
    for (reply, request, then, standing) in [
        (
            "",
            "68 05 05 68 87 82 6D 3C 3E F0 16",
            [1, 0, 0, 0, 0],
            [0; 4],
        ),
        (DIAGNOSIS, WRITE, [2, 1, 0, 1, 0], [0; 4]),
        ("", WRITE, [2, 1, 0, 0, 0], [0; 4]),
        ("E5", POLL_7C, [3, 1, 1, 1, 1], [0; 4]),
        ("E5", POLL_5C, [3, 1, 0, 1, 0], [0; 4]),
        ("", POLL_5C, [3, 1, 0, 0, 0], [0; 4]),
        (RESULT, "", [3, 1, 0, 0, 0], [1, 0, 0, 0]),
    ] {
        let (reply, request) = (text::from_hex(reply), text::from_hex(request));
        let (reply, request) = (reply.expect("hex"), request.expect("hex"));
        let mut ending = [255; 4];
        let written = Written::by(ENOUGH, |out, stored| {
            let (settings, book) = (&WORKED_SETTINGS, &books::WORKED_BOOK);
            controller_side::step(settings, book, &mut state, &reply, out, stored, &mut ending)
        });
        assert_eq!(written, Written::bytes(&request, ENOUGH));
        assert_eq!((state, ending), (then, standing));
    }
}

/// Any states, also those that no download leads to, with any reply, book and
/// room.
#[test]
fn seeded_steps_are_alike() {
    let random = &mut Random::new(1);
    let mut tally = Tally::new("steps of controllers in any state");
    while tally.total() < STEPS {
        let settings = any_settings(random);
        let book = books::any_valid(random);
        let state = any_state(random, &settings, book[0].into());
        let reply = any_reply(random, &settings, &book, state);
        let needed = any_request_length(random, &book);
        let mut given = Given {
            settings,
            book: &book,
            reply: &reply,
            room: any_room(random, needed),
        };
        let damaged = books::damaged(random);
        match random.below(16) {
            0 => given.settings = any_wrong_settings(random),
            1 => given.book = &damaged,
            _ => {}
        }
        tally.add(check(&mut bytes_of(state), &given));
    }
    let refused = [1, 4, 11, 12, 32].map(Refused);
    tally.expect_only(&[&MOVES[..], &refused].concat());
}

/// How long a request is: that of a poll and of the opening, or of some
/// template's write.
fn any_request_length(random: &mut Random, book: &[u8]) -> usize {
    const AROUND_DATA: usize = 11;
    const HEAD_OF_A_WRITE: usize = 4;
    let template = random.below(usize::from(book[0]));
    let body = usize::from(book[2 + 2 * template]);
    *random.pick(&[AROUND_DATA, AROUND_DATA + HEAD_OF_A_WRITE + body])
}

/// Each run goes on from the state that the step before has left, until it ends;
/// a refusal on the way leaves it as it was.
#[test]
fn long_runs_are_alike() {
    let random = &mut Random::new(2);
    let mut tally = Tally::new("steps of controllers in whole runs");
    let mut runs = 0;
    while tally.total() < STEPS {
        runs += 1;
        let settings = any_settings(random);
        let book = books::any_valid(random);
        let is_right = random.below(2) == 0;
        let mut bytes = [0; 5];
        loop {
            let state = state_of(&bytes).expect("the library's own");
            let reply = match is_right {
                true => in_its_place(random, &settings, &book, state),
                false => any_reply(random, &settings, &book, state),
            };
            let given = Given {
                settings,
                book: &book,
                reply: &reply,
                room: *random.pick(&[0, ENOUGH, ENOUGH, MOST_ROOM]),
            };
            let before = bytes;
            let outcome = check(&mut bytes, &given);
            tally.add(outcome);
            // Every request changes the state, by FCB or by what is left.
            if bytes == before && outcome != Refused(11) {
                break;
            }
        }
    }
    println!("whole runs: {runs}");
    tally.expect_only(&[&MOVES[..], &[Refused(11)]].concat());
}

/// A small download, and what its printer sends.
const SETTINGS: Settings = WORKED_SETTINGS;
const BOOK: [u8; 8] = books::SMALL_BOOK;
const SC: &[u8] = &[0xE5];
const POLL: State = [3, 1, 1, 1, 1];

fn diagnosis() -> Vec<u8> {
    data_reply(&SETTINGS, [62, 60], &diagnoses::WORKED_ROW)
}

fn result(data: [u8; 4]) -> Vec<u8> {
    data_reply(&SETTINGS, [51, 51], &data)
}

/// A step of the download above in any room.
fn check_small(state: State, reply: &[u8], room: usize) -> Outcome {
    let given = Given {
        settings: SETTINGS,
        book: &BOOK,
        reply,
        room,
    };
    check(&mut state.clone(), &given)
}

/// Every state near those that a small download leads to, with a reply of each
/// kind.
#[test]
fn every_small_state() {
    let mut tally = Tally::new("every small state with each kind of reply");
    let replies = [
        Vec::new(),
        SC.to_vec(),
        diagnosis(),
        result([0x5F, 1, 3, 2]),
        result([0x5F, 1, 15, 1]),
        result([0xDF, 128, 0xB6, 0]),
    ];
    let all_settings = (0..3).flat_map(|repeats| (1..4).map(move |polls| (repeats, polls)));
    for (repeats, polls) in all_settings {
        let settings = Settings {
            repeats,
            polls,
            ..SETTINGS
        };
        for (mut state, reply) in small_states().flat_map(|state| {
            let replies = replies.iter();
            replies.map(move |reply| (state, reply))
        }) {
            let given = Given {
                settings,
                book: &BOOK,
                reply,
                room: ENOUGH,
            };
            tally.add(check(&mut state, &given));
        }
    }
    tally.expect_only(&[&MOVES[..], &[Refused(12)]].concat());
}

/// Kinds, templates, FCBs and counts somewhat beyond those that there are, also at
/// the places that a kind does not have: they are not looked at.
fn small_states() -> impl Iterator<Item = State> {
    const NUMBERS: [u8; 5] = [0, 1, 2, 3, 255];
    let turns = NUMBERS.into_iter().flat_map(|template| {
        let fcbs = [0, 1, 2, 255].into_iter();
        fcbs.flat_map(move |fcb| NUMBERS.map(|repeats| [template, fcb, repeats]))
    });
    turns.flat_map(|[template, fcb, repeats]| {
        let kinds = [0, 1, 2, 3, 4, 255].into_iter();
        kinds.flat_map(move |kind| NUMBERS.map(|left| [kind, template, fcb, repeats, left]))
    })
}

/// Into every room a request of each kind, and an ending, which needs none.
#[test]
fn every_room_for_the_request() {
    let mut tally = Tally::new("requests and an ending in every room");
    // The shortest and the second template's write.
    let (short, write) = (11, 11 + 4 + 2);
    for (state, reply, length) in [
        ([0; 5], &[][..], short),
        ([1, 0, 0, 0, 0], &diagnosis()[..], write),
        ([2, 1, 0, 1, 0], &[], write),
        ([2, 1, 0, 1, 0], SC, short),
        (POLL, SC, short),
        (POLL, &result([0x5F, 1, 3, 2]), write - 1),
        (POLL, &result([0xDF, 128, 0xB6, 0]), 0),
    ] {
        // In two bytes the last is no room at all.
        for room in (0..=MOST_ROOM).chain([1 << 16]) {
            let outcome = check_small(state, reply, room);
            assert_eq!(outcome == Refused(11), room < length, "{state:?} {room}");
            tally.add(outcome);
        }
    }
    tally.expect_only(&[
        Accepted("opening"),
        Accepted("first write"),
        Accepted("write again"),
        Accepted("first poll"),
        Accepted("next poll"),
        Accepted("next write"),
        Accepted("refused"),
        Refused(11),
    ]);
}

/// Every two bytes of a DPV1 answer that comes to a poll.
#[test]
fn every_pair_of_answer_bytes() {
    let mut numbers = Tally::new("numbers and second bytes of answers to a poll");
    let mut places = Tally::new("indices and lengths of 5F to a poll");
    let mut errors = Tally::new("decodes and first codes of DF to a poll");
    for (first, second) in pairs() {
        for (tally, data) in [
            (&mut numbers, [first, second, 3, 2]),
            (&mut places, [0x5F, 1, first, second]),
            (&mut errors, [0xDF, first, second, 9]),
        ] {
            tally.add(check_small(POLL, &result(data), ENOUGH));
        }
    }
    const ALL: usize = 256 * 256;
    let [written, refused, strange] = ["next write", "refused", "strange reply"].map(Accepted);
    // DF with 03 for a code is taken under decodes 254 and 255.
    numbers.expect_counts([(written, 1), (refused, 2), (strange, ALL - 3)]);
    places.expect_counts([(written, 1), (strange, ALL - 1)]);
    // Under decode 128 the classes 10 to 15, with five codes of 10 and four of 12
    // reserved; under the others all.
    let codes = 6 * 16 - 5 - 4 + 2 * 256;
    errors.expect_counts([(refused, codes), (strange, ALL - codes)]);
}

/// Every function code of what comes back, with the right data behind it.
#[test]
fn every_function_code_of_a_reply() {
    let mut tally = Tally::new("replies by every function code");
    let opened = diagnosis();
    let written = result([0x5F, 1, 3, 2]);
    let refused = result([0xDF, 128, 0xB6, 0]);
    for (state, reply) in [([1, 0, 0, 0, 0], opened), (POLL, written), (POLL, refused)] {
        for fc in 0..=255 {
            let mut reply = reply.clone();
            reply[6] = fc;
            samples::mend(&mut reply);
            tally.add(check_small(state, &reply, ENOUGH));
        }
    }
    // Reserved codes are as no reply, which only the poll is repeated for.
    let (taken, reserved) = (256 - 198, 198);
    tally.expect_counts([
        (Accepted("first write"), 1),
        (Accepted("next write"), 1),
        (Accepted("refused"), 1),
        (Accepted("no opening"), 255),
        (Accepted("poll again"), 2 * reserved),
        (Accepted("strange reply"), 2 * (taken - 1)),
    ]);
}

#[test]
fn every_value_of_each_setting() {
    let mut tally = Tally::new("every value of each setting");
    for byte in 0..=255 {
        let mut all = [SETTINGS; 4];
        all[0].printer = byte;
        all[1].controller = byte;
        all[2].repeats = byte;
        all[3].polls = byte;
        for settings in all {
            let given = Given {
                settings,
                book: &BOOK,
                reply: &[],
                room: ENOUGH,
            };
            tally.add(check(&mut [0; 5], &given));
        }
    }
    let right = 126 + 126 + 8 + 31;
    tally.expect_counts([(Accepted("opening"), right), (Refused(12), 4 * 256 - right)]);
}

/// Every choice of faults: in the settings, of no state, in the book, of a state
/// that no download leads to, and of room.
#[test]
fn refusals_come_in_their_order() {
    let random = &mut Random::new(3);
    let mut tally = Tally::new("every choice of faults of a controller");
    let any = (1..1 << 5).flat_map(|choice| [choice; 100]);
    for (choice, (make, book_number)) in any.zip(books::DAMAGES.into_iter().cycle()) {
        let has = |fault: u8| choice >> fault & 1 == 1;
        let damaged = make(random);
        let mut state = *random.pick(&[[0; 5], [2, 1, 0, 1, 0], [3, 2, 0, 1, 1]]);
        if has(3) {
            state = *random.pick(&[[2, 0, 0, 1, 0], [2, 3, 0, 1, 0], [3, 2, 0, 1, 2]]);
        }
        if has(1) {
            state = *random.pick(&[[4, 1, 0, 1, 0], [255, 0, 0, 0, 0], [2, 1, 2, 1, 0]]);
        }
        let given = Given {
            settings: match has(0) {
                true => any_wrong_settings(random),
                false => SETTINGS,
            },
            book: if has(2) { &damaged } else { &BOOK },
            reply: &[],
            room: if has(4) { 10 } else { ENOUGH },
        };
        let number = match choice {
            _ if has(0) || has(1) => 12,
            _ if has(2) => book_number,
            _ if has(3) => 12,
            _ => 11,
        };
        let outcome = check(&mut state, &given);
        assert_eq!(outcome, Refused(number));
        tally.add(outcome);
    }
    tally.expect_only(&[1, 4, 11, 12, 32].map(Refused));
}

/// Lengths that in one or two bytes are those of a right book or reply.
#[test]
fn lengths_that_a_short_number_would_not_show() {
    let mut tally = Tally::new("books and replies with 2^8 and 2^16 bytes more");
    for more in [1 << 8, 1 << 16] {
        let given = Given {
            settings: SETTINGS,
            book: &[&BOOK[..], &vec![0; more]].concat(),
            reply: SC,
            room: ENOUGH,
        };
        tally.add(check(&mut POLL.clone(), &given));
        for reply in [SC, &result([0x5F, 1, 3, 2])] {
            let longer = [reply, &vec![0; more]].concat();
            tally.add(check_small(POLL, &longer, ENOUGH));
        }
    }
    tally.expect_counts([(Accepted("poll again"), 4), (Refused(4), 2)]);
}

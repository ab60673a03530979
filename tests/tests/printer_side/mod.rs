//! The printer's end of the line through the C interface
//! (`include/rabtunex.h`): all of it that is lent, its state as bytes, and the
//! library's step.

use crate::memory::{Buffer, Lent};
use rabtunex_tests::random::Random;
use rabtunex_tests::reference::printer::{Pending, Printer, Slots, WriteResult};
use rabtunex_tests::reference::printer::{BUFFER_ROOM, SLOTS, SLOT_ROOM};
use rabtunex_tests::samples::diagnosis as diagnoses;
use std::fmt::Debug;

/// The bytes of a state.
pub type State = [u8; 11];
/// How long the template of each slot is.
pub type Lengths = [u8; SLOTS];
/// The bytes of all slots, one after the other.
pub type Bodies = [u8; SLOTS * SLOT_ROOM];

/// Where a state has the address, whether the printer is boarding, FCB and the
/// kind of pending result.
const ADDRESS: usize = 0;
const BOARDING: usize = 1;
const FCB: usize = 2;
const PENDING: usize = 5;

/// What kind of result is pending.
const NOTHING: u8 = 0;
const POSITIVE: u8 = 1;
const NEGATIVE: u8 = 2;

/// The bytes of a printer's state.
pub fn state_of(printer: &Printer) -> State {
    let [kind, a, b, c, wait] = match printer.pending {
        None => [NOTHING, 0, 0, 0, 0],
        Some(Pending { result, not_yet }) => match result {
            WriteResult::Positive {
                slot,
                index,
                length,
            } => [POSITIVE, slot, index, length, not_yet],
            WriteResult::Negative { code1, code2 } => [NEGATIVE, code1, code2, 0, not_yet],
        },
    };
    let [boarding, fcb] = [printer.boarding, printer.fcb].map(u8::from);
    let Printer {
        address,
        sa,
        held,
        writes,
        ..
    } = *printer;
    [
        address, boarding, fcb, sa, held, kind, a, b, c, wait, writes,
    ]
}

/// The printer whose state has these bytes, if one has.
pub fn printer_of(state: &State) -> Option<Printer> {
    let [address, boarding, fcb, sa, held, kind, a, b, c, not_yet, writes] = *state;
    let result = match kind {
        NOTHING => None,
        POSITIVE => Some(WriteResult::Positive {
            slot: a,
            index: b,
            length: c,
        }),
        NEGATIVE => Some(WriteResult::Negative { code1: a, code2: b }),
        _ => return None,
    };
    Some(Printer {
        address,
        sa,
        fcb: flag(fcb)?,
        held,
        pending: result.map(|result| Pending { result, not_yet }),
        writes,
        boarding: flag(boarding)?,
    })
}

fn flag(byte: u8) -> Option<bool> {
    match byte {
        0 => Some(false),
        1 => Some(true),
        _ => None,
    }
}

/// All of a printer that is lent, with memory on either side that is not.
#[derive(Clone, Debug, PartialEq, Eq)]
pub struct Station {
    /// Its state.
    pub state: Lent<11>,
    /// How long each slot's template is.
    pub lengths: Lent<SLOTS>,
    bodies: Lent<{ SLOTS * SLOT_ROOM }>,
    /// The reply buffer, with the held reply at its front.
    pub reply: Buffer,
}

impl Station {
    /// A printer with these slots and this reply buffer.
    pub fn new(printer: &Printer, slots: &Slots, reply: &[u8]) -> Self {
        let mut buffer = Buffer::untouched(reply.len());
        buffer.lent().copy_from_slice(reply);
        let mut station = Station {
            state: Lent::untouched(),
            lengths: Lent::untouched(),
            bodies: Lent::untouched(),
            reply: buffer,
        };
        station.store(printer, slots);
        station
    }

    /// Stores all but the reply buffer.
    pub fn store(&mut self, printer: &Printer, slots: &Slots) {
        self.state.fields = state_of(printer);
        self.lengths.fields = slots.lengths;
        let bodies = slots.bodies.as_flattened();
        self.bodies.fields.copy_from_slice(bodies);
    }

    /// The printer that is lent, if its state is one.
    pub fn printer(&self) -> Option<Printer> {
        printer_of(&self.state.fields)
    }

    /// The slots that are lent.
    pub fn slots(&self) -> Slots {
        let mut bodies = [[0; SLOT_ROOM]; SLOTS];
        let flattened = bodies.as_flattened_mut();
        flattened.copy_from_slice(&self.bodies.fields);
        Slots {
            lengths: self.lengths.fields,
            bodies,
        }
    }

    /// Both must be the same; the bodies are too long to be shown.
    pub fn expect(&self, expected: &Station, given: &impl Debug) {
        assert_eq!(self.state, expected.state, "{given:02X?}");
        assert_eq!(self.lengths, expected.lengths, "{given:02X?}");
        assert_eq!(self.reply, expected.reply, "{given:02X?}");
        assert!(self.bodies == expected.bodies, "slots: {given:02X?}");
    }

    /// The lent places, for a call: state, lengths, bodies and reply buffer.
    pub fn lent(&mut self) -> (&mut State, &mut Lengths, &mut Bodies, &mut [u8]) {
        (
            &mut self.state.fields,
            &mut self.lengths.fields,
            &mut self.bodies.fields,
            self.reply.lent(),
        )
    }
}

/// Makes something wrong of a lent printer and its diagnosis.
pub type Fault = fn(&mut Random, &mut Station, &mut Vec<u8>);

/// Bytes that no state has.
pub const NO_STATES: [Fault; 3] = [
    |random, station, _| station.state.fields[BOARDING] = above(random, 1),
    |random, station, _| station.state.fields[FCB] = above(random, 1),
    |random, station, _| station.state.fields[PENDING] = above(random, NEGATIVE),
];

/// A state, slots and a diagnosis that no printer has.
pub const NO_PRINTERS: [Fault; 3] = [
    |random, station, _| station.state.fields[ADDRESS] = above(random, 126),
    |random, station, _| {
        let slot = random.below(SLOTS);
        station.lengths.fields[slot] = above(random, 200);
    },
    |random, _, diagnosis| {
        let make = random.pick(&[
            diagnoses::length_wrong,
            diagnoses::header_wrong,
            diagnoses::ext_diag_flipped,
            diagnoses::block_header_wrong,
            diagnoses::block_past_end,
            diagnoses::channel_code_reserved,
        ]);
        *diagnosis = make(random);
    },
];

/// A reply buffer that not every telegram fits into.
pub const NO_ROOM: Fault = |random, station, _| station.reply = any_buffer_too_short(random);

/// A buffer that not every telegram fits into, often only just.
pub fn any_buffer_too_short(random: &mut Random) -> Buffer {
    let room = random.below(BUFFER_ROOM);
    Buffer::untouched(*random.pick(&[room, BUFFER_ROOM - 1]))
}

fn above(random: &mut Random, limit: u8) -> u8 {
    random.between(usize::from(limit) + 1, 255) as u8
}

/// What a step is given besides the printer.
#[derive(Clone, Copy, Debug)]
pub struct Given<'a> {
    /// What the printer hears.
    pub telegram: &'a [u8],
    /// Its diagnosis.
    pub diagnosis: &'a [u8],
    /// The number of "not yet" answers for a write.
    pub not_yet: u8,
}

extern "C" {
    fn rabtunex_printer_step(
        state: *mut State,
        telegram: *const u8,
        telegram_len: usize,
        diagnosis: *const u8,
        diagnosis_len: usize,
        not_yet: u8,
        lengths: *mut Lengths,
        bodies: *mut Bodies,
        reply: *mut u8,
        reply_len: usize,
        sent: *mut usize,
    ) -> u8;
}

/// The library's step: 0 and how much is sent, or the refusal number.
#[allow(unsafe_code)]
pub fn step(station: &mut Station, given: &Given<'_>, sent: &mut usize) -> u8 {
    let Given {
        telegram,
        diagnosis,
        not_yet,
    } = *given;
    let (state, lengths, bodies, reply) = station.lent();
    // SAFETY: all come from references, which an empty slice has too: none is
    // null, each leads to its length, and those written to overlap nothing.
    unsafe {
        rabtunex_printer_step(
            state,
            telegram.as_ptr(),
            telegram.len(),
            diagnosis.as_ptr(),
            diagnosis.len(),
            not_yet,
            lengths,
            bodies,
            reply.as_mut_ptr(),
            reply.len(),
            sent,
        )
    }
}

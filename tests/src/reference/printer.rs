//! The printer: what it does with the bytes that it hears, and its reply.

use super::acyclic::{self, Call};
use super::parameters::Mode;
use super::service::{self, Content, Service};
use super::telegram::{self, class, Class, Format, Telegram};
use super::{diagnosis, refusal};

/// How many templates the printer has slots for.
pub const SLOTS: usize = 16;
/// How many bytes a slot has room for.
pub const SLOT_ROOM: usize = 200;
/// The longest telegram, for which a lent buffer must have room.
pub const BUFFER_ROOM: usize = 255;
/// What a fresh printer remembers as SA; no call has it.
pub const NOBODY: u8 = 255;

/// The DPV1 slot number whose indices are the printer's slots.
pub(super) const TEMPLATES: u8 = 1;
/// The function code of a reply with data: station type 0, function 8.
pub(super) const DATA_REPLY: u8 = 0x08;

/// The functions of calls that a printer tells apart from others.
const FDL_STATUS: u8 = 9;
const SRD_LOW: u8 = 12;
const SRD_HIGH: u8 = 13;

/// The function codes of bare replies: station type 0.
const PRESENT: u8 = 0;
const UNDECODABLE: u8 = 1;
const BUSY: u8 = 2;
const NO_SERVICE: u8 = 3;

/// The slot that cannot be written to while boarding.
const BOARDING_SLOT: u8 = 7;

/// What a printer knows between two steps, all but its slots.
#[derive(Clone, Copy, Debug, PartialEq, Eq)]
pub struct Printer {
    /// Its own address, 0..=126.
    pub address: u8,
    /// The SA of the last opening or new call.
    pub sa: u8,
    /// The FCB of the last opening or new call.
    pub fcb: bool,
    /// How many bytes of the reply buffer are the held reply, 0 for none.
    pub held: u8,
    /// The result that a poll has not fetched yet.
    pub pending: Option<Pending>,
    /// How many writes were performed since the last opening call, at most 255.
    pub writes: u8,
    /// Whether boarding is under way, which keeps slot seven as it is.
    pub boarding: bool,
}

impl Printer {
    /// A printer that has heard nothing.
    pub fn fresh(address: u8, boarding: bool) -> Self {
        Printer {
            address,
            sa: NOBODY,
            fcb: false,
            held: 0,
            pending: None,
            writes: 0,
            boarding,
        }
    }
}

/// A result that waits for a poll.
#[derive(Clone, Copy, Debug, PartialEq, Eq)]
pub struct Pending {
    /// What came of the write.
    pub result: WriteResult,
    /// How many polls are still to be answered with "not yet".
    pub not_yet: u8,
}

/// What came of a write.
#[derive(Clone, Copy, Debug, PartialEq, Eq)]
pub enum WriteResult {
    /// It changed a slot.
    Positive {
        /// The call's slot number.
        slot: u8,
        /// The call's index.
        index: u8,
        /// The call's length.
        length: u8,
    },
    /// It changed nothing.
    Negative {
        /// Error code 1.
        code1: u8,
        /// Error code 2.
        code2: u8,
    },
}

impl WriteResult {
    /// The bytes of the answer. They are not judged: every state is taken, also
    /// one whose length or code no answer could have.
    fn to_bytes(self) -> [u8; 4] {
        match self {
            WriteResult::Positive {
                slot,
                index,
                length,
            } => [acyclic::WRITE, slot, index, length],
            WriteResult::Negative { code1, code2 } => {
                let number = acyclic::WRITE + acyclic::NEGATIVE;
                [number, acyclic::DECODE_DP, code1, code2]
            }
        }
    }
}

/// The templates that the printer has.
#[derive(Clone, Debug, PartialEq, Eq)]
pub struct Slots {
    /// How many front bytes of each slot are its template, at most 200.
    pub lengths: [u8; SLOTS],
    /// The bytes of each slot.
    pub bodies: [[u8; SLOT_ROOM]; SLOTS],
}

impl Slots {
    /// None of them has a template.
    pub fn empty() -> Self {
        Slots {
            lengths: [0; SLOTS],
            bodies: [[0; SLOT_ROOM]; SLOTS],
        }
    }

    /// The slots that have a template, each with it.
    pub fn templates(&self) -> impl Iterator<Item = (usize, &[u8])> {
        let slots = self.lengths.iter().zip(&self.bodies);
        let templates = slots.map(|(length, body)| &body[..usize::from(*length)]);
        let templates = templates.enumerate();
        templates.filter(|(_, template)| !template.is_empty())
    }
}

/// What the printer sends back.
enum Reply<'a> {
    Confirmation,
    Bare(u8),
    Diagnosis(&'a [u8]),
    Result(WriteResult),
}

impl Reply<'_> {
    /// Stores the reply at the front of `out` and answers its length.
    fn store(&self, from: u8, to: u8, out: &mut [u8]) -> Result<usize, u8> {
        let frame = |format, fc, point: Option<service::AccessPoint>, user| Telegram::Frame {
            format,
            da: to,
            sa: from,
            fc,
            dsap: point.map(|point| point.master),
            ssap: point.map(|point| point.slave),
            user,
        };
        let with_data = |service: Service, user| {
            let point = service.access_point();
            frame(Format::Sd2, DATA_REPLY, point, user)
        };
        match self {
            Reply::Confirmation => telegram::write(&Telegram::ShortConfirmation, out),
            Reply::Bare(fc) => telegram::write(&frame(Format::Sd1, *fc, None, &[]), out),
            Reply::Diagnosis(bytes) => telegram::write(&with_data(Service::SlaveDiag, bytes), out),
            Reply::Result(result) => {
                let bytes = result.to_bytes();
                telegram::write(&with_data(Service::Dpv1, &bytes), out)
            }
        }
    }
}

/// What the printer does with the bytes that it hears: the state after it, and
/// the length of the reply that stands at the front of the buffer, if one is
/// sent. A refusal changes nothing.
///
/// The held reply stands at the front of the buffer already. `not_yet` is the
/// number of "not yet" answers for the write that the step may perform.
pub fn step(
    state: Printer,
    slots: &mut Slots,
    diagnosis: &[u8],
    bytes: &[u8],
    not_yet: u8,
    buffer: &mut [u8],
) -> Result<(Printer, Option<usize>), u8> {
    judge(&state, slots, diagnosis)?;
    judge_buffer(buffer)?;
    hear(state, slots, diagnosis, bytes, not_yet, buffer)
}

/// As `step`, of what was judged already.
pub(super) fn hear(
    state: Printer,
    slots: &mut Slots,
    diagnosis: &[u8],
    bytes: &[u8],
    not_yet: u8,
    buffer: &mut [u8],
) -> Result<(Printer, Option<usize>), u8> {
    let Ok(heard @ Telegram::Frame { da, sa, fc, .. }) = telegram::read(bytes) else {
        return Ok((state, None));
    };
    let fcb = fc & telegram::FCB != 0;
    let dropped = Printer { held: 0, ..state };
    let (mut next, reply) = match class(fc) {
        Class::Bare | Class::Data | Class::Reserved => return Ok((state, None)),
        _ if da != state.address => return Ok((dropped, None)),
        Class::Uncounted if fc & telegram::FUNCTION == FDL_STATUS => {
            (dropped, Reply::Bare(PRESENT))
        }
        Class::Uncounted => return Ok((dropped, None)),
        Class::Opening => (dropped.opened(sa), answer_opening(diagnosis, fc, heard)),
        Class::Counted if (sa, fcb) == (state.sa, state.fcb) => {
            return Ok((state, state.held_length()));
        }
        Class::Counted => {
            let mut next = Printer { sa, fcb, ..state };
            let reply = next.perform(slots, diagnosis, fc, heard, not_yet);
            (next, reply)
        }
    };
    let length = reply.store(state.address, sa, buffer)?;
    if class(fc) == Class::Counted {
        // No telegram is longer than a byte can count.
        next.held = length as u8;
    }
    Ok((next, Some(length)))
}

/// Refuses what no printer is, before anything is changed.
pub(super) fn judge(state: &Printer, slots: &Slots, diagnosis: &[u8]) -> Result<(), u8> {
    let fits = |length: &u8| usize::from(*length) <= SLOT_ROOM;
    let is_right = state.address <= telegram::LAST_STATION
        && slots.lengths.iter().all(fits)
        && diagnosis::read(diagnosis).is_ok();
    is_right.then_some(()).ok_or(refusal::FIELD)
}

/// Refuses a lent buffer that not every telegram fits into.
pub(super) fn judge_buffer(buffer: &[u8]) -> Result<(), u8> {
    if buffer.len() < BUFFER_ROOM {
        return Err(refusal::OUTPUT);
    }
    Ok(())
}

/// What an opening or new call asks for and its lent part, or the bare reply
/// when that cannot be told.
fn read_call(fc: u8, heard: Telegram<'_>) -> Result<(Content, &[u8]), Reply<'static>> {
    if !matches!(fc & telegram::FUNCTION, SRD_LOW | SRD_HIGH) {
        return Err(Reply::Bare(NO_SERVICE));
    }
    match service::of_telegram(heard, Mode::Dpv1) {
        Ok(call) => Ok((call.content, call.part)),
        Err(refusal::SERVICE) => Err(Reply::Bare(NO_SERVICE)),
        Err(_) => Err(Reply::Bare(UNDECODABLE)),
    }
}

/// The reply to an opening call, which can only ask for the diagnosis.
fn answer_opening<'a>(diagnosis: &'a [u8], fc: u8, heard: Telegram<'_>) -> Reply<'a> {
    match read_call(fc, heard) {
        Err(bare) => bare,
        Ok((Content::SlaveDiagCall, _)) => Reply::Diagnosis(diagnosis),
        Ok(_) => Reply::Bare(NO_SERVICE),
    }
}

impl Printer {
    /// The length of the held reply, if there is one.
    fn held_length(&self) -> Option<usize> {
        (self.held > 0).then_some(self.held.into())
    }

    /// The state after an opening call, whatever it asks for.
    fn opened(self, sa: u8) -> Self {
        Printer {
            sa,
            fcb: true,
            pending: None,
            writes: 0,
            ..self
        }
    }

    /// Does what a new call asks for.
    fn perform<'a>(
        &mut self,
        slots: &mut Slots,
        diagnosis: &'a [u8],
        fc: u8,
        heard: Telegram<'_>,
        not_yet: u8,
    ) -> Reply<'a> {
        match read_call(fc, heard) {
            Err(bare) => bare,
            Ok((Content::SlaveDiagCall, _)) => Reply::Diagnosis(diagnosis),
            Ok((Content::Dpv1Call(Call::Poll), _)) => self.poll(),
            Ok((Content::Dpv1Call(Call::Write { slot, index }), data)) => {
                if self.pending.is_some() {
                    return Reply::Bare(BUSY);
                }
                let result = write(slots, self.boarding, [slot, index], data);
                self.pending = Some(Pending { result, not_yet });
                self.writes = self.writes.saturating_add(1);
                Reply::Confirmation
            }
            Ok(_) => Reply::Bare(NO_SERVICE),
        }
    }

    /// Hands out the pending result when its time has come.
    fn poll(&mut self) -> Reply<'static> {
        match &mut self.pending {
            None => Reply::Confirmation,
            Some(Pending { result, not_yet }) => {
                if let Some(left) = not_yet.checked_sub(1) {
                    *not_yet = left;
                    return Reply::Confirmation;
                }
                let reply = Reply::Result(*result);
                self.pending = None;
                reply
            }
        }
    }
}

/// Replaces a slot's template, unless the write is refused.
fn write(slots: &mut Slots, boarding: bool, [slot, index]: [u8; 2], data: &[u8]) -> WriteResult {
    let negative = |code1| WriteResult::Negative { code1, code2: 0 };
    if slot != TEMPLATES {
        return negative(0xB2);
    }
    let place = usize::from(index);
    let Some(body) = slots.bodies.get_mut(place) else {
        return negative(0xB0);
    };
    let Some(front) = body.get_mut(..data.len()) else {
        return negative(0xB1);
    };
    if index == BOARDING_SLOT && boarding {
        return negative(0xB6);
    }
    front.copy_from_slice(data);
    // No slot has room for more than a byte can count.
    let length = data.len() as u8;
    slots.lengths[place] = length;
    WriteResult::Positive {
        slot,
        index,
        length,
    }
}

#[cfg(test)]
mod tests {
    use super::*;
    use crate::random::Random;
    use crate::samples::service_telegrams::with_saps;
    use crate::samples::{self, diagnosis as diagnoses, printers as sample, FUNCTION_CODES};
    use std::collections::BTreeSet;

    const SC: &[u8] = &[0xE5];
    /// The codes of opening, counted, uncounted and answer telegrams, in the
    /// order of the samples' list.
    const OPENINGS: &[u8] = FUNCTION_CODES.split_at(5).0;
    const CALLS: &[u8] = FUNCTION_CODES.split_at(22).0;
    const UNCOUNTED: &[u8] = CALLS.split_at(15).1;
    const ANSWERS: &[u8] = FUNCTION_CODES.split_at(22).1;

    /// A printer at 7 and all that it is lent. The calls come from 2.
    #[derive(Clone, Debug, PartialEq, Eq)]
    struct Stage {
        state: Printer,
        slots: Slots,
        diagnosis: Vec<u8>,
        buffer: Vec<u8>,
    }

    impl Stage {
        /// With any bytes in the slots and the buffer.
        fn with(random: &mut Random, state: Printer) -> Self {
            Stage {
                state,
                slots: sample::any_slots(random),
                diagnosis: diagnoses::WORKED_ROW.to_vec(),
                buffer: random.bytes(300),
            }
        }

        /// Of a printer that has heard nothing.
        fn fresh(seed: u64, boarding: bool) -> Self {
            Stage::with(&mut Random::new(seed), Printer::fresh(7, boarding))
        }

        /// One for each of many states.
        fn of_any_states(seed: u64, count: usize) -> impl Iterator<Item = Stage> {
            let mut random = Random::new(seed);
            (0..count).map(move |_| {
                let state = sample::any_state(&mut random, 7);
                Stage::with(&mut random, state)
            })
        }

        /// The reply to the bytes; only the reply's place in the buffer changes.
        fn hear_with(&mut self, bytes: &[u8], not_yet: u8) -> Option<Vec<u8>> {
            let before = self.buffer.clone();
            let Stage {
                state,
                slots,
                diagnosis,
                buffer,
            } = self;
            let stepped = step(*state, slots, diagnosis, bytes, not_yet, buffer);
            let (next, length) = stepped.expect("not refused");
            *state = next;
            let length_or_none = length.unwrap_or(0);
            assert_eq!(buffer[length_or_none..], before[length_or_none..]);
            length.map(|length| buffer[..length].to_vec())
        }

        fn hear(&mut self, bytes: &[u8]) -> Option<Vec<u8>> {
            self.hear_with(bytes, 0)
        }

        fn expect(&mut self, bytes: &[u8], reply: &[u8]) {
            assert_eq!(self.hear(bytes).as_deref(), Some(reply), "{bytes:02X?}");
        }

        fn expect_none(&mut self, bytes: &[u8]) {
            assert_eq!(self.hear(bytes), None, "{bytes:02X?}");
        }
    }

    /// An SD1 to 7 from 2.
    fn sd1(fc: u8) -> Vec<u8> {
        framed(vec![0x10, 7, 2, fc, 0, 0x16])
    }

    /// An SD3 to 7 from 2, with both SAPs.
    fn sd3(fc: u8, saps: [u8; 2], data: [u8; 6]) -> Vec<u8> {
        let body = [&[0xA2, 0x87, 0x82, fc][..], &saps, &data].concat();
        framed([&body[..], &[0, 0x16]].concat())
    }

    fn framed(mut frame: Vec<u8>) -> Vec<u8> {
        samples::mend(&mut frame);
        frame
    }

    fn write_call(fc: u8, index: u8, data: &[u8]) -> Vec<u8> {
        let head = [0x5F, 1, index, data.len() as u8];
        with_saps(fc, [51, 51], &[&head[..], data].concat())
    }

    fn poll(fc: u8) -> Vec<u8> {
        with_saps(fc, [51, 51], &[])
    }

    fn slave_diag(fc: u8) -> Vec<u8> {
        with_saps(fc, [60, 62], &[])
    }

    /// A bare reply to 2 from 7.
    fn bare(function: u8) -> Vec<u8> {
        vec![0x10, 2, 7, function, 9 + function, 0x16]
    }

    fn diagnosis_reply(diagnosis: &[u8]) -> Vec<u8> {
        samples::sd2_around(&[&[0x82, 0x87, 0x08, 62, 60], diagnosis].concat())
    }

    fn result_reply(data: [u8; 4]) -> Vec<u8> {
        samples::sd2_around(&[&[0x82, 0x87, 0x08, 51, 51][..], &data].concat())
    }

    fn expect_refused(mut stage: Stage, room: usize, number: u8) {
        let before = stage.clone();
        let long_write = write_call(0x5C, 3, &[9; 200]);
        for bytes in [&long_write[..], &slave_diag(0x6D), SC, &[]] {
            let (state, buffer) = (stage.state, &mut stage.buffer[..room]);
            let stepped = step(state, &mut stage.slots, &stage.diagnosis, bytes, 0, buffer);
            assert_eq!(stepped, Err(number));
            assert_eq!(stage, before);
        }
    }

    #[test]
    fn no_printer_gives_12_and_then_too_small_a_buffer_11() {
        let random = &mut Random::new(1);
        for stage in Stage::of_any_states(2, 20) {
            let mut wrong = vec![stage.clone(); 4];
            wrong[0].state.address = random.between(127, 255) as u8;
            wrong[1].slots.lengths[random.below(16)] = random.between(201, 255) as u8;
            wrong[2].diagnosis = diagnoses::header_wrong(random);
            wrong[3].diagnosis = Vec::new();
            for (stage, room) in wrong
                .into_iter()
                .flat_map(|stage| [(stage.clone(), 0), (stage, 300)])
            {
                expect_refused(stage, room, 12);
            }
            for room in [0, 1, 254] {
                expect_refused(stage.clone(), room, 11);
            }
        }
    }

    #[test]
    fn limits_are_taken() {
        let mut stage = Stage::fresh(1, false);
        stage.state.address = 126;
        stage.slots.lengths = [200; 16];
        stage.diagnosis = diagnoses::of_length(&mut Random::new(2), 244);
        stage.buffer.truncate(255);
        let call = samples::sd2_around(&[0xFE, 0xFD, 0x6C, 60, 62]);
        let expected = [&[0xFD, 0xFE, 0x08, 62, 60], &stage.diagnosis[..]].concat();
        stage.expect(&call, &samples::sd2_around(&expected));
        assert_eq!(stage.buffer.len(), 255);
    }

    #[test]
    fn refused_bytes_token_sc_and_answers_change_nothing() {
        let random = &mut Random::new(3);
        let mut heard = vec![SC.to_vec(), vec![0xDC, 7, 2], Vec::new()];
        for fc in ANSWERS {
            heard.extend([sd1(*fc), sd3(*fc, [62, 60], [0; 6])]);
            heard.push(with_saps(*fc, [51, 51], &[0x5F, 1, 3, 1]));
        }
        for fc in CALLS {
            let call = write_call(*fc, 3, &[9]);
            heard.push(samples::changed_cut_or_lengthened(random, &call));
        }
        for mut stage in Stage::of_any_states(4, 20) {
            let before = stage.clone();
            for bytes in &heard {
                stage.expect_none(bytes);
                assert_eq!(stage, before);
            }
        }
    }

    #[test]
    fn other_da_drops_the_held_reply_alone() {
        for (stage, da) in Stage::of_any_states(5, 128).zip(0..=127) {
            if da == 7 {
                continue;
            }
            for fc in CALLS {
                let mut call = write_call(*fc, 3, &[9]);
                call[4] = 0x80 | da;
                let mut after = stage.clone();
                after.expect_none(&framed(call));
                let mut expected = stage.clone();
                expected.state.held = 0;
                assert_eq!(after, expected);
            }
        }
    }

    #[test]
    fn uncounted_calls_do_the_same_but_fdl_status_is_answered() {
        for stage in Stage::of_any_states(6, 20) {
            for fc in UNCOUNTED {
                let command = with_saps(*fc, [58, 62], &[0, 0]);
                for call in [sd1(*fc), sd3(*fc, [60, 62], [0; 6]), command] {
                    let mut after = stage.clone();
                    let reply = after.hear(&call);
                    assert_eq!(reply, (*fc == 0x49).then(|| bare(0)), "{call:02X?}");
                    let expected = Printer {
                        held: 0,
                        ..stage.state
                    };
                    assert_eq!(after.state, expected);
                    assert_eq!(after.slots, stage.slots);
                }
            }
        }
    }

    /// What the services of SRD calls to a printer with no result pending get.
    fn replies_by_service(diagnosis: &[u8]) -> Vec<([u8; 2], &'static [u8], Vec<u8>)> {
        let prm_dpv0 = &[0, 2, 3, 11, 0, 1, 0];
        let prm_dpv1 = &[0, 2, 3, 11, 0, 1, 0, 0, 0, 0];
        vec![
            ([60, 62], &[], diagnosis_reply(diagnosis)),
            // Other undecodable data.
            ([60, 62], &[1], bare(1)),
            ([61, 62], prm_dpv0, bare(1)),
            ([62, 62], &[], bare(1)),
            ([55, 62], &[126, 0, 0, 0], bare(1)),
            ([51, 51], &[0x5F, 1, 3, 2, 9], bare(1)),
            ([51, 51], &[0x5F, 1, 3, 0], bare(1)),
            ([51, 51], &[0xDF, 128, 0xB0, 0], bare(1)),
            ([51, 51], &[0x5E, 1, 3, 241], bare(1)),
            // No service.
            ([60, 61], &[], bare(3)),
            ([62, 60], &[], bare(3)),
            ([58, 62], &[0, 0], bare(3)),
            ([0, 0], &[1], bare(3)),
            // Another service or DPV1 function.
            ([53, 62], &[1, 2], bare(3)),
            ([55, 62], &[125, 0, 0, 0], bare(3)),
            ([56, 62], &[], bare(3)),
            ([57, 62], &[], bare(3)),
            ([59, 62], &[], bare(3)),
            ([61, 62], prm_dpv1, bare(3)),
            ([62, 62], &[0x13], bare(3)),
            ([51, 51], &[0x5E, 1, 3, 240], bare(3)),
            ([51, 51], &[0x5C, 1, 2, 3], bare(3)),
            ([51, 51], &[0x48], bare(3)),
            ([51, 51], &[0x51, 1, 3, 0], bare(3)),
        ]
    }

    #[test]
    fn opening_is_remembered_and_drops_reply_and_result() {
        for stage in Stage::of_any_states(7, 50) {
            for fc in OPENINGS {
                for call in [
                    sd1(*fc),
                    poll(*fc),
                    write_call(*fc, 3, &[9]),
                    slave_diag(*fc),
                ] {
                    let mut after = stage.clone();
                    assert!(after.hear(&call).is_some());
                    let expected = Printer {
                        sa: 2,
                        fcb: true,
                        held: 0,
                        pending: None,
                        writes: 0,
                        ..stage.state
                    };
                    assert_eq!(after.state, expected);
                    assert_eq!(after.slots, stage.slots);
                    // Its reply is not held: the same FCB gets nothing.
                    after.expect_none(&poll(0x7C));
                }
            }
        }
    }

    #[test]
    fn opening_is_answered_by_its_service() {
        let mut stage = Stage::fresh(8, false);
        let rows = replies_by_service(&stage.diagnosis);
        for fc in OPENINGS {
            let is_srd = [0x6C, 0x6D].contains(fc);
            for (saps, data, reply) in &rows {
                let expected = if is_srd { reply } else { &bare(3) };
                stage.expect(&with_saps(*fc, *saps, data), expected);
            }
            // Also what a new call would perform, Data_Exchange and one SAP.
            for call in [write_call(*fc, 3, &[9]), poll(*fc), sd1(*fc)] {
                stage.expect(&call, &bare(3));
            }
            stage.expect(&samples::sd2_around(&[0x87, 2, *fc, 51]), &bare(3));
            let too_long = [&[7, 2, *fc][..], &[0; 245]].concat();
            let expected = bare(if is_srd { 1 } else { 3 });
            stage.expect(&samples::sd2_around(&too_long), &expected);
        }
    }

    #[test]
    fn new_call_is_answered_by_its_service_and_its_reply_held() {
        let mut stage = Stage::fresh(9, false);
        let rows = replies_by_service(&stage.diagnosis);
        for function in [0x53, 0x55, 0x57, 0x5C, 0x5D] {
            for (place, (saps, data, reply)) in rows.iter().enumerate() {
                let fcb = place % 2 == 1;
                let fc = function | if fcb { 0x20 } else { 0 };
                let is_srd = function >= 0x5C;
                let expected = if is_srd { reply } else { &bare(3) };
                let call = with_saps(fc, *saps, data);
                // A repeat gets the same, however often.
                for _ in 0..3 {
                    stage.expect(&call, expected);
                    let state = stage.state;
                    assert_eq!((state.sa, state.fcb), (2, fcb));
                    assert_eq!(usize::from(state.held), expected.len());
                    assert_eq!((state.writes, state.pending), (0, None));
                }
            }
        }
    }

    #[test]
    fn sd3_and_sd1_calls_are_new_as_well() {
        let mut stage = Stage::fresh(10, false);
        let write = sd3(0x5C, [51, 51], [0x5F, 1, 3, 2, 8, 9]);
        stage.expect(&write, SC);
        assert_eq!(stage.slots.lengths[3], 2);
        assert_eq!(stage.slots.bodies[3][..2], [8, 9]);
        stage.expect(&sd1(0x7C), &bare(3));
    }

    #[test]
    fn same_sa_and_fcb_get_the_held_reply_whatever_they_ask() {
        let mut stage = Stage::fresh(11, false);
        stage.expect(&write_call(0x5C, 3, &[8, 9]), SC);
        stage.expect(&poll(0x7C), &result_reply([0x5F, 1, 3, 2]));
        let before = stage.clone();
        for call in [
            poll(0x7C),
            poll(0x7D),
            slave_diag(0x7C),
            write_call(0x7C, 4, &[1]),
            sd1(0x73),
            with_saps(0x7C, [1, 2], &[]),
        ] {
            stage.expect(&call, &result_reply([0x5F, 1, 3, 2]));
            assert_eq!(stage, before);
        }
    }

    #[test]
    fn another_sa_or_fcb_is_new() {
        let mut stage = Stage::fresh(12, false);
        stage.expect(&write_call(0x5C, 3, &[8]), SC);
        let mut from_3 = write_call(0x5C, 3, &[9]);
        from_3[5] = 0x83;
        let busy = [0x10, 3, 7, 2, 12, 0x16];
        stage.expect(&framed(from_3), &busy);
        assert_eq!(stage.state.sa, 3);
        // The first station's call is new again now.
        stage.expect(&poll(0x5C), &result_reply([0x5F, 1, 3, 1]));
        stage.expect(&poll(0x7C), SC);
        assert_eq!((stage.state.sa, stage.state.fcb), (2, true));
    }

    #[test]
    fn dropped_reply_is_not_sent_again_and_nothing_performed_again() {
        let to_another = {
            let mut call = slave_diag(0x6D);
            call[4] = 0x88;
            framed(call)
        };
        for dropping in [to_another, sd1(0x44), sd1(0x49)] {
            let mut stage = Stage::fresh(13, false);
            stage.expect(&write_call(0x5C, 3, &[8]), SC);
            stage.hear(&dropping);
            let before = stage.clone();
            stage.expect_none(&write_call(0x5C, 3, &[9]));
            assert_eq!(stage, before);
            assert_eq!((stage.state.writes, stage.state.held), (1, 0));
            // The result is still there.
            stage.expect(&poll(0x7C), &result_reply([0x5F, 1, 3, 1]));
        }
    }

    #[test]
    fn refused_bytes_between_keep_the_held_reply() {
        let mut stage = Stage::fresh(14, false);
        stage.expect(&slave_diag(0x5C), &diagnosis_reply(&diagnoses::WORKED_ROW));
        for bytes in [&[0x10][..], SC, &[0xDC, 7, 2], &sd1(0x00)] {
            stage.expect_none(bytes);
        }
        stage.expect(&slave_diag(0x5C), &diagnosis_reply(&diagnoses::WORKED_ROW));
    }

    #[test]
    fn write_replaces_length_and_front_bytes_of_one_slot() {
        let random = &mut Random::new(15);
        for (index, length) in
            (0..16).flat_map(|index| [1, 2, 199, 200].map(|length| (index, length)))
        {
            let data = random.bytes(length);
            let mut stage = Stage::fresh(16, index != 7);
            let mut expected = stage.slots.clone();
            expected.lengths[usize::from(index)] = length as u8;
            expected.bodies[usize::from(index)][..length].copy_from_slice(&data);
            assert_eq!(
                stage
                    .hear_with(&write_call(0x5C, index, &data), 5)
                    .as_deref(),
                Some(SC)
            );
            assert_eq!(stage.slots, expected);
            let result = WriteResult::Positive {
                slot: 1,
                index,
                length: length as u8,
            };
            let expected = Printer {
                sa: 2,
                held: 1,
                pending: Some(Pending { result, not_yet: 5 }),
                writes: 1,
                ..Printer::fresh(7, index != 7)
            };
            assert_eq!(stage.state, expected);
        }
    }

    #[test]
    fn first_reason_decides_a_refused_write() {
        let data = [9; 240];
        for (slot, index, length, boarding, code1) in [
            (0, 3, 1, false, 0xB2),
            (2, 16, 201, true, 0xB2),
            (255, 7, 1, true, 0xB2),
            (1, 16, 1, false, 0xB0),
            (1, 255, 201, true, 0xB0),
            (1, 3, 201, false, 0xB1),
            (1, 7, 240, true, 0xB1),
            (1, 7, 1, true, 0xB6),
            (1, 7, 200, true, 0xB6),
        ] {
            let mut stage = Stage::fresh(17, boarding);
            let slots = stage.slots.clone();
            let head = [0x5F, slot, index, length];
            let call = [&head[..], &data[..length.into()]].concat();
            stage.expect(&with_saps(0x5C, [51, 51], &call), SC);
            assert_eq!(stage.state.writes, 1);
            stage.expect(&poll(0x7C), &result_reply([0xDF, 128, code1, 0]));
            assert_eq!((stage.state.pending, stage.state.writes), (None, 1));
            assert_eq!(stage.slots, slots);
        }
    }

    #[test]
    fn result_comes_after_its_number_of_not_yet_answers() {
        for not_yet in 0..=255 {
            let mut stage = Stage::fresh(18, false);
            assert!(stage
                .hear_with(&write_call(0x5C, 3, &[9]), not_yet)
                .is_some());
            let mut codes = [0x7C, 0x5C].into_iter().cycle();
            let mut next_poll = || poll(codes.next().unwrap());
            for _ in 0..not_yet {
                let poll = next_poll();
                // A repeat does not count.
                for _ in 0..2 {
                    assert_eq!(stage.hear_with(&poll, 77).as_deref(), Some(SC));
                }
            }
            stage.expect(&next_poll(), &result_reply([0x5F, 1, 3, 1]));
            assert_eq!(stage.state.pending, None);
            stage.expect(&next_poll(), SC);
        }
    }

    #[test]
    fn write_with_a_result_pending_is_not_performed() {
        let mut stage = Stage::fresh(19, false);
        assert!(stage.hear_with(&write_call(0x5C, 3, &[8]), 1).is_some());
        let before = stage.clone();
        stage.expect(&write_call(0x7C, 4, &[9]), &bare(2));
        assert_eq!(stage.slots, before.slots);
        assert_eq!(stage.state.pending, before.state.pending);
        assert_eq!(stage.state.writes, 1);
        // Another service leaves the result as well.
        stage.expect(&slave_diag(0x5C), &diagnosis_reply(&diagnoses::WORKED_ROW));
        assert_eq!(stage.state.pending, before.state.pending);
    }

    #[test]
    fn count_of_writes_stays_at_255() {
        let mut stage = Stage::fresh(20, true);
        for count in (1..=255).chain([255; 3]) {
            // Every second one is refused, and counts as well.
            let index = if count % 2 == 0 { 7 } else { 3 };
            stage.expect(&write_call(0x5C, index, &[9]), SC);
            assert_eq!(stage.state.writes, count);
            assert!(stage.hear(&poll(0x7C)).is_some());
        }
        assert!(stage.hear(&sd1(0x63)).is_some());
        assert_eq!(stage.state.writes, 0);
    }

    #[test]
    fn every_value_of_the_state_is_taken() {
        for byte in 0..=255 {
            let mut stage = Stage::fresh(21, false);
            let result = WriteResult::Positive {
                slot: byte,
                index: byte,
                length: byte,
            };
            stage.state.pending = Some(Pending { result, not_yet: 0 });
            stage.expect(&poll(0x5C), &result_reply([0x5F, byte, byte, byte]));
            let result = WriteResult::Negative {
                code1: byte,
                code2: byte,
            };
            stage.state.pending = Some(Pending { result, not_yet: 0 });
            stage.expect(&poll(0x7C), &result_reply([0xDF, 128, byte, byte]));
            stage.state.held = byte;
            let held = stage.buffer[..byte.into()].to_vec();
            let expected = (byte > 0).then_some(held);
            assert_eq!(stage.hear(&poll(0x7C)), expected);
        }
    }

    /// What a reply is, for a count of kinds; a result by its number and code.
    fn kind(reply: Option<&[u8]>) -> [u8; 3] {
        match reply {
            None => [0, 0, 0],
            Some([0xE5]) => [0xE5, 0, 0],
            Some([0x10, _, _, function, ..]) => [0x10, *function, 0],
            Some([0x68, _, _, _, _, _, 0x08, 62, 60, ..]) => [0x68, 60, 0],
            Some([0x68, _, _, _, _, _, 0x08, 51, 51, 0xDF, _, code, ..]) => [0x68, 51, *code],
            Some([0x68, _, _, _, _, _, 0x08, 51, 51, 0x5F, ..]) => [0x68, 51, 0],
            Some(other) => panic!("no reply of a printer: {other:02X?}"),
        }
    }

    #[test]
    fn every_reply_comes_and_only_writes_change_slots() {
        let random = &mut Random::new(22);
        let mut kinds = BTreeSet::new();
        let mut stage = Stage::fresh(23, false);
        for place in 0..40_000 {
            if place % 100 == 0 {
                let boarding = random.below(2) == 0;
                stage = Stage::with(random, Printer::fresh(7, boarding));
            }
            let before = stage.clone();
            let bytes = sample::any_heard(random, 7);
            let not_yet = random.below(3) as u8;
            let reply = stage.hear_with(&bytes, not_yet);
            kinds.insert(kind(reply.as_deref()));
            let (state, old) = (stage.state, before.state);
            assert_eq!((state.address, state.boarding), (7, old.boarding));
            let was_performed = state.writes == old.writes.saturating_add(1);
            assert!(was_performed || stage.slots == before.slots);
            assert!(was_performed || [0, old.writes].contains(&state.writes));
            assert!(!was_performed || old.pending.is_none() && state.pending.is_some());
        }
        let mut expected = BTreeSet::from([[0, 0, 0], [0xE5, 0, 0], [0x68, 60, 0]]);
        expected.extend((0..4).map(|function| [0x10, function, 0]));
        expected.extend([0, 0xB0, 0xB1, 0xB2, 0xB6].map(|code| [0x68, 51, code]));
        assert_eq!(kinds, expected);
    }
}

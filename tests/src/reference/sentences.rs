//! Document 01's sentences about a download, checked over the whole line and on
//! nothing but what was given, what was sent and what there is afterwards.

use super::book;
use super::controller::Ending;
use super::download::{run, run_along, Lent, Line, Outcome, Plan, Sending};
use super::download::{REPLY_LOST, REQUEST_LOST, THROUGH};
use super::printer::{Slots, BUFFER_ROOM};
use super::telegram;
use crate::random::Random;
use crate::samples::controllers::data_reply;
use crate::samples::downloads::{any_scene, bound, worked_on_every_line, Scene};
use crate::samples::{self, sd2_around as sd2};
use std::collections::BTreeMap;

const SC: &[u8] = &[0xE5];
/// Where an SD2 has DA, and where the data of one with both SAPs begins.
const DA: usize = 4;
const DATA: usize = 9;

/// A sending, kept.
#[derive(Debug, PartialEq, Eq)]
struct Sent {
    request: Vec<u8>,
    entry: u8,
    /// What the printer sent back, whether or not it arrived.
    reply: Option<Vec<u8>>,
    /// The printer's count of writes after it.
    writes: u8,
}

/// A download: what was given, its transcript, and what there is afterwards.
#[derive(Debug, PartialEq, Eq)]
struct Run {
    given: Scene,
    sent: Vec<Sent>,
    outcome: Outcome,
    slots: Slots,
    reply: [u8; BUFFER_ROOM],
}

impl Run {
    /// Keeps what `download` does.
    fn kept(
        given: &Scene,
        download: impl FnOnce(&Plan<'_>, Lent<'_>, &mut dyn FnMut(&Sending<'_>)) -> Result<Outcome, u8>,
    ) -> Self {
        let mut sent = Vec::new();
        let mut slots = given.slots.clone();
        let mut reply = given.reply;
        let lent = Lent {
            slots: &mut slots,
            request: &mut [0; BUFFER_ROOM],
            reply: &mut reply,
        };
        let mut keep = |sending: &Sending<'_>| {
            sent.push(Sent {
                request: sending.request.to_vec(),
                entry: sending.entry,
                reply: sending.reply.map(<[u8]>::to_vec),
                writes: sending.printer.writes,
            });
        };
        let outcome = download(&given.plan(), lent, &mut keep);
        Run {
            given: given.clone(),
            outcome: outcome.expect("not refused"),
            sent,
            slots,
            reply,
        }
    }

    fn with_losses(given: &Scene) -> Self {
        Run::kept(given, |plan, lent, seen| {
            run(plan, given.printer, lent, seen)
        })
    }

    fn with_damage(given: &Scene, random: &mut Random) -> Self {
        let mut line = Damage {
            random,
            bytes: Vec::new(),
        };
        Run::kept(given, |plan, lent, seen| {
            run_along(&mut line, plan, given.printer, lent, seen)
        })
    }
}

/// A line that brings bytes which framing refuses for those that are lost.
struct Damage<'r> {
    random: &'r mut Random,
    bytes: Vec<u8>,
}

impl Damage<'_> {
    fn damaged(&mut self, sent: &[u8]) -> &[u8] {
        self.bytes = samples::changed_cut_or_lengthened(self.random, sent);
        assert!(telegram::read(&self.bytes).is_err());
        &self.bytes
    }
}

impl Line for Damage<'_> {
    fn request<'a>(&'a mut self, entry: u8, sent: &'a [u8]) -> Option<&'a [u8]> {
        match entry {
            REQUEST_LOST => Some(self.damaged(sent)),
            _ => Some(sent),
        }
    }

    fn reply<'a>(&'a mut self, entry: u8, sent: &'a [u8]) -> Option<&'a [u8]> {
        match entry {
            REPLY_LOST => Some(self.damaged(sent)),
            _ => Some(sent),
        }
    }
}

/// A request after the opening, with all its sendings.
struct Asked<'a> {
    /// Whose it is, counted from 1.
    template: usize,
    /// Which poll of the template it is, counted from 1; 0 for its write.
    poll: usize,
    sendings: &'a [Sent],
    /// Whether one was heard.
    is_heard: bool,
    /// The reply that arrived, unless the request failed.
    answer: Option<&'a [u8]>,
}

impl Run {
    /// The opening, and the other requests in turn. A repeat is the same bytes
    /// again, and FCB makes two requests that follow each other differ.
    fn requests(&self) -> (&Sent, Vec<Asked<'_>>) {
        let (opening, rest) = self.sent.split_first().expect("it is always sent");
        let mut asked = Vec::new();
        let (mut template, mut poll) = (0, 0);
        for sendings in rest.chunk_by(|one, next| one.request == next.request) {
            // All but the polls have data before FCS and ED.
            if sendings[0].request.len() > DATA + 2 {
                (template, poll) = (template + 1, 0);
            } else {
                poll += 1;
            }
            asked.push(Asked {
                template,
                poll,
                sendings,
                is_heard: sendings.iter().any(|sent| self.is_heard(sent)),
                answer: sendings.iter().find_map(|sent| self.answer(sent)),
            });
        }
        (opening, asked)
    }

    /// "heard unless its request is lost or names another station"
    fn is_heard(&self, sent: &Sent) -> bool {
        sent.entry != REQUEST_LOST && sent.request[DA] & 0x7F == self.given.printer.address
    }

    /// "answered if its reply then arrives"
    fn answer<'a>(&self, sent: &'a Sent) -> Option<&'a [u8]> {
        let arrives = self.is_heard(sent) && sent.entry != REPLY_LOST;
        sent.reply.as_deref().filter(|_| arrives)
    }

    /// The number of "not yet" answers of a template's result.
    fn not_yet(&self, template: usize) -> usize {
        let number = self.given.not_yet.get(template - 1);
        number.copied().unwrap_or(0).into()
    }

    fn slot(&self, template: usize) -> u8 {
        book::template(&self.given.book, template)
            .expect("there")
            .slot
    }

    /// "index 7 while boarding"
    fn is_kept_out(&self, template: usize) -> bool {
        self.given.printer.boarding && self.slot(template) == 7
    }

    fn templates(&self) -> std::ops::RangeInclusive<usize> {
        1..=self.given.count()
    }

    /// The bytes of a request, from DA to the end of the data.
    fn to_printer(&self, fc: u8, saps: [u8; 2], data: &[u8]) -> Vec<u8> {
        let settings = &self.given.settings;
        let addresses = [0x80 | settings.printer, 0x80 | settings.controller];
        sd2(&[&addresses[..], &[fc], &saps, data].concat())
    }
}

/// Every sentence.
fn check(run: &Run) {
    let (opening, asked) = run.requests();
    check_count_and_bound(run);
    check_request_bytes(run, opening, &asked);
    check_sendings_of_each_request(run, opening, &asked);
    check_order_of_requests(run, &asked);
    check_count_of_writes(run, &asked);
    check_ending(run, opening, &asked);
    check_slots(run, &asked);
    let (before, after) = (run.given.printer, run.outcome.printer);
    assert_eq!(after.boarding, before.boarding);
    assert_eq!(after.address, before.address);
}

/// "the number of sendings: line entries used, one each in turn, missing ones,
/// which go through, included", and never more than the bound.
fn check_count_and_bound(run: &Run) {
    assert_eq!(run.outcome.sendings, run.sent.len());
    for (place, sent) in run.sent.iter().enumerate() {
        let entry = run.given.line.get(place).copied();
        assert_eq!(sent.entry, entry.unwrap_or(THROUGH));
    }
    assert!(run.sent.len() <= bound(&run.given.settings, run.given.count()));
}

/// "Slave_Diag once with FC 6D", then for each template "an SRD low write to slot
/// number 1, index the template's slot, then SRD low polls"; "FCB alternates from
/// 0 with each request throughout. A repeat keeps FCB."
fn check_request_bytes(run: &Run, opening: &Sent, asked: &[Asked<'_>]) {
    assert_eq!(opening.request, run.to_printer(0x6D, [60, 62], &[]));
    for (asked, fc) in asked.iter().zip([0x5C, 0x7C].into_iter().cycle()) {
        let template = book::template(&run.given.book, asked.template).expect("there");
        let head = [0x5F, 1, template.slot, template.body.len() as u8];
        let data = match asked.poll {
            0 => [&head[..], template.body].concat(),
            _ => Vec::new(),
        };
        let expected = run.to_printer(fc, [51, 51], &data);
        assert!(asked.sendings.iter().all(|sent| sent.request == expected));
    }
}

/// "each request is sent until answered, R + 1 times at most, and failed if it
/// never was"; nothing follows a request that failed.
fn check_sendings_of_each_request(run: &Run, opening: &Sent, asked: &[Asked<'_>]) {
    assert!(asked.is_empty() || run.answer(opening).is_some());
    let most = usize::from(run.given.settings.repeats) + 1;
    for (place, request) in asked.iter().enumerate() {
        let (last, before) = request.sendings.split_last().expect("a sending");
        assert!(before.iter().all(|sent| run.answer(sent).is_none()));
        assert!(request.sendings.len() <= most);
        if run.answer(last).is_none() {
            assert_eq!(request.sendings.len(), most);
            assert_eq!(place, asked.len() - 1);
        }
    }
}

/// A write and "then SRD low polls until one gets another reply than SC", which
/// is the poll after the "not yet" answers; P polls at most.
fn check_order_of_requests(run: &Run, asked: &[Asked<'_>]) {
    let mut expected = (1, 0);
    for request in asked {
        let (template, poll) = (request.template, request.poll);
        assert_eq!((template, poll), expected);
        assert!(poll <= usize::from(run.given.settings.polls));
        let Some(answer) = request.answer else {
            continue;
        };
        let is_result = poll > run.not_yet(template);
        assert_eq!(answer != SC, is_result, "{answer:02X?}");
        expected = match is_result {
            true => (template + 1, 0),
            false => (template, poll + 1),
        };
    }
}

/// "from 0 at each opening call", and "each write with a heard sending adds
/// exactly one, however many are heard: none is performed twice".
fn check_count_of_writes(run: &Run, asked: &[Asked<'_>]) {
    let (opening, rest) = run.sent.split_first().expect("it is always sent");
    let mut count = match run.is_heard(opening) {
        true => 0,
        false => run.given.printer.writes,
    };
    assert_eq!(opening.writes, count);
    let mut counts = rest.iter().map(|sent| sent.writes);
    for request in asked {
        let mut adds = request.poll == 0;
        for sent in request.sendings {
            if adds && run.is_heard(sent) {
                (count, adds) = (count + 1, false);
            }
            assert_eq!(counts.next(), Some(count));
        }
    }
    let heard = |request: &&Asked<'_>| request.poll == 0 && request.is_heard;
    if run.is_heard(opening) {
        assert_eq!(usize::from(count), asked.iter().filter(heard).count());
    }
    assert_eq!(run.outcome.printer.writes, count);
}

/// Each ending is given exactly when document 01 says.
fn check_ending(run: &Run, opening: &Sent, asked: &[Asked<'_>]) {
    let ending = run.outcome.ending;
    let opened = data_reply(&run.given.settings, [62, 60], &run.given.diagnosis);
    let is_opened = run.answer(opening) == Some(&opened[..]);
    assert_eq!(ending == Ending::NoOpening, !is_opened);

    let polls = usize::from(run.given.settings.polls);
    for k in run.templates() {
        let of_k = || asked.iter().filter(|request| request.template == k);
        let has_failed = of_k().any(|request| request.answer.is_none());
        assert_eq!(ending == Ending::NoAnswer(k as u8), has_failed);

        let confirmed = of_k().filter(|request| request.poll > 0 && request.answer == Some(SC));
        let is_late = confirmed.count() == polls;
        assert_eq!(ending == Ending::NotReady(k as u8), is_late);

        let codes = of_k().filter(|request| request.poll > 0).find_map(df_codes);
        let refused = codes.map(|codes| Ending::Refused {
            template: k as u8,
            codes,
        });
        let refused_at_k =
            matches!(ending, Ending::Refused { template, .. } if usize::from(template) == k);
        assert_eq!(refused_at_k.then_some(ending), refused);
        assert!(codes.is_none_or(|codes| codes == [0xB6, 0] && run.is_kept_out(k)));
        assert_ne!(ending, Ending::Strange(k as u8));
    }

    let has_failed = asked.iter().any(|request| request.answer.is_none());
    let is_ready = |k| run.not_yet(k) < polls;
    let is_done = is_opened
        && !has_failed
        && run.templates().all(is_ready)
        && !run.templates().any(|k| run.is_kept_out(k));
    assert_eq!(ending == Ending::Done, is_done);
}

/// The two codes of a negative answer to a write; low seven bits alone would
/// take the positive one for it.
fn df_codes(request: &Asked<'_>) -> Option<[u8; 2]> {
    match request.answer?.get(DATA..)? {
        [0xDF, 128, code1, code2, ..] => Some([*code1, *code2]),
        _ => None,
    }
}

/// "A new slot has its body's length, that body in front and its other bytes as
/// before; an old one is all as before." New are those whose write was heard and
/// not refused.
fn check_slots(run: &Run, asked: &[Asked<'_>]) {
    let mut expected = run.given.slots.clone();
    let mut news = 0;
    for request in asked.iter().filter(|request| request.poll == 0) {
        if request.is_heard && !run.is_kept_out(request.template) {
            let template = book::template(&run.given.book, request.template).expect("there");
            let slot = usize::from(template.slot);
            expected.lengths[slot] = template.body.len() as u8;
            expected.bodies[slot][..template.body.len()].copy_from_slice(template.body);
            news += 1;
        }
    }
    assert_eq!(run.slots, expected);
    let (least, most) = match run.outcome.ending {
        Ending::Done => (run.given.count(), run.given.count()),
        Ending::NoOpening => (0, 0),
        Ending::NoAnswer(k) | Ending::NotReady(k) => (usize::from(k) - 1, usize::from(k)),
        Ending::Refused { template, .. } => (usize::from(template) - 1, usize::from(template) - 1),
        Ending::Strange(_) => unreachable!("checked before"),
    };
    assert!((least..=most).contains(&news), "{news}");
}

/// How many runs came to each ending; each must, but for a strange reply.
#[derive(Default)]
struct Tally(BTreeMap<&'static str, usize>);

impl Tally {
    fn add(&mut self, run: &Run) {
        *self.0.entry(run.outcome.ending.name()).or_default() += 1;
    }

    fn expect_all(&self, title: &str) {
        println!("{title}: {:?}", self.0);
        let expected = ["done", "no answer", "no opening", "not ready", "refused"];
        assert!(self.0.keys().eq(&expected), "{:?}", self.0);
    }
}

#[test]
fn hold_for_any_line() {
    let random = &mut Random::new(1);
    let mut tally = Tally::default();
    let mut sendings = 0;
    let mut last: Option<Run> = None;
    for _ in 0..20_000 {
        let mut scene = any_scene(random);
        if let Some(left) = last.filter(|_| random.below(2) == 0) {
            scene = scene.after(left.outcome.printer, left.slots, left.reply);
        }
        let run = Run::with_losses(&scene);
        check(&run);
        assert_eq!(Run::with_damage(&scene, random), run);
        tally.add(&run);
        sendings += run.sent.len();
        last = Some(run);
    }
    tally.expect_all(&format!("any line, {sendings} sendings"));
}

#[test]
fn hold_for_every_line_of_the_worked_download() {
    let random = &mut Random::new(2);
    let mut tally = Tally::default();
    for scene in worked_on_every_line() {
        let run = Run::with_losses(&scene);
        check(&run);
        assert_eq!(Run::with_damage(&scene, random), run);
        tally.add(&run);
    }
    tally.expect_all("every line of the worked download");
}

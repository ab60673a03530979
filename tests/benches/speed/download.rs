//! A download of sixteen templates of 200 bytes: whole, and the steps of either end
//! along it.

use crate::controller_side::{self, Standing, GOES_ON};
use crate::download_side;
use crate::measure::{called, Load, Row};
use crate::printer_side::{self, Given, Station};
use rabtunex_tests::random::Random;
use rabtunex_tests::reference::controller::{self, Ending, Move, Settings, State};
use rabtunex_tests::reference::download::{self, Lent, Outcome, Sending};
use rabtunex_tests::reference::download::{REPLY_LOST, REQUEST_LOST, THROUGH};
use rabtunex_tests::reference::printer::{self, Printer, Slots, BUFFER_ROOM};
use rabtunex_tests::samples::books;
use rabtunex_tests::samples::downloads::{worked, Scene};
use std::hint::black_box;

/// A download of the longest book along a line that loses nothing; each result is
/// there at the second poll.
fn through() -> Scene {
    let random = &mut Random::new(7);
    let mut scene = worked();
    scene.settings = Settings {
        repeats: 7,
        polls: 4,
        ..scene.settings
    };
    scene.book = books::all_forms(random).pop().expect("the longest");
    scene.line = Vec::new();
    scene.not_yet = vec![1; scene.count()];
    scene
}

/// The same along a line that loses one in six of the requests and of the replies.
fn lossy() -> Scene {
    const ENTRIES: [u8; 6] = [REQUEST_LOST, REPLY_LOST, THROUGH, THROUGH, THROUGH, THROUGH];
    const SENDINGS: usize = 200;
    let random = &mut Random::new(8);
    let mut scene = through();
    // The opening is never sent again.
    scene.line = vec![THROUGH];
    let entries = (0..SENDINGS).map(|_| *random.pick(&ENTRIES));
    scene.line.extend(entries);
    scene
}

/// What the Rust's end of the line has: the printer and all that is lent.
#[derive(Clone)]
struct Place {
    printer: Printer,
    slots: Slots,
    request: [u8; BUFFER_ROOM],
    reply: [u8; BUFFER_ROOM],
}

impl Place {
    fn of(scene: &Scene) -> Self {
        Place {
            printer: scene.printer,
            slots: scene.slots.clone(),
            request: [0; BUFFER_ROOM],
            reply: scene.reply,
        }
    }

    fn run(&mut self, scene: &Scene, seen: impl FnMut(&Sending<'_>)) -> Outcome {
        let lent = Lent {
            slots: &mut self.slots,
            request: &mut self.request,
            reply: &mut self.reply,
        };
        let printer = self.printer;
        let outcome = called(move || download::run(&scene.plan(), printer, lent, seen));
        let outcome = outcome.expect("not refused");
        self.printer = outcome.printer;
        outcome
    }
}

/// What the library's has.
fn station_of(scene: &Scene) -> Station {
    Station::new(&scene.printer, &scene.slots, &scene.reply)
}

/// What arrives at either end of a download, in turn.
#[derive(Default)]
struct Course {
    requests: Vec<Vec<u8>>,
    replies: Vec<Vec<u8>>,
    load: Load,
}

impl Course {
    fn of(scene: &Scene) -> Self {
        // Before the first request no reply was sent.
        let mut course = Course {
            replies: vec![Vec::new()],
            ..Course::default()
        };
        let outcome = Place::of(scene).run(scene, |sending| course.add(sending));
        assert_eq!(outcome.ending, Ending::Done);
        course
    }

    fn add(&mut self, sending: &Sending<'_>) {
        let Sending {
            request,
            entry,
            reply,
            ..
        } = *sending;
        let reply = reply.unwrap_or_default();
        self.load.add(request);
        self.load.add(reply);
        if entry != REQUEST_LOST {
            self.requests.push(request.to_vec());
        }
        let arrived = if entry == THROUGH { reply } else { &[] };
        self.replies.push(arrived.to_vec());
    }
}

/// The printer hears every request that reaches it along a lossy download.
pub struct PrinterSteps {
    scene: Scene,
    requests: Vec<Vec<u8>>,
    station: Station,
    place: Place,
    load: Load,
}

impl PrinterSteps {
    /// Along the lossy download.
    pub fn new() -> Self {
        let scene = lossy();
        let requests = Course::of(&scene).requests;
        let mut load = Load::of(requests.iter().map(Vec::as_slice));
        let (mut station, mut place) = (station_of(&scene), Place::of(&scene));
        for request in &requests {
            let sent = hear_library(&scene, &mut station, request);
            assert_eq!(sent, place.hear(&scene, request).unwrap_or(0));
            assert_eq!(station.reply.lent()[..sent], place.reply[..sent]);
            assert_eq!(station.printer(), Some(place.printer));
            load.add(&place.reply[..sent]);
        }
        assert!(station.slots() == place.slots);
        PrinterSteps {
            scene,
            requests,
            station,
            place,
            load,
        }
    }
}

/// The library's printer hears a request: how many bytes it sends back.
fn hear_library(scene: &Scene, station: &mut Station, telegram: &[u8]) -> usize {
    let given = Given {
        telegram,
        diagnosis: &scene.diagnosis,
        not_yet: 1,
    };
    let mut sent = 0;
    assert_eq!(printer_side::step(station, &given, &mut sent), 0);
    sent
}

impl Place {
    fn hear(&mut self, scene: &Scene, telegram: &[u8]) -> Option<usize> {
        let Place {
            printer,
            slots,
            reply,
            ..
        } = self;
        let (state, diagnosis) = (*printer, &scene.diagnosis);
        let step = called(move || printer::step(state, slots, diagnosis, telegram, 1, reply));
        let (next, sent) = step.expect("not refused");
        *printer = next;
        sent
    }
}

impl Row for PrinterSteps {
    fn name(&self) -> String {
        "printer's steps".into()
    }

    fn load(&self) -> Load {
        self.load
    }

    fn library(&mut self) {
        for request in &self.requests {
            let sent = hear_library(&self.scene, &mut self.station, black_box(request));
            black_box(sent);
            black_box(&self.station);
        }
    }

    fn rust(&mut self) {
        for request in &self.requests {
            let sent = self.place.hear(&self.scene, black_box(request));
            black_box(sent);
            black_box(&self.place);
        }
    }
}

/// The controller gets every reply that comes back along a lossy download.
pub struct ControllerSteps {
    scene: Scene,
    replies: Vec<Vec<u8>>,
    load: Load,
}

impl ControllerSteps {
    /// Along the lossy download.
    pub fn new() -> Self {
        let scene = lossy();
        let replies = Course::of(&scene).replies;
        let (mut library, mut rust) = (Vec::new(), Vec::new());
        let ending = steer_library(&scene, &replies, |request| library.push(request.to_vec()));
        let done = steer_rust(&scene, &replies, |request| rust.push(request.to_vec()));
        assert_eq!((library, ending), (rust.clone(), done.fields()));
        let telegrams = replies.iter().chain(&rust);
        let load = Load::of(telegrams.map(Vec::as_slice));
        ControllerSteps {
            scene,
            replies,
            load,
        }
    }
}

/// The library's controller gets the replies, and shows each request to `seen`.
fn steer_library(scene: &Scene, replies: &[Vec<u8>], mut seen: impl FnMut(&[u8])) -> Standing {
    let mut request = [0; BUFFER_ROOM];
    let mut state = [0; 5];
    let mut standing = GOES_ON;
    for reply in replies {
        let mut stored = 0;
        let number = controller_side::step(
            &scene.settings,
            &scene.book,
            &mut state,
            black_box(reply),
            &mut request,
            &mut stored,
            &mut standing,
        );
        assert_eq!(number, 0);
        if standing != GOES_ON {
            break;
        }
        seen(&request[..stored]);
    }
    standing
}

/// The Rust's controller gets the same.
fn steer_rust(scene: &Scene, replies: &[Vec<u8>], mut seen: impl FnMut(&[u8])) -> Ending {
    let Scene { settings, book, .. } = scene;
    let mut request = [0; BUFFER_ROOM];
    let mut state = State::Fresh;
    for reply in replies {
        let (reply, out) = (black_box(reply), &mut request);
        let step = called(move || controller::step(settings, book, state, reply, out));
        match step.expect("not refused") {
            Move::Send {
                state: next,
                length,
            } => {
                state = next;
                seen(&request[..length]);
            }
            Move::End(ending) => return ending,
        }
    }
    panic!("the replies are those of a whole download");
}

impl Row for ControllerSteps {
    fn name(&self) -> String {
        "controller's steps".into()
    }

    fn load(&self) -> Load {
        self.load
    }

    fn library(&mut self) {
        black_box(steer_library(&self.scene, &self.replies, |request| {
            black_box(request);
        }));
    }

    fn rust(&mut self) {
        black_box(steer_rust(&self.scene, &self.replies, |request| {
            black_box(request);
        }));
    }
}

/// Whole downloads, each to the printer as the last has left it.
pub struct Downloads {
    name: &'static str,
    scene: Scene,
    station: Station,
    place: Place,
    load: Load,
}

impl Downloads {
    /// Along a line that loses nothing.
    pub fn through() -> Self {
        Downloads::of("download, nothing lost", through())
    }

    /// Along a lossy line.
    pub fn lossy() -> Self {
        Downloads::of("download, a third lost", lossy())
    }

    fn of(name: &'static str, scene: Scene) -> Self {
        let (mut station, mut place) = (station_of(&scene), Place::of(&scene));
        let load = Course::of(&scene).load;
        // The second begins where the first has ended.
        for _ in 0..2 {
            let (standing, sendings) = run_library(&scene, &mut station);
            let outcome = place.run(&scene, |_| {});
            assert_eq!(outcome.ending, Ending::Done);
            assert_eq!(standing, outcome.ending.fields());
            assert_eq!(sendings, outcome.sendings);
            assert_eq!(station.printer(), Some(place.printer));
            assert_eq!(*station.reply.lent(), place.reply);
            assert!(station.slots() == place.slots);
        }
        Downloads {
            name,
            scene,
            station,
            place,
            load,
        }
    }
}

fn run_library(scene: &Scene, station: &mut Station) -> (Standing, usize) {
    let mut request = [0; BUFFER_ROOM];
    let mut standing = GOES_ON;
    let mut sendings = 0;
    let plan = scene.plan();
    let number = download_side::run(&plan, station, &mut request, &mut standing, &mut sendings);
    assert_eq!(number, 0);
    (standing, sendings)
}

impl Row for Downloads {
    fn name(&self) -> String {
        format!("{}, {} telegrams", self.name, self.load.telegrams())
    }

    fn load(&self) -> Load {
        self.load
    }

    fn library(&mut self) {
        black_box(run_library(black_box(&self.scene), &mut self.station));
    }

    fn rust(&mut self) {
        black_box(self.place.run(black_box(&self.scene), |_| {}));
    }
}

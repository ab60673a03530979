//! How a row is measured: both sides in turns, many rounds of a millisecond or more,
//! and the median of each.

use rabtunex_tests::speed::{median, wire_nanoseconds};
use std::time::{Duration, Instant};

/// How many rounds each side has.
const ROUNDS: usize = 501;
/// How long a round takes at least.
const ROUND: Duration = Duration::from_millis(1);

/// One kind of work, to be done by both sides on the same inputs. Whoever makes a
/// row has seen that both come to the same.
pub trait Row {
    /// What is done.
    fn name(&self) -> String;
    /// How much a pass is.
    fn load(&self) -> Load;
    /// The library's pass over all inputs.
    fn library(&mut self);
    /// The Rust's.
    fn rust(&mut self);
}

/// The answer of a function that is called, as the library's are: put into the
/// measured loop, it would be measured without what a caller pays.
#[inline(never)]
pub fn called<A>(function: impl FnOnce() -> A) -> A {
    function()
}

/// What goes over the line in a pass.
#[derive(Clone, Copy, Default)]
pub struct Load {
    telegrams: usize,
    characters: usize,
}

impl Load {
    /// The load of these telegrams.
    pub fn of<'a>(telegrams: impl IntoIterator<Item = &'a [u8]>) -> Self {
        let mut load = Load::default();
        for telegram in telegrams {
            load.add(telegram);
        }
        load
    }

    /// Another telegram goes over the line; no bytes are none.
    pub fn add(&mut self, telegram: &[u8]) {
        self.telegrams += usize::from(!telegram.is_empty());
        self.characters += telegram.len();
    }

    /// How many telegrams there are.
    pub fn telegrams(self) -> usize {
        self.telegrams
    }
}

/// Nanoseconds a telegram.
pub struct Figures {
    library: f64,
    rust: f64,
    wire: f64,
}

#[derive(Clone, Copy)]
enum Side {
    Library,
    Rust,
}

/// Measures a row, the first side of a round being the second of the next.
pub fn measure(row: &mut dyn Row) -> Figures {
    let mut library = Rounds::of(row, Side::Library);
    let mut rust = Rounds::of(row, Side::Rust);
    for round in 0..ROUNDS {
        let mut order = [&mut library, &mut rust];
        if round % 2 == 1 {
            order.reverse();
        }
        for side in order {
            side.add(row);
        }
    }
    let load = row.load();
    let telegrams = load.telegrams as f64;
    Figures {
        library: library.median() / telegrams,
        rust: rust.median() / telegrams,
        wire: wire_nanoseconds(load.characters) / telegrams,
    }
}

/// The rounds of a side. Those of both last alike, since a longer one is more likely
/// to be interrupted.
struct Rounds {
    side: Side,
    passes: usize,
    /// How long a pass took in each, in nanoseconds.
    times: Vec<f64>,
}

impl Rounds {
    /// None yet, but the caches are warm.
    fn of(row: &mut dyn Row, side: Side) -> Self {
        let mut passes = 1;
        while time(row, side, passes) < ROUND {
            passes *= 2;
        }
        Rounds {
            side,
            passes,
            times: Vec::new(),
        }
    }

    fn add(&mut self, row: &mut dyn Row) {
        let round = time(row, self.side, self.passes);
        self.times
            .push(round.as_nanos() as f64 / self.passes as f64);
    }

    fn median(self) -> f64 {
        median(self.times)
    }
}

fn time(row: &mut dyn Row, side: Side, passes: usize) -> Duration {
    let start = Instant::now();
    for _ in 0..passes {
        match side {
            Side::Library => row.library(),
            Side::Rust => row.rust(),
        }
    }
    start.elapsed()
}

/// The titles of the columns.
pub fn print_head() {
    println!(
        "{:<44} {:>10} {:>8} {:>5} {:>8} {:>7}",
        "nanoseconds a telegram", "library", "Rust", "ratio", "wire", "share"
    );
}

impl Figures {
    /// The line of a row.
    pub fn print(&self, name: &str) {
        let Figures {
            library,
            rust,
            wire,
        } = *self;
        let ratio = library / rust;
        let share = 100.0 * library / wire;
        println!("{name:<44} {library:>10.1} {rust:>8.1} {ratio:>5.2} {wire:>8.0} {share:>6.3}%");
    }
}

//! The proved library against the independent Rust, on the same inputs: a line for
//! each kind of work, in nanoseconds a telegram (`docs/PERFORMANCE.md`).

#![deny(unsafe_code)]

// The calls to C and what they share are those of the tests.
#[path = "../../tests/controller_side/mod.rs"]
mod controller_side;
#[allow(unsafe_code)]
#[path = "../../tests/data_library/mod.rs"]
mod data_library;
#[path = "../../tests/download_side/mod.rs"]
mod download_side;
#[allow(unsafe_code)]
#[path = "../../tests/library/mod.rs"]
mod library;
#[allow(dead_code)]
#[path = "../../tests/memory/mod.rs"]
mod memory;
#[allow(dead_code)]
#[path = "../../tests/printer_side/mod.rs"]
mod printer_side;
#[allow(unsafe_code)]
#[path = "../../tests/service_library/mod.rs"]
mod service_library;

mod data;
mod download;
mod measure;
mod services;
mod telegrams;

use measure::{measure, Row};
use std::env;

fn main() {
    let rows: [Box<dyn Row>; 13] = [
        Box::new(telegrams::Reading::mix()),
        Box::new(telegrams::Reading::largest()),
        Box::new(telegrams::Reading::short()),
        Box::new(telegrams::Writing::mix()),
        Box::new(telegrams::Writing::largest()),
        Box::new(services::Reading::mix()),
        Box::new(services::Writing::mix()),
        Box::new(data::Diagnoses::new()),
        Box::new(data::Configurations::new()),
        Box::new(download::PrinterSteps::new()),
        Box::new(download::ControllerSteps::new()),
        Box::new(download::Downloads::through()),
        Box::new(download::Downloads::lossy()),
    ];
    // Cargo has flags of its own among the words.
    let words: Vec<String> = env::args()
        .skip(1)
        .filter(|word| !word.starts_with('-'))
        .collect();
    measure::print_head();
    for mut row in rows {
        let name = row.name();
        if words.iter().all(|word| name.contains(word)) {
            measure(&mut *row).print(&name);
        }
    }
}

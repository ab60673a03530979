//! The vectors program and the reference on the same fields to write, right and
//! wrong: every line that one answers the other must answer too.

#![forbid(unsafe_code)]

mod numbers;
mod repository;
mod vectors;

use numbers::Numbers;
use rabtunex_tests::random::Random;
use rabtunex_tests::reference::parameters::Mode;
use rabtunex_tests::reference::service_text::Service;
use rabtunex_tests::reference::text;
use rabtunex_tests::reference::writer_text::{Writer, MALFORMED};
use rabtunex_tests::samples::{services, writers};
use std::collections::BTreeMap;

/// How many lines each writer gets.
const CASES: usize = 60_000;
/// How many lines that do not make fields each writer gets.
const MALFORMED_CASES: usize = 2_000;
/// How many lines are each announced anew.
const TURNS: usize = 20_000;

#[test]
fn diagnosis_is_written_alike() {
    check_writer(1, Writer::Diagnosis);
}

#[test]
fn device_block_is_written_alike() {
    check_writer(2, Writer::DeviceBlock);
}

#[test]
fn module_block_is_written_alike() {
    check_writer(3, Writer::ModuleBlock);
}

#[test]
fn channel_block_is_written_alike() {
    check_writer(4, Writer::ChannelBlock);
}

#[test]
fn parameters_as_dpv0_are_written_alike() {
    check_writer(5, Writer::Parameters(Mode::Dpv0));
}

#[test]
fn parameters_as_dpv1_are_written_alike() {
    check_writer(6, Writer::Parameters(Mode::Dpv1));
}

#[test]
fn configuration_module_is_written_alike() {
    check_writer(7, Writer::Module);
}

#[test]
fn configuration_is_written_alike() {
    check_writer(8, Writer::Configuration);
}

#[test]
fn set_slave_adr_is_written_alike() {
    check_writer(9, Writer::SetSlaveAdr);
}

#[test]
fn global_control_is_written_alike() {
    check_writer(10, Writer::GlobalControl);
}

#[test]
fn dpv1_call_is_written_alike() {
    check_writer(13, Writer::Dpv1Call);
}

#[test]
fn dpv1_answer_is_written_alike() {
    check_writer(14, Writer::Dpv1Answer);
}

#[test]
fn typed_value_is_written_alike() {
    check_writer(15, Writer::TypedValue);
}

#[test]
fn template_book_is_written_alike() {
    check_writer(16, Writer::Book);
}

/// The program keeps no more of a line than the fields of any book need.
#[test]
fn bodies_far_too_long_are_answered_alike() {
    const FAR_CASES: usize = 400;
    let random = &mut Random::new(17);
    let lines = (0..FAR_CASES).map(|_| {
        let surplus = random.between(4_000, 10_000);
        let mut line = writers::line(random, Writer::Book);
        line.extend(random.bytes(surplus));
        line
    });
    let numbers = Numbers::of(&answers(Writer::Book, &lines.collect::<Vec<_>>()));
    numbers.print("bodies far too long");
    assert_eq!(numbers.counts, BTreeMap::from([(32, FAR_CASES)]));
}

#[test]
fn bytes_that_do_not_make_fields_are_answered_alike() {
    let random = &mut Random::new(11);
    for writer in Writer::ALL {
        let lines = (0..MALFORMED_CASES).map(|_| writers::malformed(random, writer));
        let answers = answers(writer, &lines.collect::<Vec<_>>());
        assert!(answers.lines().all(|answer| answer == MALFORMED));
        assert_eq!(answers.lines().count(), MALFORMED_CASES, "{writer:?}");
    }
    let count = MALFORMED_CASES * Writer::ALL.len();
    println!("bytes that do not make fields: {count} cases");
}

/// Nothing of what was announced before, nor of its bytes, may be left over.
#[test]
fn writers_and_services_in_turn_are_answered_alike() {
    let random = &mut Random::new(12);
    let mut vectors = String::new();
    for _ in 0..TURNS {
        let (announcement, bytes) = match random.below(4) {
            0 => {
                let service = *random.pick(&Service::ALL);
                let bytes = services::any_valid(random, service);
                (format!("={}", service.letter()), bytes)
            }
            _ => {
                let writer = *random.pick(&Writer::ALL);
                let bytes = writers::line(random, writer);
                (format!(">{}", writer.letter()), bytes)
            }
        };
        vectors += &format!("{announcement}\n{}\n", text::to_hex(&bytes));
    }
    let numbers = Numbers::of(&vectors::answers(&vectors));
    assert_eq!(numbers.cases(), TURNS);
    println!("writers and services in turn: {TURNS} cases");
}

/// Runs lines of the writer through both, and prints how often each number came;
/// each that the writer has must have come, and no other.
fn check_writer(seed: u64, writer: Writer) {
    let random = &mut Random::new(seed);
    let lines = (0..CASES).map(|_| writers::line(random, writer));
    let numbers = Numbers::of(&answers(writer, &lines.collect::<Vec<_>>()));
    numbers.print(writer.name());
    assert_eq!(numbers.cases(), CASES);
    numbers.expect(writers::refusals(writer));
}

/// What both answer to lines of the writer.
fn answers(writer: Writer, lines: &[Vec<u8>]) -> String {
    let announcement = format!(">{}", writer.letter());
    vectors::answers(&vectors::text(&announcement, lines))
}

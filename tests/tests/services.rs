//! The vectors program and the reference on the same data of services: every
//! line that one answers the other must answer too.

#![forbid(unsafe_code)]

mod numbers;
mod repository;
mod vectors;

use numbers::Numbers;
use rabtunex_tests::random::Random;
use rabtunex_tests::reference::parameters::Mode;
use rabtunex_tests::reference::service_text::Service;
use rabtunex_tests::reference::{download_text, service_telegram_text, text};
use rabtunex_tests::samples::services::{self, Source};
use rabtunex_tests::samples::{self, books, parameters::MODES};
use rabtunex_tests::samples::{download_lines, service_telegrams};
use std::collections::BTreeMap;

/// How many inputs each service gets at least.
const CASES: usize = 100_000;
/// How many inputs are each announced anew.
const TURNS: usize = 20_000;

#[test]
fn diagnosis_is_answered_alike() {
    check_service(1, Service::Diagnosis);
}

#[test]
fn parameters_as_dpv0_are_answered_alike() {
    check_service(2, Service::Parameters(Mode::Dpv0));
}

#[test]
fn parameters_as_dpv1_are_answered_alike() {
    check_service(3, Service::Parameters(Mode::Dpv1));
}

#[test]
fn configuration_is_answered_alike() {
    check_service(4, Service::Configuration);
}

#[test]
fn set_slave_adr_is_answered_alike() {
    check_service(5, Service::SetSlaveAdr);
}

#[test]
fn global_control_is_answered_alike() {
    check_service(6, Service::GlobalControl);
}

#[test]
fn dpv1_calls_are_answered_alike() {
    check_service(8, Service::Dpv1Call);
}

#[test]
fn dpv1_answers_are_answered_alike() {
    check_service(9, Service::Dpv1Answer);
}

#[test]
fn typed_values_are_answered_alike() {
    check_service(10, Service::TypedValue);
}

#[test]
fn template_books_are_answered_alike() {
    check_service(11, Service::Book);
}

/// The program keeps no more of a line than any book needs.
#[test]
fn bytes_far_behind_a_book_are_answered_alike() {
    const FAR_CASES: usize = 400;
    let random = &mut Random::new(13);
    let mut inputs = services::all_forms(random, Service::Book);
    inputs.extend((0..FAR_CASES).map(|_| books::damaged(random)));
    for input in &mut inputs {
        let surplus = random.between(4_000, 10_000);
        input.extend(random.bytes(surplus));
    }
    let vectors = vectors::text(&format!("={}", Service::Book.letter()), &inputs);
    let numbers = Numbers::of(&vectors::answers(&vectors));
    numbers.print("bytes far behind a book");
    assert!(!numbers.counts.contains_key(&0));
    assert!(numbers.counts.contains_key(&4));
}

/// Nothing of the service before, nor of its data, may be left over.
#[test]
fn services_telegrams_and_downloads_in_turn_are_answered_alike() {
    let random = &mut Random::new(7);
    let mut vectors = String::new();
    for _ in 0..TURNS {
        let (letter, bytes) = match random.below(Service::ALL.len() + 3) {
            0 => (text::TELEGRAMS, samples::any_valid(random)),
            1 => {
                let mode = *random.pick(&MODES);
                let bytes = service_telegrams::any_valid(random, mode);
                (service_telegram_text::letter(mode), bytes)
            }
            2 => (download_text::LETTER, download_lines::any_right(random)),
            place => {
                let service = Service::ALL[place - 3];
                (service.letter(), services::any_valid(random, service))
            }
        };
        vectors += &format!("={letter}\n{}\n", text::to_hex(&bytes));
    }
    let numbers = Numbers::of(&vectors::answers(&vectors));
    assert_eq!(numbers.counts, BTreeMap::from([(0, TURNS)]));
    println!("services, telegrams and downloads in turn: {TURNS} cases");
}

/// Runs the service's inputs through both, and prints how often each number
/// came; each that the service has must have come, and no other.
fn check_service(seed: u64, service: Service) {
    let inputs = inputs(&mut Random::new(seed), service);
    let vectors = vectors::text(&format!("={}", service.letter()), &inputs);
    let numbers = Numbers::of(&vectors::answers(&vectors));
    numbers.print(service.name());
    assert_eq!(numbers.cases(), inputs.len());
    assert!(inputs.len() >= CASES, "only {} inputs", inputs.len());
    numbers.expect(services::refusals(service));
}

/// Any bytes, valid data of any shape and of all forms; then as many again that
/// were valid before the damage in one place.
fn inputs(random: &mut Random, service: Service) -> Vec<Vec<u8>> {
    let mut inputs = in_turn(random, &services::noises(service), CASES / 8);
    inputs.extend((0..CASES / 8).map(|_| services::any_valid(random, service)));
    while inputs.len() < CASES / 2 {
        inputs.extend(services::all_forms(random, service));
    }
    let damaged = in_turn(random, &services::damages(service), inputs.len());
    inputs.extend(damaged);
    inputs
}

/// Samples of each source in turn.
fn in_turn(random: &mut Random, sources: &[Source], count: usize) -> Vec<Vec<u8>> {
    let in_turn = sources.iter().cycle().take(count);
    in_turn.map(|source| source.sample(random)).collect()
}

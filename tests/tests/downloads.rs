//! The vectors program and the reference on the same whole downloads: every line
//! that one answers the other must answer too.

#![forbid(unsafe_code)]

mod repository;
// These counts are not known beforehand.
#[allow(dead_code)]
mod tally;
mod vectors;

use rabtunex_tests::random::Random;
use rabtunex_tests::reference::download_text::LETTER;
use rabtunex_tests::samples::download_lines::{self as samples, OUTCOMES};
use rabtunex_tests::samples::downloads::{worked, worked_while_boarding};
use tally::Tally;

/// How many downloads there are of each kind.
const OF_EACH_KIND: usize = 2000;

/// What both answer to these downloads.
fn answers(lines: &[Vec<u8>]) -> String {
    vectors::answers(&vectors::text(&format!("={LETTER}"), lines))
}

/// Document 01's download, and the same while boarding.
#[test]
fn worked_downloads_are_answered_alike() {
    let scenes = [worked(), worked_while_boarding()];
    let expected = "0 1 0 0 0 6 1 | 7 3 41 42 43\n0 5 1 182 0 6 1\n";
    assert_eq!(
        answers(&scenes.map(|scene| samples::bytes(&scene))),
        expected
    );
}

#[test]
fn seeded_downloads_are_answered_alike() {
    let random = &mut Random::new(1);
    let kinds = samples::kinds();
    let lines = kinds.iter().flat_map(|kind| [kind; OF_EACH_KIND]);
    let lines: Vec<Vec<u8>> = lines.map(|kind| kind.sample(random)).collect();
    let mut tally = Tally::new("seeded downloads");
    for answer in answers(&lines).lines() {
        let outcome = samples::outcome_of(answer);
        tally.add(outcome.unwrap_or_else(|| panic!("no outcome: {answer}")));
    }
    tally.expect_only(&OUTCOMES.map(|(_, outcome)| outcome));
    assert_eq!(tally.total(), lines.len());
}

/// The program keeps no more of a line than any download needs.
#[test]
fn bytes_far_behind_a_download_are_answered_alike() {
    let random = &mut Random::new(2);
    let longest = samples::longest(random);
    let with_more =
        [1, 300, 1000, 10_000].map(|count| [&longest[..], &random.bytes(count)].concat());
    assert!(answers(&[longest]).starts_with("0 1 0 0 0 49 16 | 0 200 "));
    assert_eq!(answers(&with_more), "4\n".repeat(with_more.len()));
}

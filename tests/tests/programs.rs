//! The library's programs and the reference on the same input: the show and the
//! simulate program print the reference's lines, and the files that the vectors and
//! the simulate program are run on and held to are the reference's.

#![forbid(unsafe_code)]

mod repository;
// These counts are not known beforehand.
#[allow(dead_code)]
mod tally;

use rabtunex_tests::random::Random;
use rabtunex_tests::reference::parameters::Mode;
use rabtunex_tests::reference::{show_text, simulate_text, text};
use rabtunex_tests::samples::downloads::{worked, worked_while_boarding};
use rabtunex_tests::samples::{self, service_telegrams, shown as words, simulated, Saps};
use repository::root;
use std::fs;
use std::io::{ErrorKind, Write};
use std::process::{Command, Stdio};
use std::sync::Once;
use tally::Tally;

const SAMPLES_OF_EACH_KIND: usize = 40;
/// Service telegrams of any form, and those with each kind of damage.
const VALID_SERVICES: usize = 120;
const SERVICES_OF_EACH_DAMAGE: usize = 6;
/// Downloads of each kind of input.
const DOWNLOADS_OF_EACH_KIND: usize = 60;

/// One sample of a kind.
type Make = fn(&mut Random) -> Vec<u8>;

const KINDS: [(&str, Make); 11] = [
    ("token", samples::token),
    ("SD1", samples::sd1),
    ("SD2", samples::any_sd2),
    ("SD3", any_sd3),
    ("one byte changed", |random| {
        let telegram = samples::any_valid(random);
        samples::with_one_byte_changed(random, &telegram)
    }),
    ("cut short", |random| {
        let telegram = samples::any_valid(random);
        samples::cut_short(random, &telegram)
    }),
    ("lengthened", |random| {
        let telegram = samples::any_valid(random);
        samples::lengthened(random, &telegram)
    }),
    ("one byte changed, FCS mended", |random| {
        let frame = samples::any_frame(random);
        samples::changed_and_mended(random, &frame)
    }),
    ("LE, LEr or second SD2 changed", |random| {
        let sd2 = samples::any_sd2(random);
        samples::with_length_bytes_changed(random, &sd2)
    }),
    ("any bytes", samples::noise),
    ("any bytes after a start byte", samples::noise_after_start),
];

fn any_sd3(random: &mut Random) -> Vec<u8> {
    let saps = *random.pick(&Saps::ALL);
    samples::sd3(random, saps)
}

/// What a program prints for these bytes.
fn printed(program: &str, bytes: &[u8]) -> String {
    // The first run may build the program, which no two may do side by side.
    static BUILT: Once = Once::new();
    BUILT.call_once(|| {
        for program in ["show", "simulate"] {
            run(program, &[]);
        }
    });
    run(program, bytes)
}

fn run(program: &str, bytes: &[u8]) -> String {
    let mut child = Command::new(root().join(program))
        .stdin(Stdio::piped())
        .stdout(Stdio::piped())
        .spawn()
        .unwrap_or_else(|error| panic!("{program}: {error}"));
    let written = child.stdin.take().expect("piped").write_all(bytes);
    if let Err(error) = written {
        // The program reads no more than can matter, and is done.
        assert_eq!(error.kind(), ErrorKind::BrokenPipe, "{error}");
    }
    let output = child.wait_with_output().expect("it ends");
    assert!(output.status.success(), "{program}: {}", output.status);
    String::from_utf8(output.stdout).expect("text")
}

/// What the show program prints for these bytes.
fn shown(bytes: &[u8]) -> String {
    printed("show", bytes)
}

fn check_shown(name: &str, bytes: &[u8]) {
    let expected = show_text::lines(bytes);
    assert_eq!(shown(bytes), expected, "{name}: {bytes:02X?}");
}

/// The lines of the simulate program, which must be the reference's.
fn check_simulated(name: &str, bytes: &[u8]) -> String {
    let expected = simulate_text::lines(bytes);
    let name = format!("{name}: {bytes:02X?}");
    check_same_lines(&name, &printed("simulate", bytes), &expected);
    expected
}

#[test]
fn every_worked_row_is_shown() {
    let rows = samples::worked_rows();
    for (name, bytes) in rows {
        check_shown(name, bytes);
    }
    let mut long = samples::largest();
    long.resize(100_000, 0);
    let more = [
        ("LE 249", samples::largest()),
        ("LE 250", samples::largest_with_le_250()),
        ("LE 250, one byte more", samples::one_longer_than_largest()),
        ("nothing", Vec::new()),
        ("100,000 bytes", long),
    ];
    for (name, bytes) in &more {
        check_shown(name, bytes);
    }
    println!("worked rows shown: {}", rows.len() + more.len());
}

/// The two lines that document 01 gives itself.
#[test]
fn lines_of_document_01_are_shown() {
    let status_call = shown(&[0x10, 0x07, 0x02, 0x49, 0x52, 0x16]);
    assert_eq!(status_call, "SD1 to 7 from 2 fc 49\n");
    let wrong_checksum = shown(&[0x10, 0x07, 0x02, 0x49, 0x53, 0x16]);
    assert_eq!(wrong_checksum, "refused 6\n");
}

#[test]
fn seeded_samples_are_shown() {
    let random = &mut Random::new(2027);
    for (name, make) in KINDS {
        for _ in 0..SAMPLES_OF_EACH_KIND {
            check_shown(name, &make(random));
        }
    }
    let kinds = KINDS.len();
    println!("seeded samples shown: {kinds} kinds of {SAMPLES_OF_EACH_KIND}");
}

/// What document 01 says of its rows for a diagnosis and for a configuration.
#[test]
fn worked_rows_of_services_are_shown() {
    let rows = service_telegrams::worked_rows();
    for bytes in &rows {
        check_shown("worked row as an answer", bytes);
    }
    let [diagnosis, configuration] = [&rows[0], &rows[1]].map(|bytes| shown(bytes));
    let channel = "channel block, module 2, input channel 3, bit, wire break";
    assert_eq!(diagnosis.lines().last(), Some(channel));
    let totals = "3 modules, 36 in, 20 out";
    assert_eq!(configuration.lines().nth(2), Some(totals));
}

#[test]
fn every_word_is_shown() {
    let telegrams = words::every_word();
    for bytes in &telegrams {
        check_shown("every word", bytes);
    }
    println!("telegrams with every word shown: {}", telegrams.len());
}

/// Every form in each format and each kind of damage, then more of any form.
#[test]
fn seeded_service_telegrams_are_shown() {
    let mut count = 0;
    let mut check = |name, bytes: &[u8]| {
        check_shown(name, bytes);
        count += 1;
    };
    for (mode, group) in service_telegrams::groups() {
        if mode == Mode::Dpv1 {
            group
                .inputs
                .iter()
                .for_each(|bytes| check(group.name, bytes));
        }
    }
    let random = &mut Random::new(2032);
    for _ in 0..VALID_SERVICES {
        let bytes = service_telegrams::any_valid(random, Mode::Dpv1);
        check("valid", &bytes);
    }
    for (name, make) in service_telegrams::DAMAGES {
        for _ in 0..SERVICES_OF_EACH_DAMAGE {
            check(name, &make(random, Mode::Dpv1));
        }
    }
    assert!(count >= 300, "only {count} telegrams");
    println!("seeded service telegrams shown: {count}");
}

/// Document 01's download, and the same while boarding.
#[test]
fn worked_downloads_are_simulated() {
    let done = check_simulated("worked", &simulated::input(&worked()));
    let codes = done.lines().filter_map(|line| {
        let (_, rest) = line.split_once(" fc ")?;
        rest.get(..2)
    });
    assert!(codes.eq(["6D", "5C", "5C", "7C", "5C", "5C"]), "{done}");
    assert!(done.ends_with("done after 6 sendings\nnew slot 7 length 3\n"));
    let refused = check_simulated("boarding", &simulated::input(&worked_while_boarding()));
    assert!(refused.ends_with("refused at 1 codes B6 00 after 6 sendings\n"));
}

#[test]
fn seeded_downloads_are_simulated() {
    let random = &mut Random::new(2035);
    let mut tally = Tally::new("seeded downloads simulated");
    for kind in simulated::kinds() {
        for _ in 0..DOWNLOADS_OF_EACH_KIND {
            let lines = check_simulated(kind.name, &kind.sample(random));
            tally.add(simulate_text::ending_words(&lines));
        }
    }
    for bytes in simulated::at_the_limit() {
        let lines = check_simulated("8192 bytes or one more", &bytes);
        tally.add(simulate_text::ending_words(&lines));
    }
    tally.expect_only(&simulated::ENDINGS.map(String::from));
}

/// The program is run on document 01's download, and held to the reference's lines.
#[test]
fn files_of_simulate_are_the_references() {
    let input = simulated::input(&worked());
    assert_eq!(file("crates/simulate/stdin"), input);
    let lines = simulate_text::lines(&input);
    assert_eq!(file("crates/simulate/stdout"), lines.as_bytes());
}

#[test]
fn vectors_are_the_references() {
    let made = Command::new(env!("CARGO_BIN_EXE_reference"))
        .arg("make-vectors")
        .output()
        .expect("reference runs");
    assert!(made.status.success(), "reference: {}", made.status);
    let made = String::from_utf8(made.stdout).expect("text");
    let vectors = text_file("crates/vectors/stdin");
    check_same_lines("crates/vectors/stdin", &vectors, &made);
    let answers = text::answers(&vectors).expect("well-formed");
    let stored = text_file("crates/vectors/stdout");
    check_same_lines("crates/vectors/stdout", &stored, &answers);
    println!("vectors compared: {}", answers.lines().count());
}

fn text_file(name: &str) -> String {
    String::from_utf8(file(name)).expect("text")
}

fn file(name: &str) -> Vec<u8> {
    fs::read(root().join(name)).unwrap_or_else(|error| panic!("{name}: {error}"))
}

/// Names the first line that differs, where the whole text would be too long.
fn check_same_lines(name: &str, file: &str, expected: &str) {
    for (number, (line, wanted)) in (1..).zip(file.lines().zip(expected.lines())) {
        assert_eq!(line, wanted, "{name}, line {number}");
    }
    assert_eq!(file.len(), expected.len(), "{name}: bytes");
}

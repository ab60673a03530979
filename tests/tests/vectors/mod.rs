//! The vectors program and the reference run on the same text.

use crate::repository;
use rabtunex_tests::reference::text;
use std::env;
use std::io::{ErrorKind, Write};
use std::path::PathBuf;
use std::process::{Command, Output, Stdio};
use std::thread;

/// Names the program, when it is not the repository's.
const PROGRAM_VARIABLE: &str = "RABTUNEX_VECTORS";

/// The vectors text of these inputs after the line that announces them.
pub fn text(announcement: &str, inputs: &[Vec<u8>]) -> String {
    let mut vectors = format!("{announcement}\n");
    for input in inputs {
        vectors += &text::to_hex(input);
        vectors.push('\n');
    }
    vectors
}

/// The answers to a vectors text, which must be the same of both.
pub fn answers(vectors: &str) -> String {
    let expected = text::answers(vectors).expect("well-formed");
    let output = run_program(vectors);
    check_answers(vectors, &String::from_utf8_lossy(&output.stdout), &expected);
    assert!(output.status.success(), "the program: {}", output.status);
    expected
}

/// Names the first input that is not answered alike, where the whole text would
/// be too long.
fn check_answers(vectors: &str, answers: &str, expected: &str) {
    let lines = (1..).zip(vectors.lines());
    let inputs = lines.filter(|(_, line)| !line.starts_with(['=', '>', '#']));
    let mut found = answers.lines();
    for ((number, input), wanted) in inputs.zip(expected.lines()) {
        let answer = found.next().unwrap_or("nothing");
        assert!(
            answer == wanted,
            "line {number}: {input}\n  the program:   {answer}\n  the reference: {wanted}"
        );
    }
    // No line is left to differ, but lines may follow or end otherwise.
    assert_eq!(answers.len(), expected.len(), "bytes of all answers");
}

/// Runs the vectors program on a text.
fn run_program(vectors: &str) -> Output {
    let program = match env::var_os(PROGRAM_VARIABLE) {
        Some(program) => PathBuf::from(program),
        None => repository::root().join("crates/vectors/out/vectors"),
    };
    let mut child = Command::new(&program)
        .stdin(Stdio::piped())
        .stdout(Stdio::piped())
        .spawn()
        .unwrap_or_else(|error| panic!("{}: {error}", program.display()));
    let mut input = child.stdin.take().expect("piped");
    // The program may answer before it has read all, and either pipe be full.
    thread::scope(|scope| {
        scope.spawn(move || {
            if let Err(error) = input.write_all(vectors.as_bytes()) {
                // It ended early, which its answers will show.
                assert_eq!(error.kind(), ErrorKind::BrokenPipe, "{error}");
            }
        });
        child.wait_with_output().expect("the program ends")
    })
}

//! The independent program as a command, to be run beside the library's
//! programs on the same input.

#![forbid(unsafe_code)]

use rabtunex_tests::reference::{download_text, service_telegram_text};
use rabtunex_tests::reference::{show_text, simulate_text, text};
use rabtunex_tests::samples::{self, download_lines, service_telegrams, services, writers, Group};
use std::io::{self, Read, Write};
use std::process::ExitCode;

const USAGE: &str = "usage: reference show|simulate|vectors|make-vectors";

fn main() -> ExitCode {
    let arguments: Vec<String> = std::env::args().skip(1).collect();
    let output = match arguments.as_slice() {
        [command] => run(command),
        _ => Err(String::from(USAGE)),
    };
    let printed = output.and_then(|text| {
        let written = io::stdout().write_all(text.as_bytes());
        written.map_err(|error| error.to_string())
    });
    match printed {
        Ok(()) => ExitCode::SUCCESS,
        Err(message) => {
            eprintln!("{message}");
            ExitCode::FAILURE
        }
    }
}

/// What a command prints, or why it cannot.
fn run(command: &str) -> Result<String, String> {
    match command {
        "show" => Ok(show_text::lines(&input()?)),
        "simulate" => Ok(simulate_text::lines(&input()?)),
        "vectors" => answer_vectors(&input()?),
        "make-vectors" => Ok(make_vectors()),
        _ => Err(String::from(USAGE)),
    }
}

fn input() -> Result<Vec<u8>, String> {
    let mut bytes = Vec::new();
    match io::stdin().read_to_end(&mut bytes) {
        Ok(_) => Ok(bytes),
        Err(error) => Err(error.to_string()),
    }
}

fn answer_vectors(vectors: &[u8]) -> Result<String, String> {
    let vectors = std::str::from_utf8(vectors).map_err(|error| error.to_string())?;
    text::answers(vectors).map_err(|line| format!("line {line} is malformed"))
}

fn make_vectors() -> String {
    let mut vectors = String::new();
    for group in samples::groups() {
        vectors += &lines(group.name, &group);
    }
    for (service, group) in services::groups() {
        let announcement = format!("={}", service.letter());
        vectors += &announced(&announcement, service.name(), &group);
    }
    for (writer, group) in writers::groups() {
        let announcement = format!(">{}", writer.letter());
        vectors += &announced(&announcement, writer.name(), &group);
    }
    for (mode, group) in service_telegrams::groups() {
        let announcement = format!("={}", service_telegram_text::letter(mode));
        vectors += &announced(&announcement, service_telegram_text::name(mode), &group);
    }
    for group in download_lines::groups() {
        let announcement = format!("={}", download_text::LETTER);
        vectors += &announced(&announcement, download_text::NAME, &group);
    }
    vectors
}

/// The lines of a group that are what the announcement says.
fn announced(announcement: &str, name: &str, group: &Group) -> String {
    let lines = lines(&format!("{name}: {}", group.name), group);
    format!("{announcement}\n{lines}")
}

/// A comment and the lines of a group.
fn lines(comment: &str, group: &Group) -> String {
    let inputs = group.inputs.iter();
    let lines: String = inputs.map(|bytes| text::to_hex(bytes) + "\n").collect();
    format!("# {comment}\n{lines}")
}

#[cfg(test)]
mod tests {
    use super::*;

    #[test]
    fn vectors_are_answered_one_line_each() {
        let vectors = make_vectors();
        let answers = answer_vectors(vectors.as_bytes()).expect("well-formed");
        let mut expected = String::new();
        for telegram in samples::groups().iter().flat_map(|group| &group.inputs) {
            expected += &(text::numbers(telegram) + "\n");
        }
        for (service, group) in services::groups() {
            for bytes in group.inputs {
                expected += &(service.answer(&bytes) + "\n");
            }
        }
        for (writer, group) in writers::groups() {
            for bytes in group.inputs {
                expected += &(writer.answer(&bytes) + "\n");
            }
        }
        for (mode, group) in service_telegrams::groups() {
            for bytes in group.inputs {
                expected += &(service_telegram_text::line(&bytes, mode) + "\n");
            }
        }
        for bytes in download_lines::groups()
            .into_iter()
            .flat_map(|group| group.inputs)
        {
            expected += &(download_text::line(&bytes) + "\n");
        }
        assert_eq!(answers, expected);
    }

    /// Telegrams, the data of services and fields for writers take just under
    /// 200,000 bytes, and downloads some 5,000 more.
    #[test]
    fn vectors_stay_small() {
        let size = make_vectors().len();
        assert!(size < 210_000, "{size} bytes");
    }

    #[test]
    fn commands_that_are_none_are_refused() {
        assert_eq!(run("Show"), Err(String::from(USAGE)));
        assert!(answer_vectors(b"E5\nE\n").is_err());
        assert!(answer_vectors(b"\xFF\n").is_err());
    }
}

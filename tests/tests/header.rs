//! The header, the archive and the tests' own declarations against the exports
//! in the sources: the same functions, with the same parameters, and no others.

#![forbid(unsafe_code)]

mod repository;
mod signatures;

use rabtunex_tests::reference::refusal;
use repository::root;
use signatures::{bindings, exports, prototypes, Functions};
use std::collections::BTreeSet;
use std::io::Write;
use std::path::Path;
use std::process::{Command, Stdio};

/// The archive that the tests are linked with.
const ARCHIVE: &str = env!("RABTUNEX_ARCHIVE_FILE");

fn names(functions: &Functions) -> BTreeSet<String> {
    functions.keys().cloned().collect()
}

#[test]
fn header_declares_the_exports_and_no_others() {
    let exports = exports::all(&root());
    assert!(!exports.is_empty());
    let declared = prototypes::all(&root());
    assert_eq!(names(&declared), names(&exports));
    for (name, export) in &exports {
        assert_eq!(&declared[name], export, "{name}");
    }
    let parameters = exports.values().map(|export| export.parameters.len());
    let parameters: usize = parameters.sum();
    println!("{} functions, {parameters} parameters", exports.len());
}

/// The names of symbols of the archive.
fn symbols(which: &str) -> BTreeSet<String> {
    let output = Command::new("nm")
        .args(["-P", which, ARCHIVE])
        .output()
        .expect("nm runs");
    assert!(output.status.success(), "{output:?}");
    let text = String::from_utf8(output.stdout).expect("text");
    // The line of a symbol is its name, its type and where it is; that of an
    // object is one word.
    let symbols = text.lines().filter_map(|line| line.split_once(' '));
    symbols.map(|(name, _)| name.to_string()).collect()
}

#[test]
fn archive_has_the_exports_and_needs_nothing_else() {
    let found = symbols("-g");
    assert_eq!(found, names(&exports::all(&root())));
    assert_eq!(symbols("-u"), BTreeSet::new());
}

/// Whether a compiler takes the text behind the header, with all warnings as
/// errors.
fn is_taken(compiler: &[&str], text: &str) -> bool {
    let mut child = Command::new(compiler[0])
        .args(&compiler[1..])
        .args(["-Wall", "-Wextra", "-Wpedantic", "-Werror", "-fsyntax-only"])
        .arg("-I")
        .arg(root().join("include"))
        .arg("-")
        .stdin(Stdio::piped())
        .spawn()
        .expect("the compiler runs");
    let mut input = child.stdin.take().expect("its input");
    input.write_all(text.as_bytes()).expect("it reads");
    drop(input);
    child.wait().expect("it ends").success()
}

#[test]
fn compilers_take_the_exports_for_what_the_header_declares() {
    let text = prototypes::declared_again(&exports::all(&root()));
    assert!(is_taken(&["cc", "-std=c99", "-x", "c"], &text), "{text}");
    assert!(is_taken(&["c++", "-x", "c++"], &text), "{text}");
}

#[test]
fn tests_declare_the_exports_and_no_others() {
    let exports = exports::all(&root());
    assert_eq!(bindings::checked(&root(), &exports), names(&exports));
}

/// The program in C that tries the constants, under the sanitizers.
#[test]
fn constants_are_the_librarys() {
    let program = Path::new(env!("CARGO_TARGET_TMPDIR")).join("constants");
    let compiled = Command::new("cc")
        .args(["-std=c99", "-Wall", "-Wextra", "-Wpedantic", "-Wconversion"])
        .args(["-Werror", "-fsanitize=address,undefined"])
        .args(["-fno-sanitize-recover=all", "-I"])
        .args([root().join("include"), root().join("tests/constants.c")])
        .arg(ARCHIVE)
        .arg("-o")
        .arg(&program)
        .status()
        .expect("cc runs");
    assert!(compiled.success());
    let ended = Command::new(&program).status().expect("it runs");
    assert!(ended.success());
}

/// Every refusal number of the header is the independent program's; it has one
/// more, of typed values, which C cannot reach.
#[test]
fn refusal_numbers_are_those_of_the_independent_program() {
    let expected = [
        ("SHORT", refusal::SHORT),
        ("START", refusal::START),
        ("LENGTH", refusal::LENGTH),
        ("TRAILING", refusal::TRAILING),
        ("END", refusal::END),
        ("CHECKSUM", refusal::CHECKSUM),
        ("ADDRESS", refusal::ADDRESS),
        ("FUNCTION_CODE", refusal::FUNCTION),
        ("EXTENSION", refusal::EXTENSION),
        ("SERVICE", refusal::SERVICE),
        ("ROOM", refusal::OUTPUT),
        ("FIELD", refusal::FIELD),
        ("DATA_LENGTH", refusal::DATA_LENGTH),
        ("BITS", refusal::BITS),
        ("EXT_DIAG", refusal::EXT_DIAG),
        ("BLOCK_HEADER", refusal::BLOCK_HEADER),
        ("PAST_END", refusal::PAST_END),
        ("CHANNEL_CODE", refusal::CHANNEL_CODE),
        ("VENDOR_COUNT", refusal::VENDOR_COUNT),
        ("PROCESS_DATA", refusal::PROCESS_DATA),
        ("DPV1", refusal::ACYCLIC_CODE),
        ("BOOK_TABLE", refusal::BOOK_TABLE),
    ];
    let expected: BTreeSet<(String, usize)> = expected
        .iter()
        .map(|(name, number)| (name.to_string(), usize::from(*number)))
        .collect();
    let constants = prototypes::constants(&root());
    let refusals = constants.iter().filter_map(|(name, number)| {
        let name = name.strip_prefix("REFUSED_")?;
        Some((name.to_string(), *number))
    });
    assert_eq!(refusals.collect::<BTreeSet<_>>(), expected);
}

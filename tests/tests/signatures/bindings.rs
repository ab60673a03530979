//! The functions as the tests declare them, in Rust.

use super::{files, listed, Functions, Passed, Signature};
use std::collections::BTreeSet;
use std::fs;
use std::path::Path;

const MARK: &str = "extern \"C\" {\n";

/// The names of all functions that the tests declare. Each must be an export
/// and be declared with its parameters.
pub fn checked(root: &Path, exports: &Functions) -> BTreeSet<String> {
    let mut names = BTreeSet::new();
    for source in files(&root.join("tests/tests"), ".rs") {
        let text = fs::read_to_string(source).expect("a source");
        for block in text.split(MARK).skip(1) {
            let (functions, _) = block.split_once('}').expect("the block's end");
            for function in functions.split("fn ").skip(1) {
                let (name, rest) = function.split_once('(').expect("a name");
                let export = exports.get(name);
                let export = export.unwrap_or_else(|| panic!("{name} is not exported"));
                assert!(agrees(rest, export), "{name} is {export:?}");
                names.insert(name.to_string());
            }
        }
    }
    names
}

/// Whether the parameters and the answer of a declaration are those of the
/// signature.
fn agrees(text: &str, signature: &Signature) -> bool {
    let (parameters, answer) = text.split_once(')').expect("a declaration");
    let parameters: Vec<&str> = listed(parameters).collect();
    let declared = parameters.iter().map(|text| text.split_once(": "));
    let expected = &signature.parameters;
    parameters.len() == expected.len()
        && answer.trim() == format!("-> {};", signature.answer.name())
        && declared.zip(expected).all(|(declared, expected)| {
            declared.is_some_and(|(name, kind)| {
                name == expected.name && is_passed(kind, &expected.passed)
            })
        })
}

/// Whether a type passes what it should. An array may go by a name of its own:
/// how many elements that one has is not looked up.
fn is_passed(kind: &str, passed: &Passed) -> bool {
    match passed {
        Passed::Value(number) => kind == number.name(),
        Passed::Lent {
            number,
            changed,
            count,
        } => {
            let prefix = if *changed { "*mut " } else { "*const " };
            let number = number.name();
            kind.strip_prefix(prefix).is_some_and(|memory| match count {
                None => memory == number,
                Some(count) => {
                    memory == format!("[{number}; {count}]")
                        || memory.starts_with(|first: char| first.is_ascii_uppercase())
                }
            })
        }
    }
}

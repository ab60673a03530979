//! The exports, as the sources in Rattle have them.

use super::{files, listed, Functions, Number, Parameter, Passed, Signature};
use std::fs;
use std::path::Path;

const MARK: &str = "#[unsafe(no_mangle)]\n";

/// The exports of all crates.
pub fn all(root: &Path) -> Functions {
    let mut functions = Functions::new();
    for crate_folder in fs::read_dir(root.join("crates")).expect("the crates") {
        let sources = crate_folder.expect("a crate").path().join("src");
        for source in files(&sources, ".rt") {
            let text = fs::read_to_string(source).expect("a source");
            for export in text.split(MARK).skip(1) {
                let (name, signature) = function(export).expect("an export");
                assert!(functions.insert(name, signature).is_none());
            }
        }
    }
    functions
}

/// The function at the front of the text.
fn function(text: &str) -> Option<(String, Signature)> {
    let (name, text) = text.strip_prefix("pub extern \"C\" fn ")?.split_once('(')?;
    let (parameters, text) = text.split_once(") -> ")?;
    let (answer, _) = text.split_once('\n')?;
    let signature = Signature {
        parameters: listed(parameters).flat_map(passed).collect(),
        answer: Number::by_name(answer, Number::name),
    };
    Some((name.to_string(), signature))
}

/// The one or two parameters that C has for one: a slice is an address and a
/// length.
fn passed(text: &str) -> Vec<Parameter> {
    let (name, kind) = text.split_once(": ").expect("a name and a type");
    let one = |name: &str, passed| Parameter {
        name: name.to_string(),
        passed,
    };
    let number = |name| Number::by_name(name, Number::name);
    let Some(reference) = kind.strip_prefix('&') else {
        return vec![one(name, Passed::Value(number(kind)))];
    };
    let changeable = reference.strip_prefix("mut ");
    let memory = changeable.unwrap_or(reference);
    let lent = |number, count| Passed::Lent {
        number,
        changed: changeable.is_some(),
        count,
    };
    let bracketed = memory.strip_prefix('[').and_then(|m| m.strip_suffix(']'));
    match bracketed.map(|elements| (elements, elements.split_once("; "))) {
        None => vec![one(name, lent(number(memory), None))],
        Some((_, Some((element, count)))) => {
            let count = count.parse().expect("a count");
            vec![one(name, lent(number(element), Some(count)))]
        }
        Some((element, None)) => vec![
            one(name, lent(number(element), None)),
            one(&format!("{name}_len"), Passed::Value(Number::Usize)),
        ],
    }
}

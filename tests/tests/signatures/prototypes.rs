//! The functions and constants of `include/rabtunex.h`, as the C preprocessor
//! leaves them; and the functions as C.

use super::{listed, Functions, Number, Parameter, Passed, Signature};
use std::collections::BTreeMap;
use std::path::Path;
use std::process::Command;

/// What all names begin with.
const PREFIX: &str = "rabtunex_";
const CONSTANT_PREFIX: &str = "RABTUNEX_";

/// The functions that the header declares.
pub fn all(root: &Path) -> Functions {
    let text = preprocessed(root, "-P");
    let statements = text.split(';').filter(|text| text.contains(PREFIX));
    let mut functions = Functions::new();
    for statement in statements {
        let (name, signature) = function(statement.trim()).expect("a prototype");
        assert!(functions.insert(name, signature).is_none());
    }
    functions
}

/// The constants that the header defines, but for those of an expression.
pub fn constants(root: &Path) -> BTreeMap<String, usize> {
    let text = preprocessed(root, "-dM");
    let definitions = text.lines().filter_map(|line| {
        let (name, value) = line.strip_prefix("#define ")?.split_once(' ')?;
        let name = name.strip_prefix(CONSTANT_PREFIX)?;
        let value = match value.strip_prefix("0x") {
            Some(digits) => usize::from_str_radix(digits, 16),
            None => value.parse(),
        };
        Some((name.to_string(), value.ok()?))
    });
    definitions.collect()
}

fn preprocessed(root: &Path, how: &str) -> String {
    let output = Command::new("cc")
        .args(["-E", how, "-std=c99", "-x", "c"])
        .arg(root.join("include/rabtunex.h"))
        .output()
        .expect("cc runs");
    assert!(output.status.success(), "{output:?}");
    String::from_utf8(output.stdout).expect("text")
}

fn function(text: &str) -> Option<(String, Signature)> {
    let (head, parameters) = text.strip_suffix(')')?.split_once('(')?;
    let (answer, name) = head.split_once(' ')?;
    let signature = Signature {
        parameters: listed(parameters).map(parameter).collect(),
        answer: Number::by_name(answer, Number::c_name),
    };
    Some((name.to_string(), signature))
}

fn parameter(text: &str) -> Parameter {
    let unchanged = text.strip_prefix("const ");
    let text = unchanged.unwrap_or(text);
    let (number, place) = text.split_once(' ').expect("a type and a name");
    let number = Number::by_name(number, Number::c_name);
    let lent = |count| Passed::Lent {
        number,
        changed: unchanged.is_none(),
        count,
    };
    let (name, passed) = if let Some(name) = place.strip_prefix('*') {
        (name, lent(None))
    } else if let Some((name, count)) = place.split_once('[') {
        let count = count.strip_suffix(']').expect("a count");
        (name, lent(Some(product(count))))
    } else {
        assert!(unchanged.is_none(), "a constant value");
        (place, Passed::Value(number))
    };
    assert!(name.chars().all(|c| c.is_ascii_alphanumeric() || c == '_'));
    Parameter {
        name: name.to_string(),
        passed,
    }
}

/// The value of a number or of a product of numbers.
fn product(text: &str) -> usize {
    let factors = text.trim_matches(['(', ')']).split('*');
    let factors = factors.map(|factor| factor.trim().parse::<usize>());
    factors.map(|factor| factor.expect("a number")).product()
}

/// C that declares each function once more, and takes its address: a compiler
/// refuses it after a header that declares one otherwise, or not at all.
pub fn declared_again(functions: &Functions) -> String {
    let mut text = String::from("#include \"rabtunex.h\"\n");
    for (name, signature) in functions {
        let answer = signature.answer.c_name();
        let types: Vec<String> = signature.parameters.iter().map(c_type).collect();
        let types = types.join(", ");
        text += &format!("extern {answer} (*const of_{name})({types});\n");
        text += &format!("{answer} (*const of_{name})({types}) = {name};\n");
        text += &format!("{answer} {name}({types});\n");
    }
    text
}

fn c_type(parameter: &Parameter) -> String {
    match parameter.passed {
        Passed::Value(number) => number.c_name().to_string(),
        Passed::Lent {
            number,
            changed,
            count,
        } => {
            let constant = if changed { "" } else { "const " };
            let number = number.c_name();
            match count {
                None => format!("{constant}{number} *"),
                Some(count) => format!("{constant}{number} [{count}]"),
            }
        }
    }
}

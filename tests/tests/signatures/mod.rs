//! The functions of the C interface, as each place that declares them has them.

pub mod bindings;
pub mod exports;
pub mod prototypes;

use std::collections::BTreeMap;
use std::fs;
use std::path::{Path, PathBuf};

/// The functions, by their names.
pub type Functions = BTreeMap<String, Signature>;

/// What a function takes and answers.
#[derive(Clone, Debug, PartialEq, Eq)]
pub struct Signature {
    /// In their order.
    pub parameters: Vec<Parameter>,
    /// What it answers.
    pub answer: Number,
}

/// One parameter.
#[derive(Clone, Debug, PartialEq, Eq)]
pub struct Parameter {
    /// Its name, by which two of the same type are told apart.
    pub name: String,
    /// How it is passed.
    pub passed: Passed,
}

/// How a parameter is passed.
#[derive(Clone, Copy, Debug, PartialEq, Eq)]
pub enum Passed {
    /// By value.
    Value(Number),
    /// As memory that is lent.
    Lent {
        /// What it has.
        number: Number,
        /// Whether the function may change it.
        changed: bool,
        /// How many there are, where the type says so.
        count: Option<usize>,
    },
}

/// The types of numbers.
#[derive(Clone, Copy, Debug, PartialEq, Eq)]
pub enum Number {
    /// A byte.
    U8,
    /// Two bytes.
    U16,
    /// As wide as the machine's addresses.
    Usize,
}

impl Number {
    const ALL: [Number; 3] = [Number::U8, Number::U16, Number::Usize];

    /// Its name in Rattle, which is that in Rust.
    pub fn name(self) -> &'static str {
        match self {
            Number::U8 => "u8",
            Number::U16 => "u16",
            Number::Usize => "usize",
        }
    }

    /// Its name in C.
    pub fn c_name(self) -> &'static str {
        match self {
            Number::U8 => "uint8_t",
            Number::U16 => "uint16_t",
            Number::Usize => "size_t",
        }
    }

    fn by_name(name: &str, name_of: fn(Number) -> &'static str) -> Self {
        let found = Number::ALL.iter().find(|number| name_of(**number) == name);
        *found.unwrap_or_else(|| panic!("`{name}` is no number"))
    }
}

/// All files in a folder and the folders in it whose names end so.
fn files(folder: &Path, ending: &str) -> Vec<PathBuf> {
    let mut found = Vec::new();
    for entry in fs::read_dir(folder).expect("a folder") {
        let path = entry.expect("an entry").path();
        if path.is_dir() {
            found.extend(files(&path, ending));
        } else if path.to_str().is_some_and(|name| name.ends_with(ending)) {
            found.push(path);
        }
    }
    found
}

/// The texts between commas, but for what stands behind a last one.
fn listed(parameters: &str) -> impl Iterator<Item = &str> {
    let texts = parameters.split(',').map(str::trim);
    texts.filter(|text| !text.is_empty())
}

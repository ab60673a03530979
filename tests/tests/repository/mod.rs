//! Where the programs to be tested stand.

use std::env;
use std::path::{Path, PathBuf};

/// Names the repository, when it is not the one that this package is in.
const ROOT_VARIABLE: &str = "RABTUNEX_ROOT";

/// The repository's folder.
pub fn root() -> PathBuf {
    match env::var_os(ROOT_VARIABLE) {
        Some(root) => PathBuf::from(root),
        None => Path::new(env!("CARGO_MANIFEST_DIR")).join(".."),
    }
}

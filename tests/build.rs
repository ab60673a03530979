//! Links the proved library into the integration tests and the benchmark alone:
//! the `reference` command and the unit tests build without it.

use std::env;
use std::ffi::OsString;
use std::path::Path;

/// Names the folder of the archive, when it is not the gate's.
const FOLDER_VARIABLE: &str = "RABTUNEX_ARCHIVE";
const GATE_FOLDER: &str = "../target";

fn main() {
    let folder = env::var_os(FOLDER_VARIABLE).unwrap_or_else(|| OsString::from(GATE_FOLDER));
    let archive = Path::new(env!("CARGO_MANIFEST_DIR"))
        .join(folder)
        .join("librabtunex.a");
    let archive = archive.display();
    println!("cargo:rerun-if-env-changed={FOLDER_VARIABLE}");
    println!("cargo:rerun-if-changed={archive}");
    println!("cargo:rustc-link-arg-tests={archive}");
    println!("cargo:rustc-env=RABTUNEX_ARCHIVE_FILE={archive}");
    println!("cargo:rustc-link-arg-benches={archive}");
}

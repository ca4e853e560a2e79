//! Finds the static library and tells cargo where it is; where it is missing, says how to make it.

use std::env;
use std::path::PathBuf;
use std::process::exit;

/// The static library's file.
const ARCHIVE: &str = "libgishwarem.a";

/// The environment variable that names the archive's folder.
const VARIABLE: &str = "GISHWAREM_LIB_DIR";

/// The archive's folder if the variable is not set, from the crate's folder.
const BUILD: &str = "../../build";

fn main() {
    println!("cargo:rerun-if-env-changed={VARIABLE}");
    let folder = folder();
    let archive = folder.join(ARCHIVE);
    println!("cargo:rerun-if-changed={}", archive.display());
    if !archive.is_file() {
        eprintln!("{ARCHIVE} is not in {}.", folder.display());
        eprintln!("Run `make lib` in the repository's root,");
        eprintln!("or set {VARIABLE} to the folder that holds it.");
        exit(1);
    }
    println!("cargo:rustc-link-search=native={}", folder.display());
}

/// The folder to look in. A relative one counts from the crate's folder, wherever cargo is run.
fn folder() -> PathBuf {
    let package = env::var_os("CARGO_MANIFEST_DIR").expect("cargo names the crate's folder");
    let named = env::var_os(VARIABLE).unwrap_or_else(|| BUILD.into());
    PathBuf::from(package).join(named)
}

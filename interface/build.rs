//! Links the proved library, which `scripts/build library` writes to the repository's target/staticlib.

use std::env;
use std::path::PathBuf;

/// The folder of another libsettlement.a to link in its place: so a wrong library can be tried.
const LIBRARY_FOLDER: &str = "CEPNHOY_STATICLIB";

fn main() {
    let folder = library_folder();
    let archive = folder.join("libsettlement.a");
    assert!(
        archive.exists(),
        "{} is missing: run `scripts/build library` in the repository first",
        archive.display()
    );
    println!("cargo:rustc-link-search=native={}", folder.display());
    println!("cargo:rustc-link-lib=static=settlement");
    println!("cargo:rerun-if-changed={}", archive.display());
    println!("cargo:rerun-if-env-changed={LIBRARY_FOLDER}");
}

fn library_folder() -> PathBuf {
    match env::var_os(LIBRARY_FOLDER) {
        Some(folder) => PathBuf::from(folder),
        None => PathBuf::from(env!("CARGO_MANIFEST_DIR")).join("../target/staticlib"),
    }
}

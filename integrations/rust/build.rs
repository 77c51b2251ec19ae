//! Finds `liblatex2mathml.a`: in the folder that LATEX2MATHML_LIB names, or else in the folder `lib` next to this file.

use std::env;
use std::path::PathBuf;
use std::process::exit;

const FOLDER: &str = "LATEX2MATHML_LIB";

fn main() {
    println!("cargo:rerun-if-env-changed={}", FOLDER);
    let folder = env::var_os(FOLDER).map_or_else(beside, PathBuf::from);
    let library = folder.join("liblatex2mathml.a");
    println!("cargo:rerun-if-changed={}", library.display());
    if !library.is_file() {
        eprintln!("There is no {}.", library.display());
        eprintln!(
            "Make the library by `tools/make-c-library FOLDER`, and set {} to the folder's whole path.",
            FOLDER
        );
        exit(1);
    }
    println!("cargo:rustc-link-search=native={}", folder.display());
    println!("cargo:rustc-link-lib=static=latex2mathml");
}

/// The folder `lib` of this crate.
fn beside() -> PathBuf {
    PathBuf::from(env::var_os("CARGO_MANIFEST_DIR").expect("cargo names the crate's folder")).join("lib")
}

//! Finds the proved engine's archive and links it.

use std::env;
use std::path::{Path, PathBuf};
use std::process::exit;

/// Names another folder to take the archive from.
const FOLDER: &str = "CONTOUR_BAND_LIB_DIR";

fn main() {
    println!("cargo:rerun-if-changed=build.rs");
    println!("cargo:rerun-if-env-changed={FOLDER}");
    let folder = folder();
    let archive = folder.join("libcontour.a");
    // Also where the archive is missing: it is then looked for in the next build.
    println!("cargo:rerun-if-changed={}", archive.display());
    if !archive.is_file() {
        eprintln!("The proved engine is not built: there is no {}.", archive.display());
        eprintln!("Make it at the root of the repository by:  bash tools/archive");
        eprintln!("Or name the folder that has libcontour.a in {FOLDER}.");
        exit(1);
    }
    println!("cargo:rustc-link-search=native={}", folder.display());
    println!("cargo:rustc-link-lib=static=contour");
    println!("cargo:rustc-env=CONTOUR_BAND_LINKED={}", folder.display());
    // For the build scripts of crates that name this one.
    println!("cargo:folder={}", folder.display());
}

/// The folder that the variable names, by a whole path or from where cargo is called, or target/staticlib at the root of
/// the repository.
fn folder() -> PathBuf {
    if let Some(named) = env::var_os(FOLDER) {
        // Cargo runs this in the folder of the crate, and PWD still names the one that it was called in.
        println!("cargo:rerun-if-env-changed=PWD");
        let called_in = env::var_os("PWD").map(PathBuf::from).unwrap_or_default();
        return called_in.join(named);
    }
    let manifest = env::var_os("CARGO_MANIFEST_DIR").expect("cargo sets CARGO_MANIFEST_DIR");
    let root = Path::new(&manifest).ancestors().nth(2).expect("the crate stands in rust/");
    root.join("target/staticlib")
}

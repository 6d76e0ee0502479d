//! Tells the tests where the proved engine's archive is, for programs in C.

use std::env;

fn main() {
    println!("cargo:rerun-if-changed=build.rs");
    let folder = env::var("DEP_CONTOUR_FOLDER").expect("the build script of contour-band names the folder");
    println!("cargo:rustc-env=CONTOUR_BAND_LINKED={folder}");
}

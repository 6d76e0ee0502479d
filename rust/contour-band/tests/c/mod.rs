//! Compiles C programs against include/contour_band.h and the archive.

use std::env;
use std::path::{Path, PathBuf};
use std::process::Command;

/// The folder that the build script linked from.
const LIBRARY: &str = env!("CONTOUR_BAND_LINKED");

/// The root of the repository.
pub fn root() -> PathBuf {
    Path::new(env!("CARGO_MANIFEST_DIR")).join("../..")
}

/// Compiles a C program, with every warning an error, and gives the path of the program made. No two tests
/// give the same name: they may run at once.
pub fn compiled(source: &Path, name: &str) -> PathBuf {
    let program = PathBuf::from(env!("CARGO_TARGET_TMPDIR")).join(name);
    let compiled = Command::new(env::var_os("CC").unwrap_or("cc".into()))
        .args(["-std=c99", "-Wall", "-Wextra", "-Werror", "-pedantic", "-I"])
        .arg(root().join("include"))
        .arg(source)
        .arg(Path::new(LIBRARY).join("libcontour.a"))
        .arg("-o")
        .arg(&program)
        .output()
        .expect("the C compiler runs");
    assert!(compiled.status.success(), "{}", String::from_utf8_lossy(&compiled.stderr));
    program
}

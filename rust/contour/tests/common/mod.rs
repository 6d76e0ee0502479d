//! Running the command as a user does.
#![allow(dead_code)]

use std::ffi::OsStr;
use std::fs;
use std::io::Write;
use std::path::{Path, PathBuf};
use std::process::{Command, Output, Stdio};

/// The command.
pub const CONTOUR: &str = env!("CARGO_BIN_EXE_contour");

/// A file of the tests' own folder, which is made anew.
pub fn written(name: &str, text: impl AsRef<[u8]>) -> PathBuf {
    let file = Path::new(env!("CARGO_TARGET_TMPDIR")).join(name);
    fs::write(&file, text).expect("the file is written");
    file
}

/// A file that is not there.
pub fn absent(name: &str) -> PathBuf {
    let file = Path::new(env!("CARGO_TARGET_TMPDIR")).join(name);
    let _ = fs::remove_file(&file);
    file
}

/// What an ended program left: its exit status, and what it printed.
#[derive(Debug, PartialEq, Eq)]
pub struct Ended {
    pub status: Option<i32>,
    pub out: String,
    pub err: String,
}

impl From<Output> for Ended {
    fn from(output: Output) -> Ended {
        let text = |bytes: &[u8]| String::from_utf8_lossy(bytes).into_owned();
        Ended { status: output.status.code(), out: text(&output.stdout), err: text(&output.stderr) }
    }
}

/// Runs a program.
pub fn run(program: impl AsRef<OsStr>, arguments: &[&str]) -> Ended {
    Command::new(program).args(arguments).stdin(Stdio::null()).output().expect("the program runs").into()
}

/// Runs the command at the root of the repository.
pub fn contour(arguments: &[&str]) -> Ended {
    contour_on(arguments, "")
}

/// Runs the command at the root of the repository, with this text as its standard input.
pub fn contour_on(arguments: &[&str], text: &str) -> Ended {
    let root = Path::new(env!("CARGO_MANIFEST_DIR")).join("../..");
    let mut child = Command::new(CONTOUR)
        .args(arguments)
        .current_dir(root)
        .stdin(Stdio::piped())
        .stdout(Stdio::piped())
        .stderr(Stdio::piped())
        .spawn()
        .expect("the command runs");
    // A command that reads no input may have ended by now.
    let _ = child.stdin.take().expect("it has an input").write_all(text.as_bytes());
    child.wait_with_output().expect("the command ends").into()
}

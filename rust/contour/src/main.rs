//! The command `contour`: bands outlines from files, judges measured points, foretells leaves, finds the tightest
//! band, quotes and draws pictures. `contour --help` says how it is called.

mod arguments;
mod commands;
mod drawing;
mod failure;
mod forms;
mod help;
mod input;
mod output;
mod picture;
mod points;
mod progress;

use arguments::Asked;
use failure::Failure;
use std::env;
use std::io::{self, Write};
use std::process::ExitCode;

fn main() -> ExitCode {
    match answered() {
        Ok(status) => ExitCode::from(status),
        Err(failure) => {
            if let Failure::Words(words) = failure {
                // Where standard error takes no words either, the status still tells.
                let _ = writeln!(io::stderr(), "{words}");
            }
            ExitCode::from(2)
        }
    }
}

/// The exit status where nothing fails: 0, or 1 where a point is off.
fn answered() -> Result<u8, Failure> {
    match arguments::asked(env::args_os().skip(1))? {
        Asked::Help(text) => output::print(|out| out.write_all(text.as_bytes())).map(|()| 0),
        Asked::Version => output::print(|out| writeln!(out, "{}", help::version())).map(|()| 0),
        Asked::Job(job) => commands::run(&job),
    }
}

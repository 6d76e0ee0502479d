//! Standard output, where a write that fails is a failure.

use crate::failure::Failure;
use std::fs::File;
use std::io::{self, BufWriter, ErrorKind, Write};
use std::os::fd::AsFd;
use std::sync::atomic::{AtomicBool, Ordering};

/// Prints to standard output, all of it or a failure.
pub fn print(text: impl FnOnce(&mut dyn Write) -> io::Result<()>) -> Result<(), Failure> {
    written(text).map_err(|error| match error.kind() {
        ErrorKind::BrokenPipe => Failure::NobodyReads,
        _ => Failure::of_stream("standard output", &error),
    })
}

fn written(text: impl FnOnce(&mut dyn Write) -> io::Result<()>) -> io::Result<()> {
    if CLOSED.load(Ordering::Relaxed) {
        return Err(io::Error::from_raw_os_error(BAD_DESCRIPTOR));
    }
    // `io::Stdout` takes a write to a stream that is not open for writing as done, and a `File` does not.
    let mut out = BufWriter::new(File::from(io::stdout().as_fd().try_clone_to_owned()?));
    text(&mut out)?;
    out.flush()
}

/// The system's number for a descriptor that is not open.
const BAD_DESCRIPTOR: i32 = 9;

/// Whether standard output was closed when the program began.
static CLOSED: AtomicBool = AtomicBool::new(false);

extern "C" {
    fn fcntl(descriptor: i32, command: i32, ...) -> i32;
}

/// Looks whether standard output is open. Before `main` the Rust runtime opens /dev/null in place of a standard stream that
/// is closed, and what is written there is lost without an error; so this runs before the runtime.
extern "C" fn look() {
    const GET_FLAGS: i32 = 1;
    // Safety: asking for a descriptor's flags reads no memory of the program's, whether the descriptor is open or not.
    if unsafe { fcntl(1, GET_FLAGS) } < 0 {
        CLOSED.store(true, Ordering::Relaxed);
    }
}

#[used]
#[cfg_attr(target_os = "linux", link_section = ".init_array")]
static BEFORE_MAIN: extern "C" fn() = look;

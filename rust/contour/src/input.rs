//! Files, and standard input by the name `-`.

use crate::failure::Failure;
use std::ffi::OsStr;
use std::fs::File;
use std::io::{self, Read};

/// The most bytes that a file may have, some ten million points.
const MOST_BYTES: usize = 1 << 28;

/// How a file is called in words.
pub fn name(file: &OsStr) -> String {
    if file == "-" {
        return "standard input".to_owned();
    }
    file.to_string_lossy().into_owned()
}

/// All bytes of a file, or of standard input.
pub fn read(file: &OsStr) -> Result<Vec<u8>, Failure> {
    let failed = |error| Failure::of_stream(&name(file), &error);
    let stream: Box<dyn Read> = match file == "-" {
        true => Box::new(io::stdin().lock()),
        false => Box::new(File::open(file).map_err(failed)?),
    };
    let mut bytes = Vec::new();
    stream.take(MOST_BYTES as u64 + 1).read_to_end(&mut bytes).map_err(failed)?;
    if bytes.len() > MOST_BYTES {
        return Err(format!("{}: it has more than {MOST_BYTES} bytes", name(file)).into());
    }
    Ok(bytes)
}

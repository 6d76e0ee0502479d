//! The text program in plain Rust: reads a text from standard input and prints the answer to it.
//! A byte more than the longest text has is enough to read.

use std::io::{stdin, stdout, Read, Write};

fn main() -> std::io::Result<()> {
    let mut text = Vec::new();
    stdin().take(16_385).read_to_end(&mut text)?;
    stdout().write_all(&plain::text::answer(&text))
}

//! Why the command ends without an answer.

use std::io;

/// Why the command ends without a whole answer, with exit status 2.
#[derive(Debug)]
pub enum Failure {
    /// What went wrong, in words for standard error.
    Words(String),
    /// Nobody reads the answer any more, so there is nobody to tell.
    NobodyReads,
}

impl From<String> for Failure {
    fn from(words: String) -> Failure {
        Failure::Words(words)
    }
}

impl Failure {
    /// That a file or a stream failed, and why.
    pub fn of_stream(name: &str, error: &io::Error) -> Failure {
        Failure::Words(format!("{name}: {}", reason(error)))
    }
}

/// The system's words for an error, without its number.
fn reason(error: &io::Error) -> String {
    let words = error.to_string();
    match words.split_once(" (os error") {
        Some((reason, _)) => reason.to_owned(),
        None => words,
    }
}

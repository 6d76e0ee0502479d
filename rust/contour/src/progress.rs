//! How far a long job is, for a person who waits.

use std::io::{self, IsTerminal, Write};
use std::time::{Duration, Instant};

/// Tells on standard error how far a job is, where that is a terminal and the job takes more than a second.
pub struct Progress {
    what: &'static str,
    whole: usize,
    last: Option<Instant>,
    told: bool,
}

/// How long a person waits before the first word, and from one to the next.
const PATIENCE: Duration = Duration::from_secs(1);

impl Progress {
    /// A job of so many things that begins now.
    pub fn new(what: &'static str, whole: usize) -> Progress {
        Progress { what, whole, last: io::stderr().is_terminal().then(Instant::now), told: false }
    }

    /// So many things are done.
    pub fn tell(&mut self, done: usize) {
        let ends = done == self.whole && self.told;
        if !ends && !self.last.is_some_and(|last| last.elapsed() >= PATIENCE) {
            return;
        }
        let end = if ends { "\n" } else { "" };
        // That nobody can be told does not end the job.
        let _ = write!(io::stderr(), "\r{}: {done} of {}{end}", self.what, self.whole);
        (self.last, self.told) = (Some(Instant::now()), true);
    }
}

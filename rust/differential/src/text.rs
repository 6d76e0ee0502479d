//! One text to the text program and to the plain engine, and what they answer compared.

use crate::program::{self, Run};
use crate::refusals::Refusals;
use std::fmt;
use std::io::Write;
use std::path::PathBuf;

/// Compares on one text after the other, and counts.
pub struct Comparison {
    name: String,
    program: PathBuf,
    /// What was compared so far.
    pub tally: Tally,
}

/// Counts of what was compared.
#[derive(Debug, Clone, Default)]
pub struct Tally {
    /// Texts.
    pub texts: u64,
    /// Bytes that were printed.
    pub bytes: u64,
    /// Texts that are banded.
    pub accepted: u64,
    /// Texts that are refused, by the refusal's number.
    pub refused: Refusals,
    /// Points that are on.
    pub on: u64,
    /// Points that are off.
    pub off: u64,
    /// Points that are refused.
    pub refused_points: u64,
}

impl Comparison {
    /// A comparison that reports under a name.
    ///
    /// # Panics
    ///
    /// Where the program is not built.
    pub fn new(name: impl Into<String>) -> Comparison {
        Comparison { name: name.into(), program: program::path(), tally: Tally::default() }
    }

    /// Gives a text to both.
    ///
    /// # Panics
    ///
    /// Where a byte differs, or the program complains, hangs or does not end with status 0. Prints the text
    /// and what both answer.
    pub fn compare(&mut self, text: &[u8]) {
        let expected = plain::text::answer(text);
        let run = program::run(&self.program, text);
        self.check(text, &run, &expected);
    }

    /// Checks a run on a text against what the plain engine answers.
    ///
    /// # Panics
    ///
    /// As [`Comparison::compare`].
    pub fn check(&mut self, text: &[u8], run: &Run, expected: &[u8]) {
        if run.printed != expected || run.hung || !run.status.success() || !run.complaints.is_empty() {
            self.fail(text, run, expected);
        }
        self.tally.count(expected);
    }

    /// Prints what was compared, also where the test runner keeps a test's output to itself.
    pub fn report(&self) {
        let mut out = std::io::stdout().lock();
        writeln!(out, "{}: {}", self.name, self.tally).expect("standard output takes a line");
    }

    fn fail(&self, text: &[u8], run: &Run, expected: &[u8]) -> ! {
        let mut message = format!("{}: the text program and the plain engine differ", self.name);
        message += &format!(" (text {} of this run)\n", self.tally.texts + 1);
        message += &format!("text of {} bytes: {}\n", text.len(), text.escape_ascii());
        message += &format!("the program ended with {}", run.status);
        message += if run.hung { ", since it took too long\n" } else { "\n" };
        message += &format!("standard error: {}\n", run.complaints.escape_ascii());
        let same = run.printed.iter().zip(expected).take_while(|(a, b)| a == b).count();
        let line = |bytes: &[u8]| {
            let start = bytes[..same].iter().rposition(|&byte| byte == b'\n').map_or(0, |end| end + 1);
            bytes[start..(start + 300).min(bytes.len())].escape_ascii().to_string()
        };
        let [program, plain] = [run.printed.len(), expected.len()];
        message +=
            &format!("answers of {program} and {plain} bytes, the first {same} alike; from that line on\n");
        message += &format!("the program: {}\nthe plain engine: {}\n", line(&run.printed), line(expected));
        panic!("{message}");
    }
}

impl Tally {
    /// Counts what is answered to a text.
    fn count(&mut self, answer: &[u8]) {
        self.texts += 1;
        self.bytes += answer.len() as u64;
        let mut banded = false;
        for line in answer.split(|&byte| byte == b'\n') {
            match line {
                b"(off)" => self.off += 1,
                _ if line.starts_with(b"(on ") => self.on += 1,
                _ if line.starts_with(b"(done ") => banded = true,
                _ if line.starts_with(b"(refused ") && banded => self.refused_points += 1,
                _ if line.starts_with(b"(refused ") => self.refused.count(refusal_number(line)),
                _ => {}
            }
        }
        self.accepted += u64::from(banded);
    }

    /// Adds the counts of another comparison.
    pub fn add(&mut self, other: &Tally) {
        self.texts += other.texts;
        self.bytes += other.bytes;
        self.accepted += other.accepted;
        self.refused += &other.refused;
        self.on += other.on;
        self.off += other.off;
        self.refused_points += other.refused_points;
    }
}

/// The number of a line `(refused number spot)`.
fn refusal_number(line: &[u8]) -> u32 {
    let line = std::str::from_utf8(line).expect("answers are plain letters");
    line.split(' ').nth(1).and_then(|number| number.parse().ok()).expect("a refusal has a number")
}

impl fmt::Display for Tally {
    fn fmt(&self, f: &mut fmt::Formatter<'_>) -> fmt::Result {
        write!(
            f,
            "{} texts and {} bytes compared; accepted {}, refused by number {}; points on {}, off {}, refused {}",
            self.texts,
            self.bytes,
            self.accepted,
            self.refused,
            self.on,
            self.off,
            self.refused_points
        )
    }
}

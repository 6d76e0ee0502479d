//! The times of two engines that take turns.

use std::fmt;
use std::hint::black_box;
use std::time::{Duration, Instant};

/// How long each engine is timed on each input, at least.
const TIME: Duration = Duration::from_millis(400);

/// How often each engine is timed on each input, at least.
const RUNS: usize = 15;

/// Stands above the columns that [`Comparison`] prints, the first of which has this name.
pub fn heading(first: &str) -> String {
    format!("{first:>21} {:>21} {:>14} {:>7}", "proved", format!("proved/{first}"), "(least)")
}

/// The times of the proved engine and of the other, on one input.
#[derive(Default)]
pub struct Comparison {
    other: Times,
    proved: Times,
}

impl Comparison {
    /// The median of the other and that of the proved engine, in microseconds.
    pub fn medians(&self) -> [f64; 2] {
        [self.other.median(), self.proved.median()]
    }
}

/// Times both engines by turns, and gives their last answers.
pub fn by_turns<A, B>(mut other: impl FnMut() -> A, mut proved: impl FnMut() -> B) -> (Comparison, A, B) {
    let mut times = Comparison::default();
    let started = Instant::now();
    loop {
        let by_other = times.other.time(&mut other);
        let by_proved = times.proved.time(&mut proved);
        if times.other.0.len() >= RUNS && started.elapsed() >= 2 * TIME {
            return (times, by_other, by_proved);
        }
    }
}

/// Times of one engine on one input, in microseconds.
#[derive(Default)]
struct Times(Vec<f64>);

impl Times {
    fn time<T>(&mut self, work: impl FnOnce() -> T) -> T {
        let start = Instant::now();
        let result = black_box(work());
        self.0.push(start.elapsed().as_secs_f64() * 1e6);
        result
    }

    fn median(&self) -> f64 {
        let mut sorted = self.0.clone();
        sorted.sort_by(f64::total_cmp);
        sorted[sorted.len() / 2]
    }

    fn least(&self) -> f64 {
        self.0.iter().copied().fold(f64::INFINITY, f64::min)
    }
}

/// Median and least time of each, then both ratios.
impl fmt::Display for Comparison {
    fn fmt(&self, f: &mut fmt::Formatter<'_>) -> fmt::Result {
        let column = |times: &Times| format!("{:.1} ({:.1})", times.median(), times.least());
        write!(
            f,
            "{:>21} {:>21} {:>14.2} {:>7.2}",
            column(&self.other),
            column(&self.proved),
            self.proved.median() / self.other.median(),
            self.proved.least() / self.other.least(),
        )
    }
}

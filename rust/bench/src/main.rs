//! Times the proved engine against the plain one, and against the method that it replaces, on the same
//! inputs in one run.

#![forbid(unsafe_code)]

mod banding;
mod drawing;
mod exchanging;
mod foretelling;
mod growth;
mod judging;
mod quoting;
mod samples;
mod tightest;
mod times;

/// The tables, in order.
const TABLES: [(&str, fn()); 9] = [
    ("banding", banding::run),
    ("foretelling", foretelling::run),
    ("tightest", tightest::run),
    ("exchanging", exchanging::run),
    ("judging", judging::run),
    ("quoting", quoting::run),
    ("drawing", drawing::run),
    ("growth", growth::run),
    ("samples", samples::run),
];

/// Prints the tables that are named, or all.
fn main() {
    let named: Vec<String> = std::env::args().skip(1).collect();
    for (name, table) in TABLES {
        if named.is_empty() || named.iter().any(|n| n == name) {
            table();
            println!();
        }
    }
}

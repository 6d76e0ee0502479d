//! The text program against the plain engine: every byte that they print.

mod examples;
mod listing;
mod random;
mod streams;

//! Counts of refusals by their number.

use std::collections::BTreeMap;
use std::fmt;
use std::ops::{AddAssign, Index};

/// How often each refusal was answered.
#[derive(Debug, Clone, Default)]
pub struct Refusals(BTreeMap<u32, u64>);

impl Refusals {
    /// Whether none was answered.
    pub fn is_empty(&self) -> bool {
        self.0.is_empty()
    }

    /// Counts the refusal with a number once more.
    pub fn count(&mut self, number: u32) {
        *self.0.entry(number).or_default() += 1;
    }
}

impl Index<u32> for Refusals {
    type Output = u64;

    fn index(&self, number: u32) -> &u64 {
        self.0.get(&number).unwrap_or(&0)
    }
}

impl AddAssign<&Refusals> for Refusals {
    fn add_assign(&mut self, other: &Refusals) {
        for (&number, &count) in &other.0 {
            *self.0.entry(number).or_default() += count;
        }
    }
}

impl fmt::Display for Refusals {
    fn fmt(&self, f: &mut fmt::Formatter<'_>) -> fmt::Result {
        write!(f, "{:?}", self.0)
    }
}

//! How many cases were answered, and how many were refused by which number.

use crate::check::Number;
use std::collections::BTreeMap;
use std::fmt;

#[derive(Default)]
pub struct Counts {
    counts: BTreeMap<Number, usize>,
}

impl Counts {
    pub fn add(&mut self, number: Number) {
        *self.counts.entry(number).or_default() += 1;
    }

    /// How many were refused by this number; by 0, answered.
    pub fn of(&self, number: Number) -> usize {
        self.counts.get(&number).copied().unwrap_or_default()
    }

    pub fn total(&self) -> usize {
        self.counts.values().sum()
    }
}

impl fmt::Display for Counts {
    fn fmt(&self, f: &mut fmt::Formatter<'_>) -> fmt::Result {
        let (total, answered) = (self.total(), self.of(0));
        write!(f, "{total:>9} cases, {answered:>9} answered")?;
        let refused = self.counts.range(1..);
        for (place, (number, count)) in refused.enumerate() {
            let before = if place == 0 { "; refused by" } else { "," };
            write!(f, "{before} {number}: {count}")?;
        }
        Ok(())
    }
}

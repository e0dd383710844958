//! Sets of characters as sorted ranges.

const LAST: u32 = char::MAX as u32;

/// Ranges of code points, both ends included, sorted, not touching each other.
///
/// Surrogates may be inside: no character is one, so they make no difference.
#[derive(Clone, Debug, PartialEq, Eq)]
pub struct CharSet {
    ranges: Vec<(u32, u32)>,
}

impl CharSet {
    pub fn new(mut ranges: Vec<(u32, u32)>) -> Self {
        ranges.sort_unstable();
        let mut merged: Vec<(u32, u32)> = Vec::new();
        for (start, end) in ranges {
            match merged.last_mut() {
                Some(last) if start <= last.1.saturating_add(1) => last.1 = last.1.max(end),
                _ => merged.push((start, end)),
            }
        }
        Self { ranges: merged }
    }

    pub fn one(c: char) -> Self {
        Self::new(vec![(c as u32, c as u32)])
    }

    pub fn complement(&self) -> Self {
        let mut ranges = Vec::new();
        let mut next = 0;
        for &(start, end) in &self.ranges {
            if next < start {
                ranges.push((next, start - 1));
            }
            next = end + 1;
        }
        if next <= LAST {
            ranges.push((next, LAST));
        }
        Self { ranges }
    }

    pub fn contains(&self, code: u32) -> bool {
        self.ranges
            .iter()
            .any(|&(start, end)| start <= code && code <= end)
    }

    /// The code points at which membership may change.
    pub fn edges(&self) -> impl Iterator<Item = u32> + '_ {
        self.ranges
            .iter()
            .flat_map(|&(start, end)| [start, end + 1])
    }
}

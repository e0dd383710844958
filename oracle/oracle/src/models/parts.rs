//! The parts of a case, for whoever makes it smaller.

use super::table::Table;
use std::iter::successors;

pub enum Part<'a> {
    Bytes(&'a mut Vec<u8>),
    Table(&'a mut Table),
    Number(&'a mut usize),
    /// A number that is a place in the text and moves with its bytes.
    Place(&'a mut usize),
}

pub trait Parts: Clone {
    /// All that can be made smaller, always as many and in the same order.
    fn parts(&mut self) -> Vec<Part<'_>>;
}

impl Part<'_> {
    /// How many simpler values stand to be tried in its place; bytes are made shorter instead.
    pub fn choices(&self) -> usize {
        match self {
            Self::Bytes(_) => 0,
            Self::Table(table) => table.simpler().len(),
            Self::Number(number) | Self::Place(number) => simpler(**number).len(),
        }
    }

    /// Puts that one of them in its place.
    pub fn choose(&mut self, choice: usize) {
        match self {
            Self::Bytes(_) => {}
            Self::Table(table) => **table = table.simpler().swap_remove(choice),
            Self::Number(number) | Self::Place(number) => **number = simpler(**number)[choice],
        }
    }
}

/// Smaller numbers, the smallest first: half as much less each time, so that the least one that will
/// do is found soon from any.
pub fn simpler(number: usize) -> Vec<usize> {
    let less = successors(Some(number), |less| Some(less / 2));
    let less = less.take_while(|&less| less > 0);
    less.map(|less| number - less).collect()
}

#[cfg(test)]
mod tests {
    use super::*;

    #[test]
    fn simpler_numbers() {
        for (number, smaller) in [
            (0, &[][..]),
            (1, &[0]),
            (2, &[0, 1]),
            (7, &[0, 4, 6]),
            (100, &[0, 50, 75, 88, 94, 97, 99]),
        ] {
            assert_eq!(simpler(number), smaller, "{number}");
        }
        assert_eq!(simpler(usize::MAX).last(), Some(&(usize::MAX - 1)));
    }

    #[test]
    fn the_least_number_is_found_soon() {
        for least in [0, 1, 1000, (1 << 62) + 1, usize::MAX - 1, usize::MAX] {
            let (mut number, mut steps) = (usize::MAX, 0);
            while let Some(smaller) = simpler(number).into_iter().find(|&n| n >= least) {
                number = smaller;
                steps += 1;
            }
            assert_eq!(number, least);
            assert!(steps <= 64, "{least}: {steps}");
        }
    }
}

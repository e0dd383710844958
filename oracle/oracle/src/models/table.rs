//! Tables as a caller may hand them.

use super::handed::Text;
use super::parts::simpler;
use super::texts;
use crate::calls;
use crate::generate::Rng;

/// How a table stands to its text. Told like this, it follows a text that is made smaller.
#[derive(Clone, Debug, PartialEq, Eq)]
pub enum Table {
    /// As reading the text leaves it; no words for a text that is refused.
    Finished,
    /// Finished, with these words behind.
    Longer(Vec<u32>),
    /// Finished, but so many words too short.
    Short(usize),
    /// Finished, but one bit of one word is another. Places go around.
    Damaged {
        at: usize,
        bit: usize,
    },
    /// Another text's.
    Of(Text),
    Words(Vec<u32>),
}

impl Table {
    /// Finished more often than not, with words behind or without.
    pub fn random(rng: &mut Rng) -> Self {
        const MOST: usize = 7;
        const PLACES: usize = 1 << 16;
        const BITS: usize = 32;
        match rng.below(20) {
            0..13 => Self::Finished,
            13..16 => Self::Longer(words(rng.between(1, MOST), rng)),
            16 => Self::Short(rng.between(1, MOST)),
            17 => {
                let at = rng.below(PLACES);
                // The lowest bit is that of a span that is off by one.
                let bit = if rng.chance(50) { 0 } else { rng.below(BITS) };
                Self::Damaged { at, bit }
            }
            18 => Self::Of(Text(texts::text(rng))),
            _ => Self::Words(words(rng.below(MOST), rng)),
        }
    }

    pub fn words(&self, text: &[u8]) -> Vec<u32> {
        let finished = |text| calls::read(text).unwrap_or_default();
        let mut words = match self {
            Self::Of(other) => finished(other),
            Self::Words(words) => words.clone(),
            _ => finished(text),
        };
        match self {
            Self::Longer(behind) => words.extend(behind),
            Self::Short(missing) => words.truncate(words.len().saturating_sub(*missing)),
            Self::Damaged { at, bit } if !words.is_empty() => {
                let at = at % words.len();
                words[at] ^= 1 << bit;
            }
            _ => {}
        }
        words
    }

    /// Simpler ones, the finished one first.
    pub fn simpler(&self) -> Vec<Self> {
        let mut tables = match self {
            Self::Finished => return vec![],
            Self::Longer(words) => shorter(words).map(Self::Longer).to_vec(),
            Self::Short(missing) => simpler(*missing).into_iter().map(Self::Short).collect(),
            Self::Damaged { at, bit } => {
                let (at, bit) = (*at, *bit);
                let lower = simpler(bit)
                    .into_iter()
                    .map(|bit| Self::Damaged { at, bit });
                let nearer = simpler(at).into_iter().map(|at| Self::Damaged { at, bit });
                nearer.chain(lower).collect()
            }
            Self::Of(text) => shorter(text).map(|text| Self::Of(Text(text))).to_vec(),
            Self::Words(words) => shorter(words).map(Self::Words).to_vec(),
        };
        tables.insert(0, Self::Finished);
        tables.retain(|table| table != self);
        tables
    }
}

fn words(count: usize, rng: &mut Rng) -> Vec<u32> {
    (0..count).map(|_| rng.bits() as u32).collect()
}

/// Both halves, and all but the first and the last.
fn shorter<T: Clone>(list: &[T]) -> [Vec<T>; 4] {
    let (half, last) = (list.len() / 2, list.len().saturating_sub(1));
    let second = list.len().min(1);
    [&list[..half], &list[half..], &list[second..], &list[..last]].map(<[T]>::to_vec)
}

#[cfg(test)]
mod tests {
    use super::*;
    use crate::models::texts::P7;

    #[test]
    fn tables_stand_to_their_text() {
        let words = |table: Table| table.words(b"1 2");
        assert_eq!(words(Table::Finished), P7);
        assert_eq!(
            words(Table::Longer(vec![7, 8])),
            [&P7[..], &[7, 8]].concat()
        );
        assert_eq!(words(Table::Short(1)), P7[..14]);
        assert_eq!(words(Table::Short(16)), []);
        assert_eq!(words(Table::Of(Text(b"".to_vec()))), [5, 0, 0, 0, 1]);
        assert_eq!(words(Table::Words(vec![9])), [9]);
        let mut damaged = P7;
        damaged[2] ^= 1 << 31;
        assert_eq!(words(Table::Damaged { at: 17, bit: 31 }), damaged);
        assert_eq!(Table::Damaged { at: 17, bit: 31 }.words(b"]"), []);
    }

    #[test]
    fn simpler_tables_come_to_an_end() {
        let mut rng = Rng::new(1);
        for _ in 0..500 {
            let mut table = Table::random(&mut rng);
            let mut steps = 0;
            while let Some(next) = table.simpler().pop() {
                table = next;
                steps += 1;
                assert!(steps < 200_000, "{table:?}");
            }
            assert_eq!(table, Table::Finished);
        }
    }
}

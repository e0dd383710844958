//! A text with the table that a call is handed beside it, and refusals 14 and 15.

use super::parts::Part;
use super::record::Record;
use super::table::Table;
use super::texts;
use crate::calls;
use crate::generate::Rng;
use crate::refusal::{NO_SPACE, Refusal, STALE};
use std::fmt;
use std::ops::{Deref, DerefMut};

/// Bytes, shown as a string.
#[derive(Clone, PartialEq, Eq)]
pub struct Text(pub Vec<u8>);

/// A text, and the table handed with it.
#[derive(Clone, Debug, PartialEq, Eq)]
pub struct Handed {
    pub text: Text,
    pub table: Table,
}

/// The words that reading gives. Refusals 1, 2, 3 to 13, then 15.
pub fn finished(text: &[u8], table: &[u32]) -> Result<Vec<u32>, Refusal> {
    let words = calls::read(text)?;
    if table.starts_with(&words) {
        Ok(words)
    } else {
        Err(Refusal::unplaced(STALE))
    }
}

/// Refusal 14.
pub fn fitting<T>(answer: Vec<T>, room: usize) -> Result<Vec<T>, Refusal> {
    if answer.len() <= room {
        Ok(answer)
    } else {
        Err(Refusal::unplaced(NO_SPACE))
    }
}

impl Handed {
    pub fn new(text: impl Into<Vec<u8>>, table: Table) -> Self {
        Self {
            text: Text(text.into()),
            table,
        }
    }

    pub fn random(rng: &mut Rng) -> Self {
        Self::new(texts::text(rng), Table::random(rng))
    }

    /// The table's words.
    pub fn words(&self) -> Vec<u32> {
        self.table.words(&self.text)
    }

    /// The records of the text, once its table is found to be finished.
    pub fn finished(&self) -> Result<Vec<Record<'_>>, Refusal> {
        let words = finished(&self.text, &self.words())?;
        Ok(Record::all(&self.text, &words))
    }

    pub fn parts(&mut self) -> [Part<'_>; 2] {
        [Part::Bytes(&mut self.text), Part::Table(&mut self.table)]
    }
}

impl fmt::Debug for Text {
    fn fmt(&self, f: &mut fmt::Formatter<'_>) -> fmt::Result {
        write!(f, "\"{}\"", self.0.escape_ascii())
    }
}

impl Deref for Text {
    type Target = Vec<u8>;

    fn deref(&self) -> &Vec<u8> {
        &self.0
    }
}

impl DerefMut for Text {
    fn deref_mut(&mut self) -> &mut Vec<u8> {
        &mut self.0
    }
}

#[cfg(test)]
mod tests {
    use super::*;
    use crate::models::texts::P7;

    fn number(handed: &Handed) -> u32 {
        handed
            .finished()
            .map_or_else(|refusal| refusal.number, |_| 0)
    }

    #[test]
    fn a_table_is_finished_or_stale() {
        assert_eq!(number(&Handed::new("1 2", Table::Finished)), 0);
        assert_eq!(number(&Handed::new("1 2", Table::Longer(vec![7]))), 0);
        assert_eq!(number(&Handed::new("1 2", Table::Words(P7.to_vec()))), 0);
        assert_eq!(
            number(&Handed::new("1 2", Table::Of(Text(b"3 4".to_vec())))),
            0
        );
        for at in 0..P7.len() {
            for bit in 0..32 {
                assert_eq!(number(&Handed::new("1 2", Table::Damaged { at, bit })), 15);
            }
            assert_eq!(number(&Handed::new("1 2", Table::Short(at + 1))), 15);
        }
        assert_eq!(number(&Handed::new("", Table::Words(vec![]))), 15);
    }

    #[test]
    fn reading_comes_before_15() {
        for table in [Table::Finished, Table::Words(P7.to_vec())] {
            assert_eq!(number(&Handed::new("]", table.clone())), 13);
            assert_eq!(number(&Handed::new(*b"a\xFF", table)), 2);
        }
        let overlong = " ".repeat(65_536);
        assert_eq!(number(&Handed::new(overlong, Table::Words(vec![]))), 1);
    }
}

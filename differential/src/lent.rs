//! Lent memory that tells what was written to it.

use std::fmt::Debug;

/// Words behind the lent ones, which no call may touch.
const GUARD: usize = 4;

/// What stands behind lent memory.
#[derive(Clone, Copy, PartialEq, Eq)]
pub enum Behind {
    /// A few words that are looked at after the call.
    Guard,
    /// Nothing of the program's: an allocation ends there, for memcheck.
    Nothing,
}

pub trait Word: Copy + PartialEq + Debug {
    /// What a place holds before a call, another value for each of its neighbours.
    fn pattern(at: usize) -> Self;
}

impl Word for u8 {
    fn pattern(at: usize) -> Self {
        0xA5 ^ (at % 251) as u8
    }
}

impl Word for u32 {
    fn pattern(at: usize) -> Self {
        0xA5C3_96F0 ^ at as u32
    }
}

impl Word for eon::Hit {
    fn pattern(at: usize) -> Self {
        let word = |part: usize| 0xA5C3_96F0 ^ (3 * at + part);
        Self {
            record: word(0),
            start: word(1),
            end: word(2),
        }
    }
}

/// A slice of a pattern.
pub struct Lent<T> {
    words: Vec<T>,
    behind: Behind,
}

impl<T: Word> Lent<T> {
    pub fn new(behind: Behind) -> Self {
        Self {
            words: Vec::new(),
            behind,
        }
    }

    /// These words, to be read only.
    pub fn holding(words: &[T], behind: Behind) -> Self {
        let mut lent = Self::new(behind);
        lent.lend_after(words, 0);
        lent
    }

    fn guard(&self) -> usize {
        match self.behind {
            Behind::Guard => GUARD,
            Behind::Nothing => 0,
        }
    }

    /// So many fresh words of the pattern.
    pub fn lend(&mut self, len: usize) -> &mut [T] {
        let all = len + self.guard();
        match self.behind {
            Behind::Guard => self.words.clear(),
            Behind::Nothing => self.words = Vec::with_capacity(all),
        }
        self.words.extend((0..all).map(T::pattern));
        &mut self.words[..len]
    }

    /// These words, and fresh ones behind them.
    pub fn lend_after(&mut self, front: &[T], more: usize) -> &mut [T] {
        self.lend(front.len() + more);
        self.words[..front.len()].copy_from_slice(front);
        &mut self.words[..front.len() + more]
    }

    /// An array of fresh words, with a guard before it too.
    pub fn lend_array<const N: usize>(&mut self) -> &mut [T; N] {
        let guard = self.guard();
        let array = self.lend(guard + N).last_chunk_mut();
        array.expect("as many are lent")
    }

    pub fn words(&self) -> &[T] {
        &self.words[..self.words.len() - self.guard()]
    }

    /// Whether the memory holds these words and behind them, up to the guard's end, the pattern.
    pub fn holds(&self, front: &[T]) -> Result<(), String> {
        for (at, &word) in self.words.iter().enumerate() {
            let wanted = front.get(at).copied().unwrap_or_else(|| T::pattern(at));
            if word != wanted {
                return Err(format!("memory at {at} holds {word:?}, not {wanted:?}"));
            }
        }
        Ok(())
    }

    /// The words that a call has written, by how many it answers. The words behind them, all of them
    /// after a refusal, must be those of the pattern.
    pub fn answered<R>(&self, answer: Result<usize, R>) -> Result<Result<Vec<T>, R>, String> {
        let len = match answer {
            Ok(len) => len,
            Err(refusal) => return self.unchanged().map(|()| Err(refusal)),
        };
        let lent = self.words();
        match lent.get(..len) {
            None => Err(format!("{len} are answered, and {} lent", lent.len())),
            Some(written) => self.holds(written).map(|()| Ok(written.to_vec())),
        }
    }

    /// The array that a call has written, with what it answers. The words beside it, and all of them
    /// after a refusal, must be those of the pattern.
    pub fn answered_array<const N: usize, A, R>(
        &self,
        answer: Result<A, R>,
    ) -> Result<Result<(A, [T; N]), R>, String> {
        let answer = match answer {
            Ok(answer) => answer,
            Err(refusal) => return self.unchanged().map(|()| Err(refusal)),
        };
        let before = (0..self.guard()).map(T::pattern);
        let array = *self.words().last_chunk().expect("as many are lent");
        let wanted: Vec<T> = before.chain(array).collect();
        self.holds(&wanted).map(|()| Ok((answer, array)))
    }

    pub fn unchanged(&self) -> Result<(), String> {
        self.holds(&[])
    }
}

#[cfg(test)]
mod tests {
    use super::*;

    #[test]
    fn a_changed_word_is_told() {
        for at in 0..3 + GUARD {
            let mut lent = Lent::holding(&[7, 8, 9], Behind::Guard);
            assert_eq!(lent.holds(&[7, 8, 9]), Ok(()));
            lent.words[at] ^= 1u32;
            assert!(lent.holds(&[7, 8, 9]).is_err(), "{at}");
        }
    }

    #[test]
    fn an_answer_is_what_was_written() {
        let refused = Err::<usize, &str>("refused");
        let mut lent = Lent::<u8>::new(Behind::Guard);
        lent.lend(4);
        assert_eq!(lent.answered(refused), Ok(Err("refused")));
        lent.words[..2].copy_from_slice(b"ab");
        assert_eq!(lent.answered(Ok::<_, &str>(2)), Ok(Ok(b"ab".to_vec())));
        // Less is answered than is written, more than is lent, and something is written on a refusal.
        for answer in [Ok(1), Ok(5), refused] {
            assert!(lent.answered(answer).is_err(), "{answer:?}");
        }
    }
    #[test]
    fn an_array_has_guards_on_both_sides() {
        let refused = Err::<(), &str>("refused");
        for behind in [Behind::Guard, Behind::Nothing] {
            let mut lent = Lent::<u32>::new(behind);
            *lent.lend_array() = [7, 8, 9];
            let answer = lent.answered_array(Ok::<_, &str>(1));
            assert_eq!(answer, Ok(Ok((1, [7, 8, 9]))));
            assert!(lent.answered_array::<3, _, _>(refused).is_err());
            lent.lend_array::<3>();
            assert_eq!(lent.answered_array::<3, _, _>(refused), Ok(Err("refused")));
        }
        for at in 0..GUARD + 3 + GUARD {
            let mut lent = Lent::<u32>::new(Behind::Guard);
            lent.lend_array::<3>();
            lent.words[at] ^= 1;
            let is_inside = (GUARD..GUARD + 3).contains(&at);
            let answer = lent.answered_array::<3, _, &str>(Ok(()));
            assert_eq!(answer.is_ok(), is_inside, "{at}");
            assert!(lent.answered_array::<3, _, _>(refused).is_err(), "{at}");
        }
    }
}

//! Longest match in time linear in the whole text.
//!
//! A scan that runs on without a further match is thrown away up to its last match. Scanning
//! anew from there may run over the same stretch again and again. So the pairs of state and
//! place from which nothing more was matched are remembered, as in Reps, "Maximal-munch
//! tokenization in linear time": a later scan stops where it meets such a pair.

use crate::automaton::{Automaton, START, State};

/// Overruns up to this many bytes are cheaper to repeat than to remember.
const FAR: usize = 64;

pub struct Scanner<'s> {
    text: &'s str,
    automaton: &'s Automaton,
    failed: Option<FailedPairs>,
    steps: usize,
}

pub struct Match {
    pub end: usize,
    pub rule: usize,
}

impl<'s> Scanner<'s> {
    pub fn new(text: &'s str, automaton: &'s Automaton) -> Self {
        Self {
            text,
            automaton,
            failed: None,
            steps: 0,
        }
    }

    /// Transitions made so far.
    pub fn steps(&self) -> usize {
        self.steps
    }

    /// The longest match of at least one character from `start`.
    pub fn longest(&mut self, start: usize) -> Option<Match> {
        let mut state = START;
        let mut at = start;
        let mut last = (state, at);
        let mut found = None;
        while !self.has_failed(state, at) {
            let Some((next_state, next_at)) = self.step(state, at) else {
                break;
            };
            (state, at) = (next_state, next_at);
            if let Some(rule) = self.automaton.accepts(state) {
                found = Some(Match { end: at, rule });
                last = (state, at);
            }
        }
        if self.failed.is_some() || at - last.1 > FAR {
            self.remember(last, at);
        }
        found
    }

    #[inline]
    fn step(&mut self, state: State, at: usize) -> Option<(State, usize)> {
        let &byte = self.text.as_bytes().get(at)?;
        self.steps += 1;
        if byte < 128 {
            let next = self.automaton.step_ascii(state, byte)?;
            Some((next, at + 1))
        } else {
            let c = self.text[at..].chars().next()?;
            let next = self.automaton.step(state, c)?;
            Some((next, at + c.len_utf8()))
        }
    }

    #[inline]
    fn has_failed(&self, state: State, at: usize) -> bool {
        match &self.failed {
            None => false,
            Some(failed) => failed.contains(state, at),
        }
    }

    /// Walks from the last match to the scan's end once more, noting the pairs passed.
    fn remember(&mut self, last: (State, usize), end: usize) {
        let (mut state, mut at) = last;
        let mut failed = self.failed.take().unwrap_or_else(|| {
            let states = self.automaton.states();
            FailedPairs::new(states, self.text.len())
        });
        failed.insert(state, at);
        while at < end
            && let Some(next) = self.step(state, at)
        {
            (state, at) = next;
            failed.insert(state, at);
        }
        self.failed = Some(failed);
    }
}

/// Pairs of state and place from which scanning on matches nothing more.
struct FailedPairs {
    states: usize,
    bits: Vec<u64>,
}

impl FailedPairs {
    fn new(states: usize, length: usize) -> Self {
        Self {
            states,
            bits: vec![0; (states * (length + 1)).div_ceil(64)],
        }
    }

    fn contains(&self, state: State, at: usize) -> bool {
        let bit = self.bit(state, at);
        self.bits[bit / 64] & (1 << (bit % 64)) != 0
    }

    fn insert(&mut self, state: State, at: usize) {
        let bit = self.bit(state, at);
        self.bits[bit / 64] |= 1 << (bit % 64);
    }

    fn bit(&self, state: State, at: usize) -> usize {
        at * self.states + usize::from(state)
    }
}

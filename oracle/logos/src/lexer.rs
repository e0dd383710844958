//! The lexer that users see.

use crate::Rules;
use crate::scanner::Scanner;
use std::ops::{Deref, DerefMut, Range};

/// An iterator over the tokens of a text. An invalid token is `Err(())`.
pub struct Lexer<'s, T: 'static> {
    source: &'s str,
    tokens: &'static [T],
    skip: Scanner<'s>,
    rules: Scanner<'s>,
    span: Range<usize>,
}

impl<'s, T: Copy> Lexer<'s, T> {
    pub fn new(source: &'s str, rules: &'static Rules<T>) -> Self {
        Self {
            source,
            tokens: &rules.tokens,
            skip: Scanner::new(source, &rules.skip),
            rules: Scanner::new(source, &rules.rules),
            span: 0..0,
        }
    }

    pub fn source(&self) -> &'s str {
        self.source
    }

    /// The place of the latest token.
    pub fn span(&self) -> Range<usize> {
        self.span.clone()
    }

    /// The text of the latest token.
    pub fn slice(&self) -> &'s str {
        &self.source[self.span()]
    }

    pub fn spanned(self) -> SpannedIter<'s, T> {
        SpannedIter { lexer: self }
    }

    /// Transitions of the automata so far: the measure of the work done.
    pub fn steps(&self) -> usize {
        self.skip.steps() + self.rules.steps()
    }

    fn skip_from(&mut self, mut at: usize) -> usize {
        while let Some(skipped) = self.skip.longest(at) {
            at = skipped.end;
        }
        at
    }
}

impl<T: Copy> Iterator for Lexer<'_, T> {
    type Item = Result<T, ()>;

    fn next(&mut self) -> Option<Self::Item> {
        let start = self.skip_from(self.span.end);
        self.span = start..start;
        let first = self.source[start..].chars().next()?;
        let (token, end) = match self.rules.longest(start) {
            Some(found) => (Ok(self.tokens[found.rule]), found.end),
            None => (Err(()), start + first.len_utf8()),
        };
        self.span.end = end;
        Some(token)
    }
}

/// The same with the place of each token.
pub struct SpannedIter<'s, T: 'static> {
    lexer: Lexer<'s, T>,
}

impl<T: Copy> Iterator for SpannedIter<'_, T> {
    type Item = (Result<T, ()>, Range<usize>);

    fn next(&mut self) -> Option<Self::Item> {
        let token = self.lexer.next()?;
        Some((token, self.lexer.span()))
    }
}

impl<'s, T> Deref for SpannedIter<'s, T> {
    type Target = Lexer<'s, T>;

    fn deref(&self) -> &Self::Target {
        &self.lexer
    }
}

impl<T> DerefMut for SpannedIter<'_, T> {
    fn deref_mut(&mut self) -> &mut Self::Target {
        &mut self.lexer
    }
}

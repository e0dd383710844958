//! A stand-in for the `logos` crate, compiled: code for the printed rules of `eon_syntax`, and no
//! automaton at run time. The original is measured over it, since the real crate compiles its rules
//! too, and a slow lexer would make the original look dear.
//!
//! It does what such code does to be fast: it jumps by a token's first byte, runs over a table of
//! byte classes with no bounds check in a turn, and cuts slices without checks.
//!
//! The meaning is that of the oracle's stand-in: the longest match, and one character as an invalid
//! token where no rule matches. `lexcheck` compares the two.

mod scan;

pub use logos_compiled_derive::Logos;

use std::marker::PhantomData;
use std::ops::{Deref, Range};

/// The rules that `scan` is written for: attribute and text of each kind, in the enum's order.
pub const RULES: [(&str, &str); 15] = [
    ("regex", "//[^\n]*"),
    ("token", "["),
    ("token", "]"),
    ("token", "{"),
    ("token", "}"),
    ("token", "("),
    ("token", ")"),
    ("token", ":"),
    ("token", ","),
    ("regex", "[a-zA-Z_][a-zA-Z0-9_]*"),
    ("regex", "[+\\-0-9\\.][0-9a-zA-Z\\.+\\-_]*"),
    ("regex", r#""([^"\\]|\\.)*""#),
    ("regex", r"'([^'])*'"),
    ("regex", r#""""([^"]|"[^"]|""[^"])*""""#),
    ("regex", r"'''([^']|'[^']|''[^'])*'''"),
];

/// What `scan` skips before a token.
pub const SKIP: &str = r"[ \t\n\f\r]*";

/// Stops the build where an enum's rules are not those that the code is for. The derive macro calls
/// it in a constant.
pub const fn check_rules(rules: &[(&str, &str)], skips: &[&str]) {
    assert!(skips.len() == 1, "one skip rule is expected");
    assert!(same(skips[0], SKIP), "the code is for another skip rule");
    assert!(rules.len() == RULES.len(), "the code is for 15 kinds");
    let mut i = 0;
    while i < rules.len() {
        let alike = same(rules[i].0, RULES[i].0) && same(rules[i].1, RULES[i].1);
        assert!(alike, "the code is for other rules");
        i += 1;
    }
}

/// `==` cannot be called in a constant yet.
const fn same(a: &str, b: &str) -> bool {
    let (a, b) = (a.as_bytes(), b.as_bytes());
    if a.len() != b.len() {
        return false;
    }
    let mut i = 0;
    while i < a.len() {
        if a[i] != b[i] {
            return false;
        }
        i += 1;
    }
    true
}

/// A token enum with the rules of [`RULES`].
pub trait Logos: Copy + 'static {
    /// The kinds in the order of their rules.
    const KINDS: [Self; RULES.len()];

    fn lexer(source: &str) -> Lexer<'_, Self> {
        Lexer {
            source,
            start: 0,
            end: 0,
            kinds: PhantomData,
        }
    }
}

/// An iterator over the tokens of a text. An invalid token is `Err(())`.
///
/// A token starts behind blanks and ends behind an ASCII byte or a whole character, so `start` and
/// `end` are always character boundaries, and `start <= end`.
pub struct Lexer<'s, T> {
    source: &'s str,
    start: usize,
    end: usize,
    kinds: PhantomData<T>,
}

impl<'s, T> Lexer<'s, T> {
    pub fn source(&self) -> &'s str {
        self.source
    }

    /// The place of the latest token.
    #[inline]
    pub fn span(&self) -> Range<usize> {
        self.start..self.end
    }

    /// The text of the latest token.
    #[inline]
    pub fn slice(&self) -> &'s str {
        // SAFETY: both ends are character boundaries of `source` in order, as `Lexer` says.
        unsafe { self.source.get_unchecked(self.span()) }
    }

    pub fn spanned(self) -> SpannedIter<'s, T> {
        SpannedIter { lexer: self }
    }
}

impl<T: Logos> Iterator for Lexer<'_, T> {
    type Item = Result<T, ()>;

    #[inline]
    fn next(&mut self) -> Option<Self::Item> {
        let text = self.source.as_bytes();
        self.start = scan::skip_blanks(text, self.end);
        self.end = self.start;
        let &first = text.get(self.start)?;
        let (rule, end) = scan::token(text, self.start, first);
        self.end = end;
        Some(rule.map(|rule| T::KINDS[rule as usize]).ok_or(()))
    }
}

/// The same with the place of each token.
pub struct SpannedIter<'s, T> {
    lexer: Lexer<'s, T>,
}

impl<T: Logos> Iterator for SpannedIter<'_, T> {
    type Item = (Result<T, ()>, Range<usize>);

    #[inline]
    fn next(&mut self) -> Option<Self::Item> {
        let token = self.lexer.next()?;
        Some((token, self.lexer.span()))
    }
}

impl<'s, T> Deref for SpannedIter<'s, T> {
    type Target = Lexer<'s, T>;

    fn deref(&self) -> &Self::Target {
        &self.lexer
    }
}

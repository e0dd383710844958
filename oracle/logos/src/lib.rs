//! A stand-in for the `logos` crate: a lexer by longest match of the rules printed on an enum.
//!
//! The meaning, over Unicode scalar values:
//! - The skip rules are applied first, as far as they reach.
//! - Then the longest text of at least one character that any rule matches is the token.
//! - Two rules that match the same text are an error of the enum: building the rules panics.
//! - Where no rule matches, one character is an invalid token.
//!
//! A scan of a whole text takes time linear in its length, whatever the text.

mod automaton;
mod char_set;
mod lexer;
mod regex;
mod scanner;

pub use crate::lexer::{Lexer, SpannedIter};
pub use logos_derive::Logos;

use crate::automaton::Automaton;
use crate::regex::Regex;

/// A token enum. The derive macro of the same name collects its rules.
pub trait Logos: Copy + 'static {
    fn rules() -> &'static Rules<Self>;

    fn lexer(source: &str) -> Lexer<'_, Self> {
        Lexer::new(source, Self::rules())
    }
}

/// One attribute on one variant.
pub struct Rule<T> {
    pub token: T,
    pub name: &'static str,
    pub pattern: Pattern,
}

pub enum Pattern {
    /// The text itself.
    Token(&'static str),
    /// A regular expression.
    Regex(&'static str),
}

/// The rules of an enum, compiled.
pub struct Rules<T> {
    skip: Automaton,
    rules: Automaton,
    tokens: Vec<T>,
}

impl<T: Copy> Rules<T> {
    /// Panics if a pattern cannot be read or two rules match the same text:
    /// either is a fault of the enum, and a wrong lexer would be worse.
    pub fn new(skips: &[&'static str], rules: &[Rule<T>]) -> Self {
        // What is skipped is the same whichever rule skips it, so all skips are one rule.
        let skip = Regex::any_of(skips.iter().map(|pattern| parse("skip", pattern)).collect());
        let named: Vec<(&str, Regex)> =
            rules.iter().map(|rule| (rule.name, rule.regex())).collect();
        Self {
            skip: Automaton::new(&[("skip", skip)]),
            rules: Automaton::new(&named),
            tokens: rules.iter().map(|rule| rule.token).collect(),
        }
    }

    /// How many states the rules' automaton has.
    pub fn states(&self) -> usize {
        self.rules.states()
    }
}

impl<T> Rule<T> {
    fn regex(&self) -> Regex {
        match self.pattern {
            Pattern::Token(text) => Regex::literal(text),
            Pattern::Regex(pattern) => parse(self.name, pattern),
        }
    }
}

fn parse(name: &str, pattern: &str) -> Regex {
    Regex::parse(pattern).unwrap_or_else(|message| panic!("rule {name}: {message}: {pattern}"))
}

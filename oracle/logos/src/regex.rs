//! Regular expressions: literals, escapes, classes, `.`, groups, `|`, `*`, `+` and `?`.
//!
//! Anything else that has a meaning in regular expressions is refused, not taken literally.

use crate::char_set::CharSet;
use std::iter::Peekable;
use std::str::Chars;

#[derive(Debug)]
pub enum Regex {
    Set(CharSet),
    /// All, one after the other; none is the empty text.
    Sequence(Vec<Regex>),
    /// Any one; none matches nothing.
    AnyOf(Vec<Regex>),
    Repeat(Box<Regex>, Repetition),
}

#[derive(Clone, Copy, Debug)]
pub enum Repetition {
    ZeroOrMore,
    OneOrMore,
    ZeroOrOne,
}

impl Regex {
    pub fn literal(text: &str) -> Self {
        Self::Sequence(text.chars().map(|c| Self::Set(CharSet::one(c))).collect())
    }

    pub fn any_of(choices: Vec<Regex>) -> Self {
        Self::AnyOf(choices)
    }

    pub fn parse(pattern: &str) -> Result<Self, String> {
        let mut parser = Parser {
            chars: pattern.chars().peekable(),
        };
        let regex = parser.alternatives()?;
        match parser.chars.next() {
            None => Ok(regex),
            Some(c) => Err(format!("unbalanced {c:?}")),
        }
    }
}

struct Parser<'p> {
    chars: Peekable<Chars<'p>>,
}

impl Parser<'_> {
    fn alternatives(&mut self) -> Result<Regex, String> {
        let mut choices = vec![self.sequence()?];
        while self.chars.next_if_eq(&'|').is_some() {
            choices.push(self.sequence()?);
        }
        match choices.pop() {
            Some(only) if choices.is_empty() => Ok(only),
            last => {
                choices.extend(last);
                Ok(Regex::AnyOf(choices))
            }
        }
    }

    fn sequence(&mut self) -> Result<Regex, String> {
        let mut parts = Vec::new();
        while let Some(c) = self.chars.next_if(|c| !matches!(c, '|' | ')')) {
            let part = self.single(c)?;
            parts.push(self.repetition(part)?);
        }
        Ok(Regex::Sequence(parts))
    }

    fn single(&mut self, first: char) -> Result<Regex, String> {
        match first {
            '(' => self.group(),
            '[' => Ok(Regex::Set(self.class()?)),
            '.' => Ok(Regex::Set(CharSet::one('\n').complement())),
            '\\' => Ok(Regex::Set(CharSet::one(self.escape()?))),
            '*' | '+' | '?' => Err(format!("nothing to repeat before {first:?}")),
            '{' | '}' | ']' | '^' | '$' => Err(format!("{first:?} is not supported")),
            c => Ok(Regex::Set(CharSet::one(c))),
        }
    }

    fn group(&mut self) -> Result<Regex, String> {
        if self.chars.peek() == Some(&'?') {
            return Err("'(?' is not supported".to_owned());
        }
        let inside = self.alternatives()?;
        match self.chars.next() {
            Some(')') => Ok(inside),
            _ => Err("group without ')'".to_owned()),
        }
    }

    fn repetition(&mut self, part: Regex) -> Result<Regex, String> {
        let repetition = match self.chars.peek() {
            Some('*') => Repetition::ZeroOrMore,
            Some('+') => Repetition::OneOrMore,
            Some('?') => Repetition::ZeroOrOne,
            _ => return Ok(part),
        };
        self.chars.next();
        if let Some(c) = self.chars.next_if(|c| matches!(c, '*' | '+' | '?')) {
            return Err(format!("{c:?} after a repetition is not supported"));
        }
        Ok(Regex::Repeat(Box::new(part), repetition))
    }

    /// The character that an escape stands for, its backslash already read.
    fn escape(&mut self) -> Result<char, String> {
        match self.chars.next() {
            Some('n') => Ok('\n'),
            Some('r') => Ok('\r'),
            Some('t') => Ok('\t'),
            Some('f') => Ok('\u{0C}'),
            Some('v') => Ok('\u{0B}'),
            Some('a') => Ok('\u{07}'),
            Some(c @ ('<' | '>')) => Err(format!("'\\{c}' is not supported")),
            Some(c) if c.is_ascii_punctuation() || c == ' ' => Ok(c),
            Some(c) => Err(format!("'\\{c}' is not supported")),
            None => Err("ends in a backslash".to_owned()),
        }
    }

    /// A class, its `[` already read.
    fn class(&mut self) -> Result<CharSet, String> {
        let negated = self.chars.next_if_eq(&'^').is_some();
        let mut ranges = Vec::new();
        while let Some(start) = self.class_char()? {
            let mut end = start;
            if self.chars.next_if_eq(&'-').is_some() {
                end = self
                    .class_char()?
                    .ok_or("a range in a class needs both ends")?;
            }
            if end < start {
                return Err(format!("range {start:?}-{end:?} is backwards"));
            }
            ranges.push((start as u32, end as u32));
        }
        if ranges.is_empty() {
            return Err("empty class".to_owned());
        }
        let set = CharSet::new(ranges);
        Ok(if negated { set.complement() } else { set })
    }

    /// The next character of a class, or none at its `]`.
    fn class_char(&mut self) -> Result<Option<char>, String> {
        match self.chars.next() {
            Some(']') => Ok(None),
            Some('\\') => self.escape().map(Some),
            Some(c @ ('[' | '&' | '~' | '-')) => Err(format!("write {c:?} in a class as \\{c}")),
            Some(c) => Ok(Some(c)),
            None => Err("class without ']'".to_owned()),
        }
    }
}

#[cfg(test)]
mod tests {
    use super::Regex;

    #[test]
    fn what_is_not_supported_is_refused() {
        for pattern in [
            "a{2}",
            "^a",
            "a$",
            r"\d",
            r"\w",
            "(?:a)",
            "a**",
            "*a",
            "(a",
            "a)",
            "[a",
            "[]",
            "[z-a]",
            "[a-]",
            "[[:alpha:]]",
            "a\\",
            "]",
            r"\u{41}",
        ] {
            assert!(Regex::parse(pattern).is_err(), "{pattern}");
        }
    }

    #[test]
    fn what_is_supported_is_read() {
        for pattern in [
            "",
            "a|b|",
            "(a|(b)*)+c?",
            r"[^\]\\\-\^]",
            r"\.\*\\\n\t",
            ".é",
        ] {
            assert!(Regex::parse(pattern).is_ok(), "{pattern}");
        }
    }
}

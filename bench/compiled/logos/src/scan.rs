//! The code for the printed rules.

/// A rule, by its place in [`crate::RULES`].
#[derive(Clone, Copy)]
pub enum Rule {
    Comment,
    OpenList,
    CloseList,
    OpenBrace,
    CloseBrace,
    OpenParen,
    CloseParen,
    Colon,
    Comma,
    Identifier,
    Number,
    DoubleQuoted,
    SingleQuoted,
    TripleDoubleQuoted,
    TripleSingleQuoted,
}

/// A token's rule, none for an invalid one, and its end.
type Token = (Option<Rule>, usize);

/// Classes of bytes, one bit each.
mod class {
    pub const BLANK: u8 = 1;
    pub const WORD: u8 = 2;
    pub const NUMBER: u8 = 4;
    pub const IN_COMMENT: u8 = 8;
    pub const IN_DOUBLE_QUOTES: u8 = 16;
    pub const IN_SINGLE_QUOTES: u8 = 32;
    /// The bytes of a character behind its first.
    pub const CONTINUATION: u8 = 64;
}

/// The classes of each byte.
static CLASSES: [u8; 256] = {
    let mut classes = [0; 256];
    let mut byte = 0;
    while byte < 256 {
        classes[byte] = classes_of(byte as u8);
        byte += 1;
    }
    classes
};

const fn classes_of(byte: u8) -> u8 {
    let mut classes = 0;
    if matches!(byte, b' ' | b'\t' | b'\n' | b'\x0c' | b'\r') {
        classes |= class::BLANK;
    }
    if byte.is_ascii_alphanumeric() || byte == b'_' {
        classes |= class::WORD | class::NUMBER;
    }
    if matches!(byte, b'.' | b'+' | b'-') {
        classes |= class::NUMBER;
    }
    if byte != b'\n' {
        classes |= class::IN_COMMENT;
    }
    if !matches!(byte, b'"' | b'\\') {
        classes |= class::IN_DOUBLE_QUOTES;
    }
    if byte != b'\'' {
        classes |= class::IN_SINGLE_QUOTES;
    }
    if matches!(byte, 0x80..=0xBF) {
        classes |= class::CONTINUATION;
    }
    classes
}

/// Behind the blanks at `at`.
#[inline]
pub fn skip_blanks(text: &[u8], at: usize) -> usize {
    run(text, at, class::BLANK)
}

/// The token at `start`, whose first byte is `first`.
#[inline]
pub fn token(text: &[u8], start: usize, first: u8) -> Token {
    let next = start + 1;
    match first {
        b'[' => (Some(Rule::OpenList), next),
        b']' => (Some(Rule::CloseList), next),
        b'{' => (Some(Rule::OpenBrace), next),
        b'}' => (Some(Rule::CloseBrace), next),
        b'(' => (Some(Rule::OpenParen), next),
        b')' => (Some(Rule::CloseParen), next),
        b':' => (Some(Rule::Colon), next),
        b',' => (Some(Rule::Comma), next),
        b'a'..=b'z' | b'A'..=b'Z' | b'_' => (Some(Rule::Identifier), run(text, next, class::WORD)),
        b'0'..=b'9' | b'+' | b'-' | b'.' => (Some(Rule::Number), run(text, next, class::NUMBER)),
        b'/' if text.get(next) == Some(&b'/') => {
            (Some(Rule::Comment), run(text, next + 1, class::IN_COMMENT))
        }
        b'"' => double_quoted(text, start),
        b'\'' => single_quoted(text, start),
        _ => (None, run(text, next, class::CONTINUATION)),
    }
}

/// Behind the bytes of a class that stand at `at`. Eight bytes a turn need one bounds check, and each
/// copy of the loop knows its class.
#[inline(always)]
fn run(text: &[u8], mut at: usize, class: u8) -> usize {
    while let Some(eight) = text.get(at..at + 8) {
        for (i, &byte) in eight.iter().enumerate() {
            if CLASSES[usize::from(byte)] & class == 0 {
                return at + i;
            }
        }
        at += 8;
    }
    while let Some(&byte) = text.get(at)
        && CLASSES[usize::from(byte)] & class != 0
    {
        at += 1;
    }
    at
}

#[inline]
fn double_quoted(text: &[u8], start: usize) -> Token {
    let inside = start + 1;
    if text[inside..].starts_with(b"\"\"") {
        return match triple_quoted_end(text, start, class::IN_DOUBLE_QUOTES) {
            Some(end) => (Some(Rule::TripleDoubleQuoted), end),
            None => (Some(Rule::DoubleQuoted), start + 2),
        };
    }
    let mut at = inside;
    loop {
        at = run(text, at, class::IN_DOUBLE_QUOTES);
        match (text.get(at), text.get(at + 1)) {
            (Some(b'"'), _) => return (Some(Rule::DoubleQuoted), at + 1),
            // A backslash takes any character with it but a line feed.
            (Some(_), Some(&escaped)) if escaped != b'\n' => at += 2,
            _ => return (None, inside),
        }
    }
}

#[inline]
fn single_quoted(text: &[u8], start: usize) -> Token {
    let inside = start + 1;
    if text[inside..].starts_with(b"''") {
        return match triple_quoted_end(text, start, class::IN_SINGLE_QUOTES) {
            Some(end) => (Some(Rule::TripleSingleQuoted), end),
            None => (Some(Rule::SingleQuoted), start + 2),
        };
    }
    match run(text, inside, class::IN_SINGLE_QUOTES) {
        end if end < text.len() => (Some(Rule::SingleQuoted), end + 1),
        _ => (None, inside),
    }
}

/// The end of the string that the three quotes at `start` open, if three more close it.
#[inline]
fn triple_quoted_end(text: &[u8], start: usize, class: u8) -> Option<usize> {
    let mut at = start + 3;
    let quotes = &text[start..at];
    while at < text.len() {
        at = run(text, at, class);
        if text[at..].starts_with(quotes) {
            return Some(at + 3);
        }
        at += 1;
    }
    None
}

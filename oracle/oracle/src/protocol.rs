//! The line protocol: one case a line, one answer a line.

use crate::calls::{self, Options};
use crate::hex::{read_hex, write_hex};
use crate::lent::Lent;
use crate::models::{Part, Parts};
use crate::refusal::Refusal;

/// One question.
#[derive(Clone, Debug, PartialEq, Eq)]
pub enum Case {
    Read(Vec<u8>),
    Format(Vec<u8>, Options),
    Unquote(Vec<u8>),
    Identifier(Vec<u8>),
    Tokens(Vec<u8>),
    Compare(Vec<u8>, Vec<u8>),
}

#[derive(Clone, Debug, PartialEq, Eq)]
pub enum Answer {
    Words(Vec<u32>),
    Bytes(Vec<u8>),
    Truth(bool),
    Refused(Refusal),
}

impl Case {
    /// Reads a line, given without its line feed. The error says what is wrong with it.
    pub fn parse(line: &[u8]) -> Result<Self, String> {
        let mut words = line.split(|&byte| byte == b' ');
        let verb = words.next().unwrap_or_default();
        let case = match verb {
            b"read" => Self::Read(bytes(words.next())?),
            b"format" => Self::Format(
                bytes(words.next())?,
                Options {
                    indentation: bytes(words.next())?,
                    newline: bytes(words.next())?,
                    space: bytes(words.next())?,
                    separator: bytes(words.next())?,
                    braces: flag(words.next())?,
                },
            ),
            b"unquote" => Self::Unquote(bytes(words.next())?),
            b"identifier" => Self::Identifier(bytes(words.next())?),
            b"tokens" => Self::Tokens(bytes(words.next())?),
            b"compare" => Self::Compare(bytes(words.next())?, bytes(words.next())?),
            b"" => return Err("no verb".to_owned()),
            _ => return Err(format!("unknown verb \"{}\"", verb.escape_ascii())),
        };
        match words.next() {
            None => Ok(case),
            Some(_) => Err("too many words".to_owned()),
        }
    }

    /// Writes the case as a line without its line feed.
    pub fn write(&self, out: &mut Vec<u8>) {
        match self {
            Self::Read(text) => write_words("read", &[text], out),
            Self::Format(text, options) => {
                let Options {
                    indentation,
                    newline,
                    space,
                    separator,
                    braces,
                } = options;
                let words = [text, indentation, newline, space, separator];
                write_words("format", &words, out);
                out.extend(if *braces { b" 1" } else { b" 0" });
            }
            Self::Unquote(text) => write_words("unquote", &[text], out),
            Self::Identifier(text) => write_words("identifier", &[text], out),
            Self::Tokens(text) => write_words("tokens", &[text], out),
            Self::Compare(a, b) => write_words("compare", &[a, b], out),
        }
    }

    /// What the original answers.
    pub fn answer(&self) -> Answer {
        match self {
            Self::Read(text) => Answer::new(calls::read(text), Answer::Words),
            Self::Format(text, options) => Answer::new(calls::format(text, options), Answer::Bytes),
            Self::Unquote(text) => Answer::new(calls::unquote(text), Answer::Bytes),
            Self::Identifier(text) => Answer::Truth(calls::identifier(text)),
            Self::Tokens(text) => Answer::new(calls::tokens(text), |tokens| {
                Answer::Words(tokens.into_flattened())
            }),
            Self::Compare(a, b) => Answer::new(calls::compare(a, b), Answer::Truth),
        }
    }
}

/// The texts, settings too.
impl Parts for Case {
    fn parts(&mut self) -> Vec<Part<'_>> {
        let texts = match self {
            Self::Read(text)
            | Self::Unquote(text)
            | Self::Identifier(text)
            | Self::Tokens(text) => vec![text],
            Self::Format(text, options) => vec![
                text,
                &mut options.indentation,
                &mut options.newline,
                &mut options.space,
                &mut options.separator,
            ],
            Self::Compare(a, b) => vec![a, b],
        };
        texts.into_iter().map(Part::Bytes).collect()
    }
}

/// What the original answers to a line, given without its line feed. The error says what is wrong
/// with it.
pub fn answer(line: &[u8]) -> Result<Answer, String> {
    match Lent::parse(line)? {
        Some(case) => Ok(case.answer()),
        None => Ok(Case::parse(line)?.answer()),
    }
}

impl Answer {
    pub(crate) fn new<T>(result: Result<T, Refusal>, accepted: impl Fn(T) -> Self) -> Self {
        match result {
            Ok(value) => accepted(value),
            Err(refusal) => Self::Refused(refusal),
        }
    }

    /// Writes the answer as a line without its line feed.
    pub fn write(&self, out: &mut Vec<u8>) {
        match self {
            Self::Words(words) => {
                out.extend(b"ok");
                write_numbers(words, out);
            }
            Self::Bytes(bytes) => {
                out.extend(b"bytes ");
                write_hex(bytes, out);
            }
            Self::Truth(true) => out.extend(b"yes"),
            Self::Truth(false) => out.extend(b"no"),
            Self::Refused(refusal) => {
                out.extend(b"refused");
                write_numbers(&refusal.numbers(), out);
            }
        }
    }
}

fn bytes(word: Option<&[u8]>) -> Result<Vec<u8>, String> {
    read_hex(word.ok_or("too few words")?).map_err(str::to_owned)
}

fn flag(word: Option<&[u8]>) -> Result<bool, String> {
    match word.ok_or("too few words")? {
        b"0" => Ok(false),
        b"1" => Ok(true),
        _ => Err("braces are written as 0 or 1".to_owned()),
    }
}

fn write_words(verb: &str, words: &[&Vec<u8>], out: &mut Vec<u8>) {
    out.extend(verb.bytes());
    for word in words {
        out.push(b' ');
        write_hex(word, out);
    }
}

fn write_numbers(numbers: &[u32], out: &mut Vec<u8>) {
    for &number in numbers {
        out.push(b' ');
        write_number(number, out);
    }
}

/// By hand, because `write!` takes most of the time of a short answer.
fn write_number(mut number: u32, out: &mut Vec<u8>) {
    let mut digits = [0; 10];
    let mut first = digits.len();
    loop {
        first -= 1;
        digits[first] = b'0' + (number % 10) as u8;
        number /= 10;
        if number == 0 {
            break;
        }
    }
    out.extend(&digits[first..]);
}

//! One case, asked of both: every answer, and every word and byte of lent memory.

use crate::lent::{Behind, Lent};
use eon::{Part, Refusal, RefusalKind, Settings, Slice, TokenKind};
use oracle::{Case, Options};
use std::fmt::Debug;

/// Room beyond what an answer needs.
const SPARE: usize = 7;

/// What the original answered, for the counts: 0, or a refusal's number.
pub type Number = u32;

pub struct Checker {
    table: Lent<u32>,
    other: Lent<u32>,
    out: Lent<u8>,
}

impl Checker {
    pub fn new(behind: Behind) -> Self {
        Self {
            table: Lent::new(behind),
            other: Lent::new(behind),
            out: Lent::new(behind),
        }
    }

    /// The error says what differs.
    pub fn check(&mut self, case: &Case) -> Result<Number, String> {
        match case {
            // Tokens are an inner call; their texts are read.
            Case::Read(text) | Case::Tokens(text) => self.read(text),
            Case::Format(text, options) => self.format(text, options),
            Case::Unquote(text) => self.unquote(text),
            Case::Identifier(text) => identifier(text),
            Case::Compare(a, b) => self.compare(a, b),
        }
    }

    fn read(&mut self, text: &[u8]) -> Result<Number, String> {
        let wanted = oracle::read(text);
        let number = number_of(&wanted);
        match wanted {
            Ok(words) => {
                let records = words.len() / eon::RECORD_WORDS;
                suffices("the table", words.len(), eon::table_words(text.len()))?;
                for spare in [0, SPARE] {
                    let answer = eon::read(text, self.table.lend(words.len() + spare));
                    same("read", answer, Ok(records))?;
                    self.table.holds(&words)?;
                }
                for room in [words.len() - 1, 0] {
                    let answer = eon::read(text, self.table.lend(room));
                    same(
                        "read, too short a table",
                        answer,
                        Err(bare(RefusalKind::NoSpace)),
                    )?;
                    self.table.unchanged()?;
                }
            }
            Err(refusal) => {
                for room in [0, eon::table_words(text.len())] {
                    let answer = eon::read(text, self.table.lend(room));
                    same("read", answer, Err(refusal_of(refusal)))?;
                    self.table.unchanged()?;
                }
            }
        }
        Ok(number)
    }

    fn format(&mut self, text: &[u8], options: &Options) -> Result<Number, String> {
        let wanted = oracle::format(text, options);
        let number = number_of(&wanted);
        let settings = settings_of(options);
        let words = oracle::read(text).unwrap_or_default();
        self.table.lend_after(&words, SPARE);
        match &wanted {
            Ok(bytes) => {
                if settings == Settings::default() {
                    suffices("the output", bytes.len(), eon::layout_bytes(text.len()))?;
                }
                for spare in [0, SPARE] {
                    let out = self.out.lend(bytes.len() + spare);
                    let answer = eon::format(text, self.table.words(), &settings, out);
                    same("format", answer, Ok(bytes.len()))?;
                    self.out.holds(bytes)?;
                }
                if !bytes.is_empty() {
                    let out = self.out.lend(bytes.len() - 1);
                    let answer = eon::format(text, self.table.words(), &settings, out);
                    same(
                        "format, too short an output",
                        answer,
                        Err(bare(RefusalKind::NoSpace)),
                    )?;
                    self.out.unchanged()?;
                }
                self.table.holds(&words)?;
                self.stale_format(text, &words, &settings, bytes.len())?;
            }
            Err(refusal) => {
                for room in [0, 2 * text.len() + SPARE] {
                    let out = self.out.lend(room);
                    let answer = eon::format(text, self.table.words(), &settings, out);
                    same("format", answer, Err(refusal_of(*refusal)))?;
                    self.out.unchanged()?;
                }
            }
        }
        // The table is lent to be read only.
        self.table.holds(&words)?;
        match wanted {
            Ok(bytes) => self.reformat(text, &words, &settings, &bytes)?,
            Err(refusal) => self.refused_reformat(text, &settings, refusal_of(refusal))?,
        }
        Ok(number)
    }

    /// 15 comes before 14: tables one word too short, and with one word damaged.
    fn stale_format(
        &mut self,
        text: &[u8],
        words: &[u32],
        settings: &Settings<'_>,
        needed: usize,
    ) -> Result<(), String> {
        for room in [0, needed + SPARE] {
            for table in [&damaged(words)[..], &words[..words.len() - 1]] {
                let answer = eon::format(text, table, settings, self.out.lend(room));
                same(
                    "format by a stale table",
                    answer,
                    Err(bare(RefusalKind::Stale)),
                )?;
                self.out.unchanged()?;
            }
        }
        Ok(())
    }

    /// Reading and layout in one call, and 14 for too short a table or output: both stay as they were.
    fn reformat(
        &mut self,
        text: &[u8],
        words: &[u32],
        settings: &Settings<'_>,
        bytes: &[u8],
    ) -> Result<(), String> {
        for spare in [0, SPARE] {
            let table = self.table.lend(words.len() + spare);
            let out = self.out.lend(bytes.len() + spare);
            let answer = eon::reformat(text, table, settings, out);
            same("reformat", answer, Ok(bytes.len()))?;
            self.table.holds(words)?;
            self.out.holds(bytes)?;
        }
        if !bytes.is_empty() {
            let table = self.table.lend(words.len());
            let out = self.out.lend(bytes.len() - 1);
            let answer = eon::reformat(text, table, settings, out);
            same(
                "reformat, too short an output",
                answer,
                Err(bare(RefusalKind::NoSpace)),
            )?;
            self.table.unchanged()?;
            self.out.unchanged()?;
        }
        let table = self.table.lend(words.len() - 1);
        let out = self.out.lend(bytes.len());
        let answer = eon::reformat(text, table, settings, out);
        same(
            "reformat, too short a table",
            answer,
            Err(bare(RefusalKind::NoSpace)),
        )?;
        self.table.unchanged()?;
        self.out.unchanged()
    }

    fn refused_reformat(
        &mut self,
        text: &[u8],
        settings: &Settings<'_>,
        refusal: Refusal,
    ) -> Result<(), String> {
        let table = self.table.lend(SPARE);
        let out = self.out.lend(SPARE);
        let answer = eon::reformat(text, table, settings, out);
        same("reformat", answer, Err(refusal))?;
        self.table.unchanged()?;
        self.out.unchanged()
    }

    fn unquote(&mut self, quoted: &[u8]) -> Result<Number, String> {
        let wanted = oracle::unquote(quoted);
        let number = number_of(&wanted);
        match wanted {
            Ok(value) if is_part(quoted) => {
                let part = Part {
                    slice: Slice::Quoted,
                    start: opening_len(quoted),
                    len: value.len(),
                };
                for room in [0, value.len() + SPARE] {
                    let answer = eon::unquote_part(quoted, self.out.lend(room));
                    same("unquote", answer, Ok(part))?;
                    self.out.unchanged()?;
                }
                same("unquote", part.show(quoted, &[]), &value)?;
            }
            Ok(value) => {
                let part = Part {
                    slice: Slice::Scratch,
                    start: 0,
                    len: value.len(),
                };
                for spare in [0, SPARE] {
                    let answer = eon::unquote_part(quoted, self.out.lend(value.len() + spare));
                    same("unquote", answer, Ok(part))?;
                    self.out.holds(&value)?;
                }
                suffices("the scratch", value.len(), quoted.len())?;
                same("show", part.show(quoted, &value), &value)?;
                let len = value.len() + 1;
                let beyond = Part { len, ..part }.show(quoted, &value);
                same("show beyond the scratch", beyond, b"")?;
                if !value.is_empty() {
                    let answer = eon::unquote_part(quoted, self.out.lend(value.len() - 1));
                    same(
                        "unquote, too short a scratch",
                        answer,
                        Err(bare(RefusalKind::NoSpace)),
                    )?;
                    self.out.unchanged()?;
                }
            }
            Err(refusal) => {
                for room in [0, quoted.len() + SPARE] {
                    let answer = eon::unquote_part(quoted, self.out.lend(room));
                    same("unquote", answer, Err(refusal_of(refusal)))?;
                    self.out.unchanged()?;
                }
            }
        }
        Ok(number)
    }

    fn compare(&mut self, a: &[u8], b: &[u8]) -> Result<Number, String> {
        let wanted = oracle::compare(a, b);
        let number = number_of(&wanted);
        let (a_read, b_read) = (oracle::read(a), oracle::read(b));
        let a_words = a_read.as_deref().unwrap_or_default();
        let b_words = b_read.as_deref().unwrap_or_default();
        let a_table = self.table.lend_after(a_words, SPARE);
        let b_table = self.other.lend_after(b_words, 0);
        let answer = eon::compare(a, a_table, b, b_table);
        same("compare", answer, wanted.map_err(refusal_of))?;

        // The first text's refusals come first, 15 among them.
        let a_refused = a_read.as_ref().err().copied().map(refusal_of);
        let b_refused = b_read.as_ref().err().copied().map(refusal_of);
        let first = a_refused.unwrap_or(bare(RefusalKind::Stale));
        let answer = eon::compare(a, &damaged(a_words), b, b_table);
        same("compare by a stale first table", answer, Err(first))?;
        let second = a_refused.or(b_refused).unwrap_or(bare(RefusalKind::Stale));
        let answer = eon::compare(a, a_table, b, &damaged(b_words));
        same("compare by a stale second table", answer, Err(second))?;
        self.table.holds(a_words)?;
        self.other.holds(b_words)?;
        Ok(number)
    }
}

fn identifier(text: &[u8]) -> Result<Number, String> {
    let wanted = oracle::identifier(text);
    same("identifier", eon::is_valid_identifier(text), wanted)?;
    Ok(0)
}

fn same<T: PartialEq + Debug>(call: &str, ours: T, original: T) -> Result<(), String> {
    if ours == original {
        return Ok(());
    }
    Err(format!(
        "{call}\n  ours:     {ours:?}\n  original: {original:?}"
    ))
}

/// The room that the crate says is enough for any text of that length.
fn suffices(memory: &str, needed: usize, room: usize) -> Result<(), String> {
    if needed <= room {
        return Ok(());
    }
    Err(format!(
        "{memory} needs {needed}, and {room} should suffice"
    ))
}

fn number_of<T>(answer: &Result<T, oracle::Refusal>) -> Number {
    answer.as_ref().map_or_else(|refusal| refusal.number, |_| 0)
}

pub fn refusal_of(refusal: oracle::Refusal) -> Refusal {
    Refusal {
        kind: RefusalKind::of_number(refusal.number),
        start: refusal.start as usize,
        end: refusal.end as usize,
        expected: token_kind(refusal.expected),
        found: token_kind(refusal.found),
    }
}

/// 0 names none.
fn token_kind(number: u32) -> Option<TokenKind> {
    (number != 0).then(|| TokenKind::of_number(number))
}

/// A refusal of no place.
fn bare(kind: RefusalKind) -> Refusal {
    Refusal {
        kind,
        start: 0,
        end: 0,
        expected: None,
        found: None,
    }
}

fn settings_of(options: &Options) -> Settings<'_> {
    Settings {
        indentation: &options.indentation,
        newline: &options.newline,
        space_before_suffix_comment: &options.space,
        key_value_separator: &options.separator,
        always_include_outer_braces: options.braces,
    }
}

/// One bit of one word is another, both chosen by the words; no table at all for none.
fn damaged(words: &[u32]) -> Vec<u32> {
    let mut words = words.to_vec();
    let sum = words
        .iter()
        .fold(words.len() as u32, |sum, word| sum.rotate_left(5) ^ word);
    let len = words.len();
    if len != 0 {
        words[sum as usize % len] ^= 1 << ((sum >> 16) % 32);
    }
    words
}

/// "as a part of the quoted slice where it has no carriage return and either is literal or has no
/// backslash"
fn is_part(quoted: &[u8]) -> bool {
    !quoted.contains(&b'\r') && (quoted.starts_with(b"'") || !quoted.contains(&b'\\'))
}

/// The length of the opening mark, with the line feed that `'''` drops.
fn opening_len(quoted: &[u8]) -> usize {
    if quoted.starts_with(b"'''\n") {
        4
    } else if quoted.starts_with(b"'''") || quoted.starts_with(b"\"\"\"") {
        3
    } else {
        1
    }
}

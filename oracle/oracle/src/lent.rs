//! Cases that say how much memory is lent: refusals 14 and 15, which the original does not have.

use crate::calls::{self, Options};
use crate::hex::read_hex;
use crate::models::{finished, fitting};
use crate::protocol::Answer;
use crate::refusal::Refusal;

/// The most digits of a number of words or bytes.
const DIGITS: usize = 5;

/// One question, and what is lent to answer it.
#[derive(Clone, Debug, PartialEq, Eq)]
pub enum Lent {
    /// A text, and the words of the table.
    Read(Vec<u8>, usize),
    /// A quoted text, and the bytes of the scratch.
    Unquote(Vec<u8>, usize),
    /// A text, its finished table, and the bytes of the output.
    Layout(Vec<u8>, Vec<u32>, usize),
    /// A text, the words of the table, and the bytes of the output.
    Reformat(Vec<u8>, usize, usize),
}

impl Lent {
    /// Reads a line, given without its line feed; none if it is no case of this kind. The error
    /// says what is wrong with it.
    pub fn parse(line: &[u8]) -> Result<Option<Self>, String> {
        let words: Vec<&[u8]> = line.split(|&byte| byte == b' ').collect();
        let case = match words[..] {
            [b"read", text, room] => Self::Read(bytes(text)?, number(room)?),
            [b"unquote", text, room] => Self::Unquote(bytes(text)?, number(room)?),
            [b"layout", text, table, room] => {
                Self::Layout(bytes(text)?, table_words(table)?, number(room)?)
            }
            [b"reformat", text, table, room] => {
                Self::Reformat(bytes(text)?, number(table)?, number(room)?)
            }
            [b"layout" | b"reformat", ..] => return Err("too few or too many words".to_owned()),
            _ => return Ok(None),
        };
        Ok(Some(case))
    }

    /// What the original answers, unless 15 or 14 comes before.
    pub fn answer(&self) -> Answer {
        match self {
            Self::Read(text, room) => Answer::new(read(text, *room), Answer::Words),
            Self::Unquote(text, room) => Answer::new(unquote(text, *room), Answer::Bytes),
            Self::Layout(text, table, room) => {
                Answer::new(layout(text, table, *room), Answer::Bytes)
            }
            Self::Reformat(text, table, room) => {
                Answer::new(reformat(text, *table, *room), Answer::Bytes)
            }
        }
    }
}

fn read(text: &[u8], room: usize) -> Result<Vec<u32>, Refusal> {
    fitting(calls::read(text)?, room)
}

fn unquote(text: &[u8], room: usize) -> Result<Vec<u8>, Refusal> {
    let value = calls::unquote(text)?;
    if is_part(text) {
        Ok(value)
    } else {
        fitting(value, room)
    }
}

/// Whether the value of a quoted text is a part of it, and so needs no scratch.
fn is_part(text: &[u8]) -> bool {
    let literal = text.starts_with(b"'");
    !text.contains(&b'\r') && (literal || !text.contains(&b'\\'))
}

fn layout(text: &[u8], table: &[u32], room: usize) -> Result<Vec<u8>, Refusal> {
    finished(text, table)?;
    fitting(calls::format(text, &Options::default())?, room)
}

fn reformat(text: &[u8], table: usize, room: usize) -> Result<Vec<u8>, Refusal> {
    read(text, table)?;
    fitting(calls::format(text, &Options::default())?, room)
}

fn bytes(word: &[u8]) -> Result<Vec<u8>, String> {
    read_hex(word).map_err(str::to_owned)
}

fn number(word: &[u8]) -> Result<usize, String> {
    if word.is_empty() || word.len() > DIGITS {
        return Err(format!("a number has one to {DIGITS} digits"));
    }
    word.iter().try_fold(0, |sum, &byte| match byte {
        b'0'..=b'9' => Ok(10 * sum + usize::from(byte - b'0')),
        _ => Err("a number is written in decimal digits".to_owned()),
    })
}

fn table_words(word: &[u8]) -> Result<Vec<u32>, String> {
    let bytes = bytes(word)?;
    let (words, rest) = bytes.as_chunks();
    if !rest.is_empty() {
        return Err("a word of a table is four bytes".to_owned());
    }
    Ok(words.iter().copied().map(u32::from_le_bytes).collect())
}

#[cfg(test)]
mod tests {
    use super::*;

    fn refused<T>(number: u32) -> Result<T, Refusal> {
        Err(Refusal::unplaced(number))
    }

    #[test]
    fn a_table_fits() {
        let table = vec![4, 0, 3, 3, 3, 2, 0, 1, 1, 1, 2, 2, 3, 3, 1];
        assert_eq!(read(b"1 2", 15), Ok(table));
        assert_eq!(read(b"1 2", 14), refused(14));
        assert_eq!(read(b"", 4), refused(14));
        // Reading comes first.
        assert_eq!(read(b"]", 0), calls::read(b"]"));
        assert_eq!(read(b"\xFF", 0), calls::read(b"\xFF"));
    }

    #[test]
    fn a_part_needs_no_scratch() {
        for (text, value) in [
            (&b"'a\\n'"[..], &b"a\\n"[..]),
            (b"'''\na\\'''", b"a\\"),
            (b"\"abc\"", b"abc"),
            (b"\"\"\"a\nb\"\"\"", b"a\nb"),
        ] {
            assert_eq!(unquote(text, 0), Ok(value.to_vec()), "{text:?}");
        }
    }

    #[test]
    fn a_value_fits_the_scratch() {
        for (text, value) in [
            (&b"\"a\\n\""[..], &b"a\n"[..]),
            (b"'a\rb'", b"ab"),
            (b"\"a\r\"", b"a"),
            (b"\r'''a\\'''", b"a\\"),
        ] {
            let length = value.len();
            assert_eq!(unquote(text, length), Ok(value.to_vec()), "{text:?}");
            assert_eq!(unquote(text, length - 1), refused(14), "{text:?}");
        }
        assert_eq!(unquote(b"\"\"\"\\\n \"\"\"", 0), Ok(vec![]));
        assert_eq!(unquote(b"\"\\q\"", 0), refused(21));
    }

    #[test]
    fn layout_is_by_the_finished_table() {
        let table = calls::read(b"1 2").expect("is read");
        let written = Ok(b"[1, 2]".to_vec());
        assert_eq!(layout(b"1 2", &table, 6), written);
        assert_eq!(layout(b"1 2", &table, 5), refused(14));
        let longer = [&table[..], &[7, 7]].concat();
        assert_eq!(layout(b"1 2", &longer, 6), written);
        for at in 0..table.len() {
            let mut other = table.clone();
            other[at] += 1;
            assert_eq!(layout(b"1 2", &other, 6), refused(15), "{at}");
            assert_eq!(layout(b"1 2", &table[..at], 6), refused(15), "{at}");
        }
        // 15 comes before 14, and reading before both.
        assert_eq!(layout(b"1 2", &[], 0), refused(15));
        let surplus = calls::read(b"]").expect_err("is refused");
        assert_eq!(layout(b"]", &[], 0), Err(surplus));
    }

    #[test]
    fn reformat_needs_both() {
        assert_eq!(reformat(b"1 2", 15, 6), Ok(b"[1, 2]".to_vec()));
        assert_eq!(reformat(b"1 2", 14, 6), refused(14));
        assert_eq!(reformat(b"1 2", 15, 5), refused(14));
        assert_eq!(reformat(b"", 5, 0), Ok(vec![]));
        let surplus = calls::read(b"]").expect_err("is refused");
        assert_eq!(reformat(b"]", 0, 0), Err(surplus));
    }

    #[test]
    fn lines() {
        let parsed = |line: &str| Lent::parse(line.as_bytes());
        let text = vec![b'a'];
        assert_eq!(
            parsed("read 61 00005"),
            Ok(Some(Lent::Read(text.clone(), 5)))
        );
        assert_eq!(
            parsed("unquote 61 99999"),
            Ok(Some(Lent::Unquote(text.clone(), 99_999)))
        );
        assert_eq!(
            parsed("layout 61 0100000000020003 0"),
            Ok(Some(Lent::Layout(text.clone(), vec![1, 0x0300_0200], 0)))
        );
        assert_eq!(
            parsed("reformat 61 5 1"),
            Ok(Some(Lent::Reformat(text, 5, 1)))
        );
        for other in ["", "read", "read 61", "read 61 1 1", "compare 61 61"] {
            assert_eq!(parsed(other), Ok(None), "{other}");
        }
        for bad in [
            "read 61 ",
            "read 61 -",
            "read 61 123456",
            "read 61 1a",
            "read 6 1",
            "layout 61 010000 1",
            "layout 61 01000000",
            "reformat 61 1 1 1",
            "reformat",
        ] {
            assert!(parsed(bad).is_err(), "{bad}");
        }
    }
}

//! Eon texts by proved calls. Texts are any bytes; tables, outputs, scratches and lists are lent by
//! the caller; nothing is allocated and nothing panics.
//!
//! A call answers a value or a [`Refusal`], and a refusal leaves what was lent as it was. What each
//! takes of the [`stack`] is known.
//!
//! ```
//! let text = b"round:3 byes:[\"Half\"(7)]";
//! let mut table = vec![0; eon::table_words(text.len())];
//! let mut out = [0; 100];
//! let len = eon::reformat(text, &mut table, &eon::Settings::default(), &mut out)?;
//! assert_eq!(&out[..len], b"round: 3\nbyes: [\n\t\"Half\"(7)\n]\n");
//! # Ok::<(), eon::Refusal>(())
//! ```

#![no_std]

mod lookup;
mod pick;
mod refusal;
pub mod stack;
pub mod sys;

pub use lookup::{KEYS_MAX, NONE, PATHS_MAX, lookup};
pub use pick::{Hit, hits, record_at, records_in};
pub use refusal::{LineColumn, Refusal, RefusalKind, TokenKind};

use sys::Answer;

/// Words in a record: kind, start, text end, end, records in it counting itself.
pub const RECORD_WORDS: usize = 5;

/// How to lay a text out: texts of at most 16 bytes each.
#[derive(Clone, Copy, Debug, PartialEq, Eq)]
pub struct Settings<'a> {
    pub indentation: &'a [u8],
    pub newline: &'a [u8],
    /// Kept but unused, as in the original: one blank is written.
    pub space_before_suffix_comment: &'a [u8],
    pub key_value_separator: &'a [u8],
    pub always_include_outer_braces: bool,
}

impl Default for Settings<'_> {
    fn default() -> Self {
        Self {
            indentation: b"\t",
            newline: b"\n",
            space_before_suffix_comment: b" ",
            key_value_separator: b": ",
            always_include_outer_braces: false,
        }
    }
}

/// How many words of a table suffice for any text of so many bytes.
pub const fn table_words(text_len: usize) -> usize {
    text_len.saturating_add(1).saturating_mul(RECORD_WORDS)
}

/// How many bytes of output suffice for the layout of any text of so many bytes under the default
/// settings. Texts nested deep come near two thirds of it; others need little more than their length.
///
/// ```
/// let text = b"[[[1 2 3 4 5]]]";
/// let mut table = vec![0; eon::table_words(text.len())];
/// let mut out = vec![0; eon::layout_bytes(text.len())];
/// assert_eq!(eon::reformat(text, &mut table, &eon::Settings::default(), &mut out), Ok(42));
/// ```
pub const fn layout_bytes(text_len: usize) -> usize {
    text_len.saturating_add(1).saturating_mul(LINE_BYTES)
}

/// An indentation of at most 65 tabs, a line end, a blank line's and a byte of the text.
const LINE_BYTES: usize = 68;

/// Reads a text into the table and answers how many records it has. Words behind them are kept.
///
/// ```
/// let mut table = [0; 15];
/// assert_eq!(eon::read(b"1 2", &mut table), Ok(3));
/// assert_eq!(table, [4, 0, 3, 3, 3, 2, 0, 1, 1, 1, 2, 2, 3, 3, 1]);
/// ```
pub fn read(text: &[u8], table: &mut [u32]) -> Result<usize, Refusal> {
    // SAFETY: each pointer is a slice's with its length, and `table` is borrowed alone.
    let answer = answered(|answer| unsafe {
        sys::eon_read(
            text.as_ptr(),
            text.len(),
            table.as_mut_ptr(),
            table.len(),
            answer,
        );
    })?;
    Ok(answer.value as usize)
}

/// Lays a text out by its finished table and answers how many bytes it wrote. Bytes behind them are
/// kept.
///
/// ```
/// let (text, mut table, mut out) = (b"[ 1 2 ]", [0; 15], [0; 6]);
/// eon::read(text, &mut table)?;
/// assert_eq!(eon::format(text, &table, &eon::Settings::default(), &mut out), Ok(6));
/// assert_eq!(&out, b"[1, 2]");
/// # Ok::<(), eon::Refusal>(())
/// ```
pub fn format(
    text: &[u8],
    table: &[u32],
    settings: &Settings<'_>,
    out: &mut [u8],
) -> Result<usize, Refusal> {
    let (words, table) = (table.len(), table.as_ptr());
    // SAFETY: the table is a slice's with its length, which this call only reads.
    unsafe { lay_out(sys::eon_format, text, table, words, settings, out) }
}

/// Reads a text and lays it out, and answers how many bytes it wrote.
///
/// On success the table is finished too; a refusal leaves both as they were. What it takes of the
/// stack goes by the text's length ([`stack::reformat`]).
pub fn reformat(
    text: &[u8],
    table: &mut [u32],
    settings: &Settings<'_>,
    out: &mut [u8],
) -> Result<usize, Refusal> {
    let (words, table) = (table.len(), table.as_mut_ptr());
    // SAFETY: the table is a slice's with its length, borrowed alone.
    unsafe { lay_out(sys::eon_reformat, text, table, words, settings, out) }
}

/// # Safety
///
/// `table` must be good for so many words, and for writing and alone if the call writes it.
unsafe fn lay_out<Table>(
    call: sys::Layout<Table>,
    text: &[u8],
    table: Table,
    table_words: usize,
    settings: &Settings<'_>,
    out: &mut [u8],
) -> Result<usize, Refusal> {
    // SAFETY: each pointer is a slice's with its length, `out` is borrowed alone, and the caller
    // answers for the table.
    let answer = answered(|answer| unsafe {
        call(
            text.as_ptr(),
            text.len(),
            table,
            table_words,
            settings.indentation.as_ptr(),
            settings.indentation.len(),
            settings.newline.as_ptr(),
            settings.newline.len(),
            settings.space_before_suffix_comment.as_ptr(),
            settings.space_before_suffix_comment.len(),
            settings.key_value_separator.as_ptr(),
            settings.key_value_separator.len(),
            settings.always_include_outer_braces,
            out.as_mut_ptr(),
            out.len(),
            answer,
        );
    })?;
    Ok(answer.value as usize)
}

/// Whether the trees of two texts with their finished tables are equal, spans aside.
///
/// ```
/// let (mut a, mut b) = ([0; 15], [0; 15]);
/// eon::read(b"[1 2]", &mut a)?;
/// eon::read(b"1, 2", &mut b)?;
/// assert_eq!(eon::compare(b"[1 2]", &a, b"1, 2", &b), Ok(true));
/// # Ok::<(), eon::Refusal>(())
/// ```
pub fn compare(
    text1: &[u8],
    table1: &[u32],
    text2: &[u8],
    table2: &[u32],
) -> Result<bool, Refusal> {
    // SAFETY: each pointer is a slice's with its length.
    let answer = answered(|answer| unsafe {
        sys::eon_compare(
            text1.as_ptr(),
            text1.len(),
            table1.as_ptr(),
            table1.len(),
            text2.as_ptr(),
            text2.len(),
            table2.as_ptr(),
            table2.len(),
            answer,
        );
    })?;
    Ok(answer.value == 1)
}

/// The value of a quoted string: a part of the quoted slice, or the beginning of the scratch. A
/// scratch as long as the quoted slice suffices.
///
/// ```
/// let mut scratch = [0; 6];
/// assert_eq!(eon::unquote(br#""a\tb""#, &mut scratch), Ok(&b"a\tb"[..]));
/// assert_eq!(eon::unquote(b"'a b'", &mut []), Ok(&b"a b"[..]));
/// ```
pub fn unquote<'a>(quoted: &'a [u8], scratch: &'a mut [u8]) -> Result<&'a [u8], Refusal> {
    let part = unquote_part(quoted, scratch)?;
    Ok(part.show(quoted, scratch))
}

/// The slice that holds an unquoted value, by its number in `include/eon.h`.
#[derive(Clone, Copy, Debug, PartialEq, Eq)]
pub enum Slice {
    Quoted = 0,
    Scratch = 1,
}

/// Where an unquoted value stands.
#[derive(Clone, Copy, Debug, PartialEq, Eq)]
pub struct Part {
    pub slice: Slice,
    pub start: usize,
    pub len: usize,
}

impl Part {
    /// The part named, or the empty beginning of the quoted slice if it reaches beyond its slice.
    ///
    /// ```
    /// let part = eon::unquote_part(b"'a b'", &mut [])?;
    /// assert_eq!(part.show(b"'a b'", &[]), b"a b");
    /// assert_eq!(part.show(b"'a'", &[]), b"");
    /// # Ok::<(), eon::Refusal>(())
    /// ```
    pub fn show<'a>(self, quoted: &'a [u8], scratch: &'a [u8]) -> &'a [u8] {
        let mut answer = Answer::default();
        // SAFETY: each pointer is a slice's with its length.
        unsafe {
            sys::eon_show(
                quoted.as_ptr(),
                quoted.len(),
                scratch.as_ptr(),
                scratch.len(),
                self.slice as u64,
                self.start,
                self.len,
                &mut answer,
            );
        }
        let shown = Self::of(answer);
        let slice = match shown.slice {
            Slice::Quoted => quoted,
            Slice::Scratch => scratch,
        };
        slice
            .get(shown.start..shown.start + shown.len)
            .unwrap_or_default()
    }

    fn of(answer: Answer) -> Self {
        Self {
            slice: match answer.slice {
                0 => Slice::Quoted,
                _ => Slice::Scratch,
            },
            start: answer.from as usize,
            len: answer.value as usize,
        }
    }
}

/// As [`unquote`], but answers where the value stands, so that the scratch stays the caller's.
pub fn unquote_part(quoted: &[u8], scratch: &mut [u8]) -> Result<Part, Refusal> {
    // SAFETY: each pointer is a slice's with its length, and `scratch` is borrowed alone.
    let answer = answered(|answer| unsafe {
        sys::eon_unquote(
            quoted.as_ptr(),
            quoted.len(),
            scratch.as_mut_ptr(),
            scratch.len(),
            answer,
        );
    })?;
    Ok(Part::of(answer))
}

/// Whether a string needs no quotes: `[a-zA-Z_][a-zA-Z0-9_]*` other than `true`, `false`, `null`.
///
/// ```
/// assert!(eon::is_valid_identifier(b"round_3"));
/// assert!(!eon::is_valid_identifier(b"null"));
/// ```
pub fn is_valid_identifier(text: &[u8]) -> bool {
    // SAFETY: the pointer is a slice's with its length.
    unsafe { sys::eon_is_valid_identifier(text.as_ptr(), text.len()) }
}

fn answered(call: impl FnOnce(&mut Answer)) -> Result<Answer, Refusal> {
    let mut answer = Answer::default();
    call(&mut answer);
    match answer.number {
        0 => Ok(answer),
        _ => Err(Refusal::of(answer)),
    }
}

//! Why a call refuses.

use crate::sys::Answer;
use core::fmt;

/// An enum whose cases stand for numbers of document 01, each with the word that it is shown by.
macro_rules! numbered {
    ($(#[$about:meta])* $name:ident { $($number:literal $case:ident $word:literal,)* }) => {
        $(#[$about])*
        #[non_exhaustive]
        #[derive(Clone, Copy, Debug, PartialEq, Eq, Hash)]
        pub enum $name {
            $(#[doc = $word] $case,)*
            /// A number that a later library answers and this crate has no word for.
            Other(u32),
        }

        impl $name {
            /// The case that a number stands for.
            pub const fn of_number(number: u32) -> Self {
                match number {
                    $($number => Self::$case,)*
                    other => Self::Other(other),
                }
            }

            /// Its number in docs/REFUSALS.md.
            pub const fn number(self) -> u32 {
                match self {
                    $(Self::$case => $number,)*
                    Self::Other(number) => number,
                }
            }
        }

        impl fmt::Display for $name {
            fn fmt(&self, f: &mut fmt::Formatter<'_>) -> fmt::Result {
                match self {
                    $(Self::$case => f.write_str($word),)*
                    Self::Other(number) => write!(f, "unknown number {number}"),
                }
            }
        }
    };
}

numbered! {
    /// What a refusal says, by document 01's word.
    RefusalKind {
        1 Overlong "overlong",
        2 Garbled "garbled",
        3 Stray "stray",
        4 TooDeep "too deep",
        5 MissingValue "missing value",
        6 UnbalancedList "unbalanced `]`",
        7 UnbalancedBrace "unbalanced `}`",
        8 UnbalancedParen "unbalanced `)`",
        9 Nameless "nameless",
        10 NoValue "no value",
        11 Mismatch "mismatch",
        12 CutOff "cut off",
        13 Surplus "surplus",
        14 NoSpace "no space",
        15 Stale "stale",
        16 BadSettings "bad settings",
        17 NoOpeningQuote "no opening quote",
        18 NoClosingQuote "no closing quote",
        19 LineBreak "line break in a one-line string",
        20 EndsInBackslash "ends in a backslash",
        21 UnknownEscape "unknown escape",
        22 NoBrace "`\\u` without `{`",
        23 NinthDigit "ninth hex digit",
        24 ForeignCharacter "foreign character in `\\u{..}`",
        25 NotClosed "`\\u{..}` not closed",
        26 NoScalarValue "not a Unicode scalar value",
        27 NoByte "no byte covered",
        28 NoPaths "no list of paths",
    }
}

numbered! {
    /// A kind of token, in the order and by the names of the original's `TokenKind`.
    TokenKind {
        1 Comment "a comment",
        2 OpenList "`[`",
        3 CloseList "`]`",
        4 OpenBrace "`{`",
        5 CloseBrace "`}`",
        6 OpenParen "`(`",
        7 CloseParen "`)`",
        8 Colon "`:`",
        9 Comma "`,`",
        10 Identifier "an identifier",
        11 Number "a number",
        12 DoubleQuotedString "a string in `\"`",
        13 SingleQuotedString "a string in `'`",
        14 MultilineBasicString "a string in `\"\"\"`",
        15 MultilineLiteralString "a string in `'''`",
    }
}

/// What is wrong, where, and the token kinds that a mismatch and a cut-off text name.
///
/// ```
/// use eon::{RefusalKind, TokenKind};
///
/// let refusal = eon::read(b"[1}", &mut [0; 20]).unwrap_err();
/// assert_eq!(refusal.kind, RefusalKind::Mismatch);
/// assert_eq!(refusal.expected, Some(TokenKind::CloseList));
/// assert_eq!(refusal.to_string(), "11 mismatch at 2..3: expected `]`, found `}`");
/// ```
#[derive(Clone, Copy, Debug, PartialEq, Eq, Hash)]
pub struct Refusal {
    pub kind: RefusalKind,
    /// Where the refused part of the text starts, in bytes. `TooDeep` and `CutOff` name the token
    /// before, a comment or a comma among them.
    pub start: usize,
    /// Where it ends.
    pub end: usize,
    /// The kind of token that stood to be expected (`Mismatch`, `CutOff`).
    pub expected: Option<TokenKind>,
    /// The kind of token found (`Mismatch`).
    pub found: Option<TokenKind>,
}

/// A place in a text as an editor shows it: both count from 1, columns in characters.
#[derive(Clone, Copy, Debug, PartialEq, Eq, Hash)]
pub struct LineColumn {
    pub line: usize,
    pub column: usize,
}

impl LineColumn {
    /// The line and column of a byte. A place behind the text counts as its end, and of a text that
    /// is not UTF-8 each byte that does not continue a character counts as one.
    ///
    /// ```
    /// let at = eon::LineColumn::of("a: 1\né: ]".as_bytes(), 9);
    /// assert_eq!(at, eon::LineColumn { line: 2, column: 4 });
    /// ```
    pub fn of(text: &[u8], at: usize) -> Self {
        let before = text.get(..at).unwrap_or(text);
        let line_start = before
            .iter()
            .rposition(|&byte| byte == b'\n')
            .map_or(0, |feed| feed + 1);
        let is_start = |byte: &&u8| **byte & 0xC0 != 0x80;
        Self {
            line: 1 + before.iter().filter(|&&byte| byte == b'\n').count(),
            column: 1 + before[line_start..].iter().filter(is_start).count(),
        }
    }
}

impl fmt::Display for LineColumn {
    fn fmt(&self, f: &mut fmt::Formatter<'_>) -> fmt::Result {
        write!(f, "{}:{}", self.line, self.column)
    }
}

impl Refusal {
    /// Line and column of its start in the text that was refused; none where it has no place.
    ///
    /// ```
    /// let text = b"round: 3\nbyes: ]";
    /// let refusal = eon::read(text, &mut [0; 100]).unwrap_err();
    /// let at = refusal.line_column(text).unwrap();
    /// assert_eq!(format!("{at}: {}", refusal.kind), "2:7: unbalanced `]`");
    /// ```
    pub fn line_column(&self, text: &[u8]) -> Option<LineColumn> {
        self.has_place().then(|| LineColumn::of(text, self.start))
    }

    pub(crate) fn of(answer: Answer) -> Self {
        Self {
            kind: RefusalKind::of_number(answer.number as u32),
            start: answer.start as usize,
            end: answer.end as usize,
            expected: token_kind(answer.expected),
            found: token_kind(answer.found),
        }
    }

    /// Refusals of a text's own bytes have one; of lent memory, settings and strings none.
    fn has_place(&self) -> bool {
        self.kind.number() <= RefusalKind::Surplus.number()
    }
}

impl fmt::Display for Refusal {
    fn fmt(&self, f: &mut fmt::Formatter<'_>) -> fmt::Result {
        write!(f, "{} {}", self.kind.number(), self.kind)?;
        if self.has_place() {
            write!(f, " at {}..{}", self.start, self.end)?;
        }
        if let Some(expected) = self.expected {
            write!(f, ": expected {expected}")?;
        }
        if let Some(found) = self.found {
            write!(f, ", found {found}")?;
        }
        Ok(())
    }
}

impl core::error::Error for Refusal {}

/// 0 names none.
fn token_kind(number: u64) -> Option<TokenKind> {
    (number != 0).then(|| TokenKind::of_number(number as u32))
}

//! The calls of document 01, answered by the original.

use crate::error_map::{kind_number, reading_refusal, unquoting_refusal};
use crate::records::{records, same_records};
use crate::refusal::{Refusal, check_setting, check_text, word};
use crate::token_kind::TokenKind;
use eon_syntax::{FormatOptions, TokenTree};
use logos::Logos as _;

/// The settings of the layout.
#[derive(Clone, Debug, PartialEq, Eq)]
pub struct Options {
    pub indentation: Vec<u8>,
    pub newline: Vec<u8>,
    pub space: Vec<u8>,
    pub separator: Vec<u8>,
    pub braces: bool,
}

impl Default for Options {
    fn default() -> Self {
        Self {
            indentation: b"\t".to_vec(),
            newline: b"\n".to_vec(),
            space: b" ".to_vec(),
            separator: b": ".to_vec(),
            braces: false,
        }
    }
}

impl Options {
    fn checked(&self) -> Result<FormatOptions, Refusal> {
        Ok(FormatOptions {
            indentation: check_setting(&self.indentation)?,
            newline: check_setting(&self.newline)?,
            space_before_suffix_comment: check_setting(&self.space)?,
            key_value_separator: check_setting(&self.separator)?,
            always_include_outer_braces: self.braces,
        })
    }
}

/// The record table of a text, five words a record.
pub fn read(text: &[u8]) -> Result<Vec<u32>, Refusal> {
    let source = check_text(text)?;
    Ok(records(source, &tree(source)?))
}

/// The text laid out.
pub fn format(text: &[u8], options: &Options) -> Result<Vec<u8>, Refusal> {
    let options = options.checked()?;
    let source = check_text(text)?;
    Ok(tree(source)?.format(&options).into_bytes())
}

/// What a quoted string means.
pub fn unquote(text: &[u8]) -> Result<Vec<u8>, Refusal> {
    let quoted = check_text(text)?;
    match eon_syntax::unescape_and_unquote(quoted) {
        Ok(value) => Ok(value.into_bytes()),
        Err(message) => Err(unquoting_refusal(&message)),
    }
}

/// Whether the bytes are an identifier that needs no quotes.
pub fn identifier(text: &[u8]) -> bool {
    std::str::from_utf8(text).is_ok_and(eon_syntax::is_valid_identifier)
}

/// Kind, start and end of each token; kind 0 is an invalid one.
pub fn tokens(text: &[u8]) -> Result<Vec<[u32; 3]>, Refusal> {
    let source = check_text(text)?;
    let tokens = TokenKind::lexer(source).spanned().map(|(kind, span)| {
        let kind = kind.map_or(0, kind_number);
        [kind, word(span.start), word(span.end)]
    });
    Ok(tokens.collect())
}

/// Whether two texts have the same tree, spans aside.
pub fn compare(a: &[u8], b: &[u8]) -> Result<bool, Refusal> {
    let a_words = read(a)?;
    let b_words = read(b)?;
    let (a, b) = (check_text(a)?, check_text(b)?);
    Ok(same_records((a, &a_words), (b, &b_words)))
}

fn tree(source: &str) -> Result<TokenTree<'_>, Refusal> {
    TokenTree::parse_str(source).map_err(|error| reading_refusal(source, &error))
}

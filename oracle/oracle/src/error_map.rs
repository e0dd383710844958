//! From the original's messages to the numbers of document 01.
//!
//! Messages are compared whole. One that is not known here is a panic: a wrong number would
//! pass for an answer.

use crate::refusal::{self, Refusal};
use crate::token_kind::TokenKind;
use std::sync::LazyLock;

/// All kinds in the enum's order; a kind's number is its place here, from 1.
const KINDS: [TokenKind; 15] = [
    TokenKind::Comment,
    TokenKind::OpenList,
    TokenKind::CloseList,
    TokenKind::OpenBrace,
    TokenKind::CloseBrace,
    TokenKind::OpenParen,
    TokenKind::CloseParen,
    TokenKind::Colon,
    TokenKind::Comma,
    TokenKind::Identifier,
    TokenKind::Number,
    TokenKind::DoubleQuotedString,
    TokenKind::SingleQuotedString,
    TokenKind::MultilineBasicString,
    TokenKind::MultilineLiteralString,
];

static KIND_NAMES: LazyLock<Vec<String>> =
    LazyLock::new(|| KINDS.iter().map(TokenKind::to_string).collect());

/// 1 to 15, in the enum's order.
pub fn kind_number(kind: TokenKind) -> u32 {
    kind as u32 + 1
}

fn kind_named(name: &str) -> Option<u32> {
    let place = KIND_NAMES.iter().position(|known| known == name)?;
    Some(kind_number(KINDS[place]))
}

/// Refusals 3 to 13, from the error that reading `source` gave.
pub fn reading_refusal(source: &str, error: &eon_syntax::Error) -> Refusal {
    match error {
        eon_syntax::Error::At { span, message, .. } => {
            let token = source.get(span.start..span.end).unwrap_or_default();
            let (number, expected, found) = reading_number(token, message)
                .unwrap_or_else(|| panic!("unmapped error: {message}"));
            Refusal::placed(number, span.start, span.end).with_kinds(expected, found)
        }
        eon_syntax::Error::Custom { msg } => panic!("unmapped error: {msg}"),
    }
}

/// Number, kind expected, kind found.
fn reading_number(token: &str, message: &str) -> Option<(u32, u32, u32)> {
    let number = match message {
        "Maximum recursion depth exceeded while parsing document" => refusal::TOO_DEEP,
        "Unexpected end of input: expected a value" => refusal::MISSING_VALUE,
        "Unbalanced brackets" => refusal::UNBALANCED_BRACKET,
        "Unbalanced braces" => refusal::UNBALANCED_BRACE,
        "Unbalanced parentheses" => refusal::UNBALANCED_PARENTHESIS,
        "Parentheses must be proceeded by a string" => refusal::NAMELESS,
        "Expected a value, like a map, list, number, or string" => refusal::NO_VALUE,
        "Expected end of file here" => refusal::SURPLUS,
        _ => return stray(token, message).or_else(|| expectation(message)),
    };
    Some((number, 0, 0))
}

fn stray(token: &str, message: &str) -> Option<(u32, u32, u32)> {
    let named = message
        .strip_prefix("Invalid token: '")?
        .strip_suffix('\'')?;
    (named == token).then_some((refusal::STRAY, 0, 0))
}

/// `Expected KIND but found KIND`, or the text's end instead.
fn expectation(message: &str) -> Option<(u32, u32, u32)> {
    let (expected, found) = message.strip_prefix("Expected ")?.split_once(" but ")?;
    let expected = kind_named(expected)?;
    if found == "reached end of input" {
        Some((refusal::CUT_OFF, expected, 0))
    } else {
        let found = kind_named(found.strip_prefix("found ")?)?;
        Some((refusal::MISMATCH, expected, found))
    }
}

/// Refusals 17 to 26, from the message that unquoting gave.
pub fn unquoting_refusal(message: &str) -> Refusal {
    let number = unquoting_number(message).unwrap_or_else(|| panic!("unmapped error: {message}"));
    Refusal::unplaced(number)
}

fn unquoting_number(message: &str) -> Option<u32> {
    match message {
        "String must start with a quote (single or double)" => Some(refusal::NO_OPENING_QUOTE),
        "Triple-quoted multiline literal string must end with three single quotes"
        | "Single-quoted literal string must end with three single quotes"
        | "Missing ending of multiline double-quoted string"
        | "Double-quoted string must end with a double quote" => Some(refusal::NO_CLOSING_QUOTE),
        "Single-quoted literal string may contain newlines"
        | "Double-quoted string may contain newlines" => Some(refusal::LINE_BREAK),
        "String ended with a backslash" => Some(refusal::ENDS_IN_BACKSLASH),
        "\\u must be followed by an opening brace, e.g. \\u{1F600}" => {
            Some(refusal::NO_OPENING_BRACE)
        }
        "Unicode escape sequence must end with a closing brace '}'" => {
            Some(refusal::NO_CLOSING_BRACE)
        }
        _ => unquoting_number_of_pattern(message),
    }
}

/// The messages that name a character or a number.
fn unquoting_number_of_pattern(message: &str) -> Option<u32> {
    if let Some(rest) = message.strip_prefix("Unknown escape sequence: \\") {
        is_one_char(rest).then_some(refusal::UNKNOWN_ESCAPE)
    } else if let Some(rest) =
        message.strip_prefix("Invalid character in Unicode escape sequence: ")
    {
        is_one_char(rest).then_some(refusal::FOREIGN_CHARACTER)
    } else if let Some(rest) = message.strip_prefix("Invalid Unicode code point: ") {
        is_hex(rest).then_some(refusal::NO_SCALAR_VALUE)
    } else {
        let rest = message
            .strip_prefix("Unicode escape sequence is too long: ")?
            .strip_suffix(" (max 8 hex digits allowed)")?;
        is_hex(rest).then_some(refusal::NINTH_DIGIT)
    }
}

fn is_one_char(text: &str) -> bool {
    text.chars().count() == 1
}

fn is_hex(text: &str) -> bool {
    !text.is_empty() && text.bytes().all(|byte| byte.is_ascii_hexdigit())
}

#[cfg(test)]
mod tests {
    use super::*;

    #[test]
    fn kinds_are_numbered_from_one_in_order() {
        for (place, &kind) in KINDS.iter().enumerate() {
            assert_eq!(kind_number(kind) as usize, place + 1);
            assert_eq!(kind_named(&kind.to_string()), Some(kind_number(kind)));
        }
    }

    #[test]
    fn an_unknown_message_has_no_number() {
        for message in [
            "",
            "Expected ",
            "Expected comma ',' but found",
            "Expected comma ',' but found something",
            "Expected end of file here.",
            "Invalid token: 'b'",
        ] {
            assert_eq!(reading_number("a", message), None, "{message}");
        }
        for message in [
            "",
            "Unknown escape sequence: \\",
            "Invalid Unicode code point: x",
        ] {
            assert_eq!(unquoting_number(message), None, "{message}");
        }
    }

    #[test]
    #[should_panic(expected = "unmapped error: surprise")]
    fn an_unknown_message_is_a_panic() {
        unquoting_refusal("surprise");
    }
}

//! The lexer engine against cases worked out by hand.

use logos::Logos;
use oracle::TokenKind;

/// Kind and text of each token.
fn tokens(text: &str) -> Vec<(Result<TokenKind, ()>, &str)> {
    let mut lexer = TokenKind::lexer(text);
    let mut tokens = Vec::new();
    while let Some(kind) = lexer.next() {
        tokens.push((kind, lexer.slice()));
    }
    tokens
}

#[test]
fn longest_match() {
    use TokenKind::*;
    for (text, expected) in [
        ("", vec![]),
        (" \t\n\u{c}\r", vec![]),
        (
            "\"\"\"",
            vec![(Ok(DoubleQuotedString), "\"\""), (Err(()), "\"")],
        ),
        ("'''", vec![(Ok(SingleQuotedString), "''"), (Err(()), "'")]),
        (
            "\"\"\"\"\"\"",
            vec![(Ok(MultilineBasicString), "\"\"\"\"\"\"")],
        ),
        (
            "\"\"\"a\"\"b\"\"\"",
            vec![(Ok(MultilineBasicString), "\"\"\"a\"\"b\"\"\"")],
        ),
        (
            "\"\"\"a\"",
            vec![
                (Ok(DoubleQuotedString), "\"\""),
                (Ok(DoubleQuotedString), "\"a\""),
            ],
        ),
        ("''''a'''", vec![(Ok(MultilineLiteralString), "''''a'''")]),
        // Five quotes: the first two, the next two, one left over.
        (
            "\"\"\"\"\"",
            vec![
                (Ok(DoubleQuotedString), "\"\""),
                (Ok(DoubleQuotedString), "\"\""),
                (Err(()), "\""),
            ],
        ),
        (
            "abc1_ 1a+.-_",
            vec![(Ok(Identifier), "abc1_"), (Ok(Number), "1a+.-_")],
        ),
        (
            "1a/b",
            vec![(Ok(Number), "1a"), (Err(()), "/"), (Ok(Identifier), "b")],
        ),
        ("//\r\n//", vec![(Ok(Comment), "//\r"), (Ok(Comment), "//")]),
        ("\"a\nb\"", vec![(Ok(DoubleQuotedString), "\"a\nb\"")]),
        // A dot is no line feed, so the backslash spoils the string.
        (
            "\"\\\n\"",
            vec![(Err(()), "\""), (Err(()), "\\"), (Err(()), "\"")],
        ),
        (
            "\"\\\u{2028}\\\r\"",
            vec![(Ok(DoubleQuotedString), "\"\\\u{2028}\\\r\"")],
        ),
        (
            "é\u{a0}\u{b}",
            vec![(Err(()), "é"), (Err(()), "\u{a0}"), (Err(()), "\u{b}")],
        ),
        ("'é'", vec![(Ok(SingleQuotedString), "'é'")]),
        ("[é", vec![(Ok(OpenList), "["), (Err(()), "é")]),
    ] {
        assert_eq!(tokens(text), expected, "{text:?}");
    }
}

#[test]
fn places_and_parts_are_reachable() {
    let mut tokens = TokenKind::lexer(" a é").spanned();
    assert_eq!(tokens.next(), Some((Ok(TokenKind::Identifier), 1..2)));
    assert_eq!((tokens.slice(), tokens.source()), ("a", " a é"));
    assert_eq!(tokens.next(), Some((Err(()), 3..5)));
    assert_eq!(tokens.next(), None);
    assert_eq!(tokens.next(), None);
}

mod made_up {
    use logos::Logos;

    /// Every part of the regular expressions, and every kind of string literal.
    #[derive(Clone, Copy, Debug, PartialEq, Eq, Logos)]
    #[logos(skip "[ ]+")]
    #[logos(skip r"\*[^\*]*\*")]
    pub(crate) enum Rich {
        #[token("\x41\u{42}\"")]
        Escaped,
        #[token(r"\n")]
        Raw,
        #[token(r#"""#)]
        Hashed,
        #[token(".+")]
        NoRegex,
        #[regex("x(y|zz)?w+")]
        Repeated,
        #[regex("é[α-ω]*")]
        #[regex(r"\?(\.|-)")]
        Twice,
        #[regex("[0-9]*")]
        MaybeEmpty,
    }

    #[derive(Clone, Copy, Logos)]
    pub enum Tied {
        #[regex("[a-z]+")]
        Word,
        #[token("if")]
        If,
    }

    /// Without a `b` each token is short, but only the text's end tells.
    #[derive(Clone, Copy, Debug, PartialEq, Eq, Logos)]
    pub enum Nested {
        #[token("a")]
        Short,
        #[regex("a+b")]
        Long,
    }
}

fn kinds<T: Logos>(text: &str) -> Vec<(Option<T>, &str)> {
    let mut lexer = T::lexer(text);
    let mut tokens = Vec::new();
    while let Some(kind) = lexer.next() {
        tokens.push((kind.ok(), lexer.slice()));
    }
    tokens
}

#[test]
fn attributes_and_expressions_are_read() {
    use made_up::Rich::*;
    assert_eq!(
        kinds("AB\"\\n\" *skipped*  *this too* .+xyww xzzw xw xz 12?.éαω?-*open"),
        [
            (Some(Escaped), "AB\""),
            (Some(Raw), "\\n"),
            (Some(Hashed), "\""),
            (Some(NoRegex), ".+"),
            (Some(Repeated), "xyww"),
            (Some(Repeated), "xzzw"),
            (Some(Repeated), "xw"),
            (None, "x"),
            (None, "z"),
            (Some(MaybeEmpty), "12"),
            (Some(Twice), "?."),
            (Some(Twice), "éαω"),
            (Some(Twice), "?-"),
            (None, "*"),
            (None, "o"),
            (None, "p"),
            (None, "e"),
            (None, "n"),
        ]
    );
}

#[test]
#[should_panic(expected = "rules Tied::Word and Tied::If match the same text \"if\"")]
fn a_tie_panics() {
    made_up::Tied::lexer("x");
}

#[test]
fn falls_back_to_the_last_match() {
    use made_up::Nested::*;
    assert_eq!(
        kinds("aabaac"),
        [
            (Some(Long), "aab"),
            (Some(Short), "a"),
            (Some(Short), "a"),
            (None, "c"),
        ]
    );
}

/// Transitions for a whole scan.
fn steps<T: Logos>(text: &str) -> usize {
    let mut lexer = T::lexer(text);
    while lexer.next().is_some() {}
    lexer.steps()
}

const LENGTH: usize = 65_535;

#[test]
fn linear_on_adversarial_texts() {
    for (front, unit) in [
        ("\"", "\\\""),
        ("", "\"\\"),
        ("\"\"\"", "\\\""),
        ("\"\"\"", "a\"\""),
        ("'''", "a''"),
        ("", "'\"\\\""),
        ("\"", "\\\\\"\\\""),
        ("", "\"\"\"a"),
        ("", "\"\"\"\\\""),
        ("", "'''\"\"\""),
        ("\"", "\\é"),
        ("", "/"),
        ("", "\""),
        ("", "#"),
    ] {
        let mut text = front.to_owned();
        while text.len() + unit.len() <= LENGTH {
            text += unit;
        }
        let steps = steps::<TokenKind>(&text);
        assert!(
            steps <= 8 * LENGTH,
            "{front:?} {unit:?}: {steps} steps for {LENGTH} bytes"
        );
    }
}

/// The bound that holds for every text: overruns are short, or each is made once.
#[test]
fn linear_in_every_case() {
    let states = TokenKind::rules().states();
    let per_byte = 3 + 64 + 2 * states;
    for seed in 0..200u64 {
        let mut state = seed;
        let mut text = String::new();
        while text.len() < 4096 {
            state = state
                .wrapping_mul(6364136223846793005)
                .wrapping_add(1442695040888963407);
            text.push(['"', '\'', '\\', 'a', '\n', '/'][(state >> 33) as usize % 6]);
        }
        assert!(
            steps::<TokenKind>(&text) <= per_byte * text.len(),
            "{text:?}"
        );
    }
}

/// On a made-up enum for which each scan runs to the text's end, if nothing is remembered.
#[test]
fn linear_on_nested_rules() {
    let text = "a".repeat(LENGTH);
    let steps = steps::<made_up::Nested>(&text);
    assert!(steps <= 8 * LENGTH, "{steps} steps for {LENGTH} bytes");
}

/// A scan that remembers must give what one that does not gives.
#[test]
fn remembering_changes_no_token() {
    for unit in ["\\\"", "a\"\"", "'\"\\\"x\"", "\"\"\"a\"b", "''a'"] {
        for front in ["", "\"", "\"\"\"", "'", "'''"] {
            let text = format!("{front}{}", unit.repeat(100));
            assert_eq!(tokens(&text), tokens_one_by_one(&text), "{text:?}");
        }
    }
}

/// Each token by a fresh lexer, which remembers nothing of those before.
fn tokens_one_by_one(text: &str) -> Vec<(Result<TokenKind, ()>, &str)> {
    let mut rest = text;
    let mut tokens = Vec::new();
    loop {
        let mut lexer = TokenKind::lexer(rest);
        let Some(kind) = lexer.next() else {
            return tokens;
        };
        tokens.push((kind, lexer.slice()));
        rest = &rest[lexer.span().end..];
    }
}

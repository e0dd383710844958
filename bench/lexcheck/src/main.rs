//! Holds the compiled lexer to the oracle's: the tokens of all short texts over small alphabets, then
//! the tokens, trees and layouts of random texts. Stops at the first difference.

// The original keeps its lexer to itself, so the same unchanged file is built in here too, over the
// compiled lexer.
#[rustfmt::skip]
#[path = "../../../oracle/eon_syntax/src/token_kind.rs"]
mod token_kind;

mod texts;

use logos::Logos as _;
use std::process::ExitCode;
use token_kind::TokenKind;

const USAGE: &str = "usage: lexcheck [COUNT [SEED]]
COUNT random texts of each of two sources, default 200000; SEED is 1 by default";

fn main() -> ExitCode {
    let arguments: Vec<String> = std::env::args().skip(1).collect();
    let numbers: Option<Vec<u64>> = arguments.iter().map(|word| word.parse().ok()).collect();
    let (count, seed) = match numbers.as_deref() {
        Some([]) => (200_000, 1),
        Some(&[count]) => (count, 1),
        Some(&[count, seed]) => (count, seed),
        _ => {
            eprintln!("{USAGE}");
            return ExitCode::FAILURE;
        }
    };
    check_short();
    check_random(count, seed);
    ExitCode::SUCCESS
}

fn check_short() {
    let (mut texts, mut tokens) = (0, 0);
    texts::each_short(|text| {
        texts += 1;
        tokens += check_tokens(text);
    });
    println!("{texts} short texts, {tokens} tokens: no difference");
}

fn check_random(count: u64, seed: u64) {
    let (mut texts, mut tokens, mut trees) = (0, 0, 0);
    texts::each_random(count, seed, |text| {
        texts += 1;
        tokens += check_tokens(text);
        trees += usize::from(check_tree(text));
    });
    println!("{texts} random texts, {tokens} tokens, {trees} trees and layouts: no difference");
}

/// How many tokens there are.
fn check_tokens(text: &str) -> usize {
    let general = oracle::tokens(text.as_bytes()).expect("the text is short enough");
    let compiled = TokenKind::lexer(text).spanned().map(|(kind, span)| {
        let kind = kind.map_or(0, |kind| kind as usize + 1);
        [kind, span.start, span.end].map(|number| number as u32)
    });
    assert_eq!(compiled.collect::<Vec<_>>(), general, "{text:?}");
    general.len()
}

/// Whether the text has a tree. Errors are compared too.
fn check_tree(text: &str) -> bool {
    let compiled = eon_syntax_compiled::TokenTree::parse_str(text);
    let general = eon_syntax_general::TokenTree::parse_str(text);
    assert_eq!(format!("{compiled:?}"), format!("{general:?}"), "{text:?}");
    let (Ok(compiled), Ok(general)) = (compiled, general) else {
        return false;
    };
    let compiled = compiled.format(&eon_syntax_compiled::FormatOptions::default());
    let general = general.format(&eon_syntax_general::FormatOptions::default());
    assert_eq!(compiled, general, "{text:?}");
    true
}

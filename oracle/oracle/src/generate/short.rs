//! All short texts over an alphabet of telling characters.

use super::rng::Rng;
use crate::protocol::Case;
use std::sync::LazyLock;

const MAX_BYTES: usize = 4;

const ALPHABET: [&str; 19] = [
    "[", "]", "{", "}", "(", ")", "\"", "'", ":", ",", "/", "\\", "a", "1", "\n", " ", "\r", "#",
    "é",
];

static TEXTS: LazyLock<Vec<Vec<u8>>> = LazyLock::new(|| {
    let mut texts = vec![Vec::new()];
    let mut done = 0;
    while let Some(text) = texts.get(done).cloned() {
        for symbol in ALPHABET {
            if text.len() + symbol.len() <= MAX_BYTES {
                texts.push([&text, symbol.as_bytes()].concat());
            }
        }
        done += 1;
    }
    texts
});

/// Each text is asked twice in a row.
pub fn case(turn: usize) -> Option<Case> {
    let text = TEXTS.get(turn / 2)?.clone();
    Some(if turn.is_multiple_of(2) {
        Case::Read(text)
    } else {
        Case::Tokens(text)
    })
}

pub fn text(rng: &mut Rng) -> Vec<u8> {
    rng.pick_from(&TEXTS).clone()
}

pub fn random_case(rng: &mut Rng) -> Case {
    case(rng.below(2 * TEXTS.len())).expect("within the texts")
}

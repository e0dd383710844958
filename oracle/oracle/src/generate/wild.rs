//! Texts that are mostly not well-formed.

use super::rng::Rng;
use super::tree;

const FRAGMENTS: [&str; 40] = [
    "[",
    "]",
    "{",
    "}",
    "(",
    ")",
    ":",
    ",",
    "[",
    "]",
    "{",
    "}",
    "\"A\"(",
    ")",
    "a:",
    "k: 1",
    "\"",
    "'",
    "\"\"",
    "''",
    "\"\"\"",
    "'''",
    "\"\"\"x\"\"\"",
    "'''x'''",
    "\"s\"",
    "'s'",
    "\\",
    "\\\"",
    "//",
    "// c\n",
    "/",
    "#",
    "é",
    "\u{2028}",
    "\u{a0}",
    "\u{feff}",
    "\u{b}",
    "\0",
    "a: 1\n",
    "1,",
];

const BLANKS: [&str; 8] = ["", "", "", " ", "\n", "\t", "\r", "\u{c}"];

/// Tokens and parts of tokens.
pub fn soup(rng: &mut Rng) -> Vec<u8> {
    let mut text = String::new();
    // Few foreign characters, or most soups end at the first.
    let fragments = if rng.chance(50) {
        &FRAGMENTS[..16]
    } else {
        &FRAGMENTS[..]
    };
    for _ in 0..rng.between(1, 14) {
        match rng.below(8) {
            0 => text += rng.pick(&tree::IDENTIFIERS),
            1 => text += rng.pick(&tree::NUMBERS),
            2 => text += &tree::quoted(rng),
            3 if rng.chance(40) => {
                text += rng.pick(&tree::COMMENTS);
                text += rng.pick(&["\n", "\n", "\n", ""]);
            }
            _ => text += rng.pick(fragments),
        }
        text += rng.pick(&BLANKS);
    }
    text.into_bytes()
}

const INSERTS: [&[u8]; 28] = [
    b"[",
    b"]",
    b"{",
    b"}",
    b"(",
    b")",
    b":",
    b",",
    b"\"",
    b"'",
    b"\\",
    b"/",
    b"//",
    b"//x\n",
    b"\n",
    b"\r",
    b" ",
    b"a",
    b"1",
    b"#",
    b"\"\"\"",
    b"'''",
    b"\xC3\xA9",
    b"\xFF",
    b"\xC3",
    b"\xED\xA0\x80",
    b"\xF4\x90\x80\x80",
    b"\0",
];

/// A tree with some bytes deleted, inserted, swapped, cut off or made no UTF-8.
pub fn damaged(rng: &mut Rng) -> Vec<u8> {
    let mut text = tree::text(rng).into_bytes();
    for _ in 0..rng.between(1, 3) {
        damage(&mut text, rng);
    }
    text
}

pub fn damage(text: &mut Vec<u8>, rng: &mut Rng) {
    if text.is_empty() {
        text.extend(rng.pick(&INSERTS));
        return;
    }
    let place = rng.below(text.len());
    match rng.below(12) {
        0..3 => {
            text.remove(place);
        }
        3..7 => {
            let insert = rng.pick(&INSERTS);
            text.splice(place..place, insert.iter().copied());
        }
        7 | 8 => {
            let other = rng.below(text.len());
            text.swap(place, other);
        }
        9 => text.truncate(place),
        10 => {
            let end = rng.between(place, text.len().min(place + 8));
            text.drain(place..end);
        }
        _ => text[place] = *rng.pick_from(b"\x80\xBF\xC0\xC1\xE0\xF5\xFF"),
    }
}

//! Lengths around the longest that is read.

use super::rng::Rng;
use super::{text_case, tree, wild};
use crate::protocol::Case;
use crate::refusal::MAX_TEXT;

pub fn case(rng: &mut Rng) -> Case {
    let length = rng.between(MAX_TEXT - 2, MAX_TEXT + 2);
    match rng.below(16) {
        0 => Case::Unquote(quoted(length, rng)),
        1 => Case::Identifier(vec![b'a'; length]),
        2 => {
            let text = text(length, rng);
            let mut other = text.clone();
            if rng.chance(50) {
                wild::damage(&mut other, rng);
            }
            Case::Compare(text, other)
        }
        _ => text_case(text(length, rng), rng),
    }
}

/// A text of exactly so many bytes.
pub fn text(length: usize, rng: &mut Rng) -> Vec<u8> {
    let (front, unit, back) = match rng.below(19) {
        0 => ("1 //", "c", ""),
        1 => ("", "1 ", ""),
        2 => ("[", "1,", "]"),
        3 => ("", " ", "a"),
        4 => ("", "a:1\n", ""),
        5 => ("\"", "\\\"", ""),
        6 => ("", "[", ""),
        7 => ("", "[]", ""),
        8 => ("\"", "é", "\""),
        9 => ("'", "中", "'"),
        10 => ("//", "😀", ""),
        11 => ("", "\"\"\"a", ""),
        12 => ("", "'", ""),
        13 => ("", "\"", ""),
        14 => ("\"A\"(", "'b' ", ")"),
        15 => ("", "// c\n", "1"),
        16 => ("{", "a:[1] ", "}"),
        17 => return trees(length, rng),
        _ => return quoted(length, rng),
    };
    let mut text = filled(front, unit, back, length);
    if rng.chance(10)
        && let Some(last) = text.last_mut()
    {
        *last = 0xC3;
    }
    text
}

/// The unit again and again between front and back, blanks where no unit fits.
fn filled(front: &str, unit: &str, back: &str, length: usize) -> Vec<u8> {
    let inside = length - front.len() - back.len();
    let mut text = front.to_owned();
    text += &unit.repeat(inside / unit.len());
    text += &" ".repeat(inside % unit.len());
    text += back;
    text.into_bytes()
}

fn quoted(length: usize, rng: &mut Rng) -> Vec<u8> {
    let (mark, unit) = *rng.pick_from(&[
        ("\"", "\\n"),
        ("\"", "a"),
        ("'", "é"),
        ("\"\"\"", "\\u{1F600}"),
        ("\"\"\"", "\\\n  "),
        ("'''", "\r\n"),
        ("'''", "中"),
    ]);
    filled(mark, unit, mark, length)
}

/// A list of many trees.
fn trees(length: usize, rng: &mut Rng) -> Vec<u8> {
    let mut text = "[\n".to_owned();
    loop {
        let tree = tree::text(rng);
        if text.len() + tree.len() + 6 > length {
            break;
        }
        text += "[";
        text += &tree;
        text += "\n]\n";
    }
    while text.len() + 1 < length {
        text.push(' ');
    }
    text.push(']');
    text.into_bytes()
}

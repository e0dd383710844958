//! Texts and sizes for the cases of any model.

use crate::generate::{Rng, deep, long, short, tree, wild};
use crate::refusal::MAX_TEXT;

/// P1 to P12 of document 01, and more of each kind of record.
const SHEET: [&[u8]; 30] = [
    b"",
    b"]",
    b"a: ]",
    b"a:",
    b"[1",
    b"[1}",
    b"1 2",
    b"\"A\"()",
    b"42\n// c",
    b"\"\\u{}\"",
    b"'''",
    b"#",
    b"a: }",
    b"a: )",
    b"(",
    b",",
    b"a\xC3",
    b"\xFF",
    b"a",
    b"1",
    b"\"s\"",
    b"[]",
    b"{}",
    b"\"A\"",
    b"{a: 1}",
    b"// c",
    b"// c\na: 1 // d\n// e",
    b"round:3 // live\nbyes:[\"Half\"(7),\"Half\"(9)]\n",
    b"[1, 2,]",
    b"\"A\"(1 [2] {b: 3})",
];

/// The table of P7, `1 2`.
#[cfg(test)]
pub const P7: [u32; 15] = [4, 0, 3, 3, 3, 2, 0, 1, 1, 1, 2, 2, 3, 3, 1];

/// Any text, mostly a tree. Long ones are few, since they take long; overlong ones do not.
pub fn text(rng: &mut Rng) -> Vec<u8> {
    const ALL: usize = 2000;
    match rng.below(ALL) {
        0 => {
            let length = rng.between(MAX_TEXT - 2, MAX_TEXT);
            long::text(length, rng)
        }
        1..30 => vec![b' '; MAX_TEXT + rng.between(1, 2)],
        30..300 => sheet(rng),
        300..500 => short::text(rng),
        500..700 => wild::soup(rng),
        700..900 => wild::damaged(rng),
        900..1000 => deep::text(rng),
        _ => tree::text(rng).into_bytes(),
    }
}

/// A short text, refused by any of 2, 3 and 5 to 13 or not.
pub fn sheet(rng: &mut Rng) -> Vec<u8> {
    rng.pick(&SHEET).to_vec()
}

/// Values that stand alone, with others in them and without.
const VALUES: [&str; 12] = [
    "1",
    "key",
    "'s'",
    "\"é\"",
    "'''\n'''",
    "[]",
    "{ }",
    "[1 2]",
    "[[1] // c\n]",
    "{a: 1}",
    "\"A\"()",
    "\"A\" (1 [2])",
];

/// One value with comments around it. Blanks between them, a comma and comments that are lost belong
/// to no record.
pub fn sole(rng: &mut Rng) -> Vec<u8> {
    let mut text = blank(rng);
    for _ in 0..rng.below(3) {
        text += &comment(rng);
    }
    text += rng.pick(&VALUES);
    if rng.chance(25) {
        // A suffix before the comma does not count.
        if rng.chance(50) {
            text += &(within_line(rng) + "// lost\n");
        }
        text += &(blank(rng) + ",");
    }
    if rng.chance(60) {
        text += &(within_line(rng) + &comment(rng));
    }
    while rng.chance(30) {
        text += &comment(rng);
    }
    text.into_bytes()
}

/// A comment with its line feed, and what is skipped behind it.
fn comment(rng: &mut Rng) -> String {
    format!("{}\n{}", rng.pick(&tree::COMMENTS), blank(rng))
}

/// Anything that is skipped, of any few bytes.
pub fn blank(rng: &mut Rng) -> String {
    let width = rng.below(WIDEST);
    rng.join(&[" ", "\t", "\r", "\u{c}", "\n"], width)
}

/// Anything that is skipped within a line.
fn within_line(rng: &mut Rng) -> String {
    let width = rng.below(WIDEST);
    rng.join(&[" ", "\t", "\r", "\u{c}"], width)
}

const WIDEST: usize = 8;

/// A size of lent memory for an answer that needs so much: enough, just enough or too little.
pub fn room(needed: usize, rng: &mut Rng) -> usize {
    const SPARE: usize = 7;
    match rng.below(8) {
        0 => 0,
        1 | 2 => needed.saturating_sub(1),
        3..6 => needed,
        _ => needed + rng.between(1, SPARE),
    }
}

#[cfg(test)]
mod tests {
    use super::*;
    use crate::models::{Handed, Record, Table};
    use std::collections::BTreeSet;

    #[test]
    fn sole_values_are_read_and_stand_apart() {
        let mut widths: [BTreeSet<usize>; 3] = Default::default();
        let mut rng = Rng::new(1);
        for _ in 0..2000 {
            let handed = Handed::new(sole(&mut rng), Table::Finished);
            let records = handed.finished().expect("is read");
            let outer = Record::outermost(&records);
            widths[0].insert(outer[0].start);
            let gaps = outer.windows(2).map(|pair| pair[1].start - pair[0].end);
            widths[1].extend(gaps);
            let end = outer.last().map_or(0, |last| last.end);
            widths[2].insert(handed.text.len() - end);
        }
        for widths in widths {
            assert!(
                (0..WIDEST).all(|width| widths.contains(&width)),
                "{widths:?}"
            );
        }
    }
}

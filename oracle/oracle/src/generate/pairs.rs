//! Pairs of texts to compare.

use super::rng::Rng;
use super::tree::{self, Bracket, Document, Inside, Node, Value};
use super::wild;
use crate::protocol::Case;

type Pair = (Vec<u8>, Vec<u8>);

pub fn case(rng: &mut Rng) -> Case {
    let (a, b) = texts(rng);
    Case::Compare(a, b)
}

pub fn texts(rng: &mut Rng) -> Pair {
    match rng.below(8) {
        0..3 => respaced(rng),
        3 | 4 => one_byte_changed(rng),
        5 | 6 => sizes_moved(rng),
        _ => damaged(rng),
    }
}

fn respaced(rng: &mut Rng) -> Pair {
    let document = tree::document(rng);
    let a = tree::render(&document, rng);
    let b = tree::render(&document, rng);
    (a.into_bytes(), b.into_bytes())
}

fn one_byte_changed(rng: &mut Rng) -> Pair {
    let a = tree::text(rng).into_bytes();
    let mut b = a.clone();
    if !b.is_empty() {
        let place = rng.below(b.len());
        b[place] = *rng.pick_from(b"a1 \n[]{}\"'/,x");
    }
    (a, b)
}

/// The same few atoms in the same order, put into brackets in two ways.
fn sizes_moved(rng: &mut Rng) -> Pair {
    let atoms: Vec<&str> = (0..rng.between(1, 5))
        .map(|_| rng.pick(&["1", "a", "\"s\""]))
        .collect();
    let mut side = || {
        let document = Document {
            is_map: false,
            inside: grouped(&atoms, 3, rng),
        };
        tree::render(&document, rng).into_bytes()
    };
    let a = side();
    let b = side();
    (a, b)
}

fn grouped(atoms: &[&str], depth: usize, rng: &mut Rng) -> Inside {
    let mut values = Vec::new();
    let mut at = 0;
    while at < atoms.len() {
        if depth > 0 && rng.chance(40) {
            let end = rng.between(at, atoms.len());
            values.push(group(&atoms[at..end], depth - 1, rng));
            at = end;
        } else {
            values.push(Node::atom(atoms[at]));
            at += 1;
        }
    }
    Inside {
        values,
        closing: Vec::new(),
    }
}

fn group(atoms: &[&str], depth: usize, rng: &mut Rng) -> Node {
    let inside = grouped(atoms, depth, rng);
    let bracket = match rng.below(4) {
        0 => Bracket::Variant("\"A\"".to_owned()),
        1 if inside.values.len().is_multiple_of(2) => Bracket::Map,
        _ => Bracket::List,
    };
    Node::bare(Value::Container(bracket, inside))
}

/// Either may be refused, or both.
fn damaged(rng: &mut Rng) -> Pair {
    let document = tree::document(rng);
    let mut a = tree::render(&document, rng).into_bytes();
    let mut b = tree::render(&document, rng).into_bytes();
    let which = rng.below(3);
    if which != 0 {
        wild::damage(&mut a, rng);
    }
    if which != 1 {
        wild::damage(&mut b, rng);
    }
    (a, b)
}

#[cfg(test)]
mod tests {
    use super::*;
    use crate::protocol::Answer;

    #[test]
    fn respaced_texts_have_one_tree() {
        let mut rng = Rng::new(1);
        for _ in 0..5000 {
            let (a, b) = respaced(&mut rng);
            let case = Case::Compare(a, b);
            assert_eq!(case.answer(), Answer::Truth(true), "{case:?}");
        }
    }
}

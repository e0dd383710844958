//! The smallest form of a case that still differs.

use oracle::models::{Part, Parts};
use std::ops::Range;

/// Simpler tables and numbers, then shorter texts, while the case still differs.
pub fn shrink<C: Parts>(mut case: C, mut differs: impl FnMut(&C) -> bool) -> C {
    while makes_smaller(&mut case, &mut differs) {}
    case
}

fn makes_smaller<C: Parts>(case: &mut C, differs: &mut impl FnMut(&C) -> bool) -> bool {
    let parts = case.parts().len();
    let mut smaller = false;
    for part in 0..parts {
        smaller |= simplify(case, part, differs);
    }
    // Of two texts, what stands at the same place of both goes first.
    for second in 0..parts {
        for first in 0..second {
            smaller |= shorten(case, &[first, second], differs);
        }
    }
    for part in 0..parts {
        smaller |= shorten(case, &[part], differs);
    }
    smaller
}

fn simplify<C: Parts>(case: &mut C, part: usize, differs: &mut impl FnMut(&C) -> bool) -> bool {
    let mut changed = false;
    let mut choice = 0;
    while choice < case.parts()[part].choices() {
        let mut simpler = case.clone();
        simpler.parts()[part].choose(choice);
        if differs(&simpler) {
            *case = simpler;
            changed = true;
            choice = 0;
        } else {
            choice += 1;
        }
    }
    changed
}

/// Of texts up to this length every run is tried.
const SHORT: usize = 64;

/// Of longer ones only runs from this part of the text on, or one that cannot become shorter would take
/// hours.
const PIECES: usize = 256;

/// Deletes runs of bytes at the same place of all these parts, long ones first.
fn shorten<C: Parts>(case: &mut C, parts: &[usize], differs: &mut impl FnMut(&C) -> bool) -> bool {
    let mut changed = false;
    let mut run = shortest(case, parts);
    while run > 0 && run * PIECES >= shortest(case, parts) {
        let short = shortest(case, parts) <= SHORT;
        let mut at = 0;
        while at + run <= shortest(case, parts) {
            let shorter = without(case, parts, at..at + run);
            if differs(&shorter) {
                *case = shorter;
                changed = true;
            } else {
                at += if short { 1 } else { run };
            }
        }
        run = if short { run - 1 } else { run / 2 };
    }
    changed
}

/// The length of the shortest of these parts; 0 if one is no text.
fn shortest<C: Parts>(case: &mut C, parts: &[usize]) -> usize {
    let all = case.parts();
    let lengths = parts.iter().map(|&part| match &all[part] {
        Part::Bytes(text) => text.len(),
        _ => 0,
    });
    lengths.min().unwrap_or_default()
}

fn without<C: Parts>(case: &C, parts: &[usize], run: Range<usize>) -> C {
    let mut case = case.clone();
    for (at, part) in case.parts().into_iter().enumerate() {
        match part {
            Part::Bytes(text) if parts.contains(&at) => {
                text.drain(run.clone());
            }
            // What stood behind the run still does, what stood in it stands where it was.
            Part::Place(place) if *place > run.start => {
                *place -= run.len().min(*place - run.start);
            }
            _ => {}
        }
    }
    case
}

#[cfg(test)]
mod tests {
    use super::*;
    use oracle::Case;
    use oracle::models::compare::Pair;
    use oracle::models::pick::Click;
    use oracle::models::{Handed, Table, Text};

    fn shrunk(text: &[u8], differs: impl Fn(&[u8]) -> bool) -> Vec<u8> {
        let small = shrink(Case::Read(text.to_vec()), |case| match case {
            Case::Read(text) => differs(text),
            _ => false,
        });
        match small {
            Case::Read(text) => text,
            other => panic!("{other:?}"),
        }
    }

    #[test]
    fn texts_become_shorter() {
        let has_ab = |text: &[u8]| text.windows(2).any(|two| two == b"ab");
        assert_eq!(shrunk(b"[1 ab 2]", has_ab), b"ab");
        let long = [&[b' '; 5000][..], b"ab", &[b'x'; 5000]].concat();
        assert_eq!(shrunk(&long, has_ab), b"ab");
    }

    #[test]
    fn runs_may_stand_anywhere() {
        let is_full_variant = |text: &[u8]| {
            let records = oracle::read(text).unwrap_or_default();
            text.contains(&b'(') && records.len() > eon::RECORD_WORDS
        };
        assert_eq!(shrunk(b"\"\"(''\"\")", is_full_variant), b"\"\"(\"\")");
    }

    #[test]
    fn a_long_text_that_stays_long_takes_few_tries() {
        const LENGTH: usize = 60_000;
        let mut tries = 0;
        let small = shrink(Case::Read(vec![b' '; LENGTH + 1]), |case| {
            tries += 1;
            matches!(case, Case::Read(text) if text.len() > LENGTH)
        });
        assert_eq!(small, Case::Read(vec![b' '; LENGTH + 1]));
        assert!(tries < 4 * PIECES, "{tries}");
    }

    #[test]
    fn two_texts_become_shorter_together() {
        let case = Case::Compare(b"[1 ab 2]".to_vec(), b"[1 cd 2]".to_vec());
        let small = shrink(case, |case| match case {
            Case::Compare(a, b) => a.len() == b.len() && a.contains(&b'a'),
            _ => false,
        });
        assert_eq!(small, Case::Compare(b"a".to_vec(), b"c".to_vec()));
    }

    #[test]
    fn places_move_with_the_text() {
        let click = Click {
            handed: Handed::new("[12, 'ab', x, 'cd']", Table::Finished),
            offset: 11,
        };
        let small = shrink(click, |click| {
            click.handed.text.get(click.offset) == Some(&b'x')
        });
        assert_eq!(small.handed, Handed::new("x", Table::Finished));
        assert_eq!(small.offset, 0);
        let click = Click {
            handed: Handed::new("[12, 'ab', x, 'cd']", Table::Finished),
            offset: usize::MAX,
        };
        let small = shrink(click, |click| click.offset > click.handed.text.len());
        assert_eq!(small.handed, Handed::new("", Table::Finished));
        assert_eq!(small.offset, 1);
    }

    #[test]
    fn tables_become_simpler() {
        let pair = Pair {
            first: Handed::new("1 2", Table::Damaged { at: 100, bit: 9 }),
            second: Handed::new("[3]", Table::Of(Text(b"[4]".to_vec()))),
        };
        let is_of_four = |table: &Table| matches!(table, Table::Of(text) if text.contains(&b'4'));
        let small = shrink(pair, |pair| {
            is_of_four(&pair.second.table) && pair.first.finished().is_err()
        });
        assert_eq!(
            small.first,
            Handed::new("", Table::Damaged { at: 0, bit: 0 })
        );
        assert_eq!(
            small.second,
            Handed::new("", Table::Of(Text(b"4".to_vec())))
        );
    }
}

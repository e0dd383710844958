//! The generator: the same each time, and its cases reach what they are made for.

use oracle::generate::{Kind, generate};
use oracle::{Answer, Case};
use std::collections::BTreeSet;

#[test]
fn the_same_for_the_same_seed() {
    for kind in Kind::ALL {
        let count = if kind == Kind::Long { 20 } else { 2000 };
        let first: Vec<Case> = generate(kind, count, 7).collect();
        let second: Vec<Case> = generate(kind, count, 7).collect();
        assert_eq!(first.len(), count, "{kind:?}");
        assert!(first == second, "{kind:?}");
    }
    assert!(generate(Kind::Soup, 50, 1).ne(generate(Kind::Soup, 50, 2)));
}

#[test]
fn short_is_exhaustive() {
    let cases: Vec<Case> = generate(Kind::Short, usize::MAX, 0).collect();
    let texts: BTreeSet<&Vec<u8>> = cases
        .iter()
        .filter_map(|case| match case {
            Case::Read(text) => Some(text),
            _ => None,
        })
        .collect();
    // So many are of n bytes: 18 times those of n - 1, and once those of n - 2.
    let by_length = [1, 18, 325, 5868, 105_949];
    assert_eq!(texts.len(), by_length.iter().sum::<usize>());
    assert_eq!(cases.len(), 2 * texts.len());
    assert!(texts.iter().all(|text| text.len() <= 4));
}

fn share_accepted(kind: Kind) -> usize {
    let count = 4000;
    let accepted = generate(kind, count, 11)
        .filter(|case| !matches!(case.answer(), Answer::Refused(_)))
        .count();
    100 * accepted / count
}

#[test]
fn trees_are_well_formed() {
    assert_eq!(share_accepted(Kind::Tree), 100);
}

#[test]
fn other_kinds_are_mixed() {
    for kind in [
        Kind::Soup,
        Kind::Deep,
        Kind::Damaged,
        Kind::Unquote,
        Kind::Settings,
        Kind::Compare,
    ] {
        let share = share_accepted(kind);
        assert!((10..=90).contains(&share), "{kind:?}: {share} % accepted");
    }
}

#[test]
fn every_number_and_every_record_kind_is_reached() {
    let mut numbers = BTreeSet::new();
    let mut kinds = BTreeSet::new();
    let mut expectations = BTreeSet::new();
    for case in generate(Kind::All, 100_000, 3) {
        match (&case, case.answer()) {
            (_, Answer::Refused(refusal)) => {
                numbers.insert(refusal.number);
                expectations.insert((refusal.expected, refusal.found));
            }
            (Case::Read(_), Answer::Words(words)) => {
                kinds.extend(words.chunks(5).map(|record| record[0]));
            }
            _ => {}
        }
    }
    let refusals: BTreeSet<u32> = (1..=13).chain(16..=26).collect();
    assert_eq!(numbers, refusals);
    assert_eq!(kinds, (1..=9).collect());
    for expected in [3, 5, 7, 8] {
        assert!(expectations.contains(&(expected, 0)), "12 for {expected}");
    }
    for found in (1..=15).filter(|&found| found != 8) {
        assert!(expectations.contains(&(8, found)), "11 with {found}");
    }
}

#[test]
fn deep_meets_the_limit_from_both_sides() {
    let mut numbers = BTreeSet::new();
    for case in generate(Kind::Deep, 2000, 5) {
        match case.answer() {
            Answer::Refused(refusal) => numbers.insert(refusal.number),
            _ => numbers.insert(0),
        };
    }
    assert!(numbers.contains(&0) && numbers.contains(&4), "{numbers:?}");
}

#[test]
fn long_meets_every_length() {
    let mut lengths = BTreeSet::new();
    for case in generate(Kind::Long, 200, 5) {
        if let Case::Read(text) | Case::Format(text, _) | Case::Tokens(text) = case {
            lengths.insert(text.len());
        }
    }
    assert_eq!(lengths, (65_533..=65_537).collect());
}

#[test]
fn respaced_pairs_are_mostly_equal() {
    let mut answers = [0; 2];
    for case in generate(Kind::Compare, 4000, 5) {
        if let Answer::Truth(equal) = case.answer() {
            answers[usize::from(equal)] += 1;
        }
    }
    assert!(answers.iter().all(|&count| count > 800), "{answers:?}");
}

#[test]
fn lines_are_read_back() {
    for case in generate(Kind::All, 5000, 9) {
        let mut line = Vec::new();
        case.write(&mut line);
        assert_eq!(Case::parse(&line), Ok(case));
    }
}

/// Comparison once more, by descent into the original's trees.
mod by_trees {
    use eon_syntax::{TokenTree, TokenValue};

    pub fn tree(text: &[u8]) -> Option<TokenTree<'_>> {
        TokenTree::parse_str(std::str::from_utf8(text).ok()?).ok()
    }

    pub fn same_tree(a: &TokenTree<'_>, b: &TokenTree<'_>) -> bool {
        a.prefix_comments == b.prefix_comments
            && a.suffix_comment == b.suffix_comment
            && same_value(&a.value, &b.value)
    }

    fn same_value(a: &TokenValue<'_>, b: &TokenValue<'_>) -> bool {
        match (a, b) {
            (TokenValue::Identifier(a), TokenValue::Identifier(b))
            | (TokenValue::Number(a), TokenValue::Number(b))
            | (TokenValue::QuotedString(a), TokenValue::QuotedString(b)) => a == b,
            (TokenValue::List(a), TokenValue::List(b)) => {
                a.closing_comments == b.closing_comments && same_trees(&a.values, &b.values)
            }
            (TokenValue::Map(a), TokenValue::Map(b)) => {
                a.closing_comments == b.closing_comments
                    && a.key_values.len() == b.key_values.len()
                    && a.key_values
                        .iter()
                        .zip(&b.key_values)
                        .all(|(a, b)| same_tree(&a.key, &b.key) && same_tree(&a.value, &b.value))
            }
            (TokenValue::Variant(a), TokenValue::Variant(b)) => {
                a.quoted_name == b.quoted_name
                    && a.closing_comments == b.closing_comments
                    && same_trees(&a.values, &b.values)
            }
            _ => false,
        }
    }

    fn same_trees(a: &[TokenTree<'_>], b: &[TokenTree<'_>]) -> bool {
        a.len() == b.len() && a.iter().zip(b).all(|(a, b)| same_tree(a, b))
    }
}

#[test]
fn comparison_by_records_is_comparison_by_trees() {
    let mut compared = 0;
    for case in generate(Kind::Compare, 5000, 13) {
        if let (Case::Compare(a, b), Answer::Truth(equal)) = (&case, case.answer())
            && let (Some(a), Some(b)) = (by_trees::tree(a), by_trees::tree(b))
        {
            assert_eq!(by_trees::same_tree(&a, &b), equal, "{case:?}");
            compared += 1;
        }
    }
    assert!(compared > 2000, "{compared}");
}

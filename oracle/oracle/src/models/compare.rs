//! Comparison of two trees, by document 01: "as many records, and in each pair of records equal
//! kinds, sizes and text bytes (name bytes for variants; none for lists and maps), spans aside".

use super::{Handed, Model, Part, Parts, Record, Table, Text, texts};
use crate::generate::{Rng, pairs};
use crate::refusal::Refusal;

pub struct Compare;

#[derive(Clone, Debug)]
pub struct Pair {
    pub first: Handed,
    pub second: Handed,
}

impl Parts for Pair {
    fn parts(&mut self) -> Vec<Part<'_>> {
        let (first, second) = (self.first.parts(), self.second.parts());
        first.into_iter().chain(second).collect()
    }
}

impl Model for Compare {
    const NAME: &'static str = "compare";
    type Case = Pair;
    type Answer = bool;

    fn case(rng: &mut Rng) -> Pair {
        let (first, second) = two_texts(rng);
        let (mut table1, mut table2) = (Table::random(rng), Table::random(rng));
        // Of one tree written twice the tables differ in spans alone.
        match rng.below(20) {
            0 => table1 = Table::Of(Text(second.clone())),
            1 => table2 = Table::Of(Text(first.clone())),
            _ => {}
        }
        Pair {
            first: Handed::new(first, table1),
            second: Handed::new(second, table2),
        }
    }

    /// Of two texts, the first's refusals come first, 15 among them.
    fn expected(case: &Pair) -> Result<bool, Refusal> {
        let first = case.first.finished()?;
        let second = case.second.finished()?;
        Ok(first.len() == second.len() && first.iter().zip(&second).all(alike))
    }
}

fn alike((a, b): (&Record<'_>, &Record<'_>)) -> bool {
    a.kind == b.kind && a.size == b.size && a.text == b.text
}

/// Texts near one another: any two differ in a kind, a size, a text or a number of records, or in
/// spans alone.
const NEAR: [&str; 28] = [
    "",
    " ",
    "{}",
    "[]",
    "[ ]",
    "1 2",
    "[1 2]",
    "[1, 3]",
    "{1: 2}",
    "1: 2",
    "[[1] 2]",
    "[[1 2]]",
    "[1 [2]]",
    "[[1] [2]]",
    "[[1 [2]]]",
    "\"A\"(1 2)",
    "\"A\" (1, 2)",
    "'A'(1 2)",
    "\"B\"(1 2)",
    "\"A\"",
    "\"A\"()",
    "[1 //c\n2]",
    "[1\n//c\n2]",
    "[1 2 //c\n]",
    "[1 2\n//c\n]",
    "[1 2\n//d\n]",
    "[1 2]//c",
    "//c\n1 2",
];

fn two_texts(rng: &mut Rng) -> (Vec<u8>, Vec<u8>) {
    match rng.below(10) {
        0..5 => pairs::texts(rng),
        5 | 6 => {
            let (first, second) = (rng.pick(&NEAR), rng.pick(&NEAR));
            (first.into(), second.into())
        }
        7 => {
            let text = texts::text(rng);
            (text.clone(), text)
        }
        _ => (texts::text(rng), texts::text(rng)),
    }
}

#[cfg(test)]
mod tests {
    use super::*;
    use crate::{calls, models};
    use std::collections::BTreeMap;

    fn answer(first: Handed, second: Handed) -> Result<bool, Refusal> {
        Compare::expected(&Pair { first, second })
    }

    fn finished(text: impl Into<Vec<u8>>) -> Handed {
        Handed::new(text, Table::Finished)
    }

    fn stale(text: impl Into<Vec<u8>>) -> Handed {
        Handed::new(text, Table::Short(1))
    }

    fn by_finished(first: &str, second: &str) -> Result<bool, Refusal> {
        answer(finished(first), finished(second))
    }

    #[test]
    fn spans_do_not_count() {
        let p7 = texts::P7.to_vec();
        let list = vec![4, 0, 5, 5, 3, 2, 1, 2, 2, 1, 2, 3, 4, 4, 1];
        let equal = answer(
            Handed::new("1 2", Table::Words(p7)),
            Handed::new("[1 2]", Table::Words(list)),
        );
        assert_eq!(equal, Ok(true));
        for (first, second) in [
            ("", " {} "),
            ("[1 2]", "[1,2,]"),
            ("a:1", "{ a : 1 }"),
            ("\"A\"(1)", "\"A\" ( 1 )"),
            ("\"A\" ( )", "\"A\"()"),
            ("[1 // c\n]", "[ 1, // c\n ]"),
            ("[1\n// c\n]", "[1\n\n\t// c\n]"),
        ] {
            assert_eq!(by_finished(first, second), Ok(true), "{first} {second}");
        }
    }

    #[test]
    fn kinds_sizes_texts_and_their_number_count() {
        for (first, second) in [
            // kinds
            ("[]", "{}"),
            ("[a 1]", "{a: 1}"),
            ("\"a\"", "\"a\"()"),
            ("[1 // c\n]", "[1\n// c\n]"),
            ("[1 // c\n2]", "[1\n// c\n2]"),
            // sizes
            ("[[1] 2]", "[[1 2]]"),
            ("[[1 [2]]]", "[[1] [2]]"),
            ("[\"A\"(1) 2]", "[\"A\"(1 2)]"),
            // texts
            ("1 2", "1 3"),
            ("\"a\"", "'a'"),
            ("\"A\"(1)", "'A'(1)"),
            ("\"A\"(1)", "\"B\"(1)"),
            ("[1\n// c\n]", "[1\n// d\n]"),
            ("1 // c", "1 //c"),
            // their number
            ("1 2", "1 2 3"),
            ("[1]", "[1\n// c\n]"),
            ("1", "[1]"),
        ] {
            assert_eq!(by_finished(first, second), Ok(false), "{first} {second}");
            assert_eq!(by_finished(second, first), Ok(false), "{second} {first}");
        }
    }

    #[test]
    fn the_firsts_refusals_come_first() {
        let number = |first, second| answer(first, second).map_err(|refusal| refusal.number);
        for refused in [finished, stale].map(|handed| handed("]")) {
            assert_eq!(number(refused.clone(), finished("a: ]")), Err(13));
            assert_eq!(number(refused.clone(), stale("1 2")), Err(13));
            assert_eq!(number(finished("1 2"), refused.clone()), Err(13));
            assert_eq!(number(stale("1 2"), refused), Err(15));
        }
        assert_eq!(number(stale("1 2"), finished("1 2")), Err(15));
        assert_eq!(number(finished("1 2"), stale("1 2")), Err(15));
        // Trees that differ are no reason to leave the second table out.
        assert_eq!(number(finished("3"), stale("1 2")), Err(15));
        // The table of the same tree in another spacing.
        let other = Table::Of(Text(b"1  2".to_vec()));
        assert_eq!(number(finished("1 2"), Handed::new("1 2", other)), Err(15));
        assert_eq!(number(stale(" ".repeat(65_536)), stale("]")), Err(1));
    }

    #[test]
    fn refusals_have_their_place() {
        let cut_off = Refusal::placed(12, 1, 2).with_kinds(3, 0);
        assert_eq!(by_finished("[1", ""), Err(cut_off));
        for (first, second, refusal) in [
            (finished(""), finished("a: ]"), Refusal::placed(6, 3, 4)),
            (finished("a:"), finished("a: ]"), Refusal::placed(5, 2, 2)),
            (stale(""), finished("a: ]"), Refusal::unplaced(15)),
        ] {
            assert_eq!(answer(first, second), Err(refusal));
        }
    }

    /// Equal or not, or the refused text and the number.
    fn outcome(case: &Pair) -> (&'static str, u32) {
        match Compare::expected(case) {
            Ok(true) => ("equal", 0),
            Ok(false) => ("other", 0),
            Err(refusal) if case.first.finished().is_err() => ("first", refusal.number),
            Err(refusal) => ("second", refusal.number),
        }
    }

    #[test]
    fn every_outcome_is_reached() {
        const CASES: usize = 6000;
        let mut met: BTreeMap<_, usize> = BTreeMap::new();
        for number in 0..CASES {
            *met.entry(outcome(&models::case::<Compare>(1, number)))
                .or_default() += 1;
        }
        for often in [("equal", 0), ("other", 0), ("first", 15), ("second", 15)] {
            assert!(
                met.get(&often).is_some_and(|&count| count > CASES / 20),
                "{often:?}: {met:?}"
            );
        }
        for text in ["first", "second"] {
            for number in (1..=13).chain([15]) {
                assert!(
                    met.contains_key(&(text, number)),
                    "{text} {number}: {met:?}"
                );
            }
        }
    }

    /// The comparison by which the base was held to the original.
    #[test]
    fn finished_tables_are_compared_as_texts() {
        for number in 0..3000 {
            let Pair { first, second } = models::case::<Compare>(2, number);
            let bare = calls::compare(&first.text, &second.text);
            let answer = answer(finished(first.text.0), finished(second.text.0));
            assert_eq!(answer, bare, "{number}");
        }
    }

    #[test]
    fn cases_are_the_same_for_the_same_name_seed_and_number() {
        let shown = |seed, number| format!("{:?}", models::case::<Compare>(seed, number));
        for number in 0..50 {
            assert_eq!(shown(7, number), shown(7, number));
        }
        assert_ne!((shown(7, 0), shown(7, 1)), (shown(8, 0), shown(8, 1)));
        assert_ne!((shown(7, 0), shown(7, 1)), (shown(7, 1), shown(7, 2)));
    }
}

//! Many names in one walk, by document 02, L2: for each path of a list the number of some value that
//! it reaches in an event, and the steps. Records are numbered from 0, in table order.

mod cases;

use super::{Handed, Model, Part, Parts, Record};
use crate::generate::Rng;
use crate::records::{IDENTIFIER, LIST, MAP, STRING};
use crate::refusal::{NO_PATHS, Refusal, word};
use std::collections::BTreeSet;
use std::fmt;
use std::ops::RangeInclusive;

/// "One table of 128 answers"
pub const PATHS: usize = 128;

/// "each a list of 1 to 8 keys"
const KEYS: RangeInclusive<usize> = 1..=8;

/// The answer 'none'.
pub const NONE: u32 = u32::MAX;

/// The call.
pub struct Lookup;

#[derive(Clone, Debug, PartialEq, Eq)]
pub struct Search {
    pub event: Handed,
    pub paths: Handed,
}

#[derive(Clone, PartialEq, Eq)]
pub struct Found {
    pub steps: usize,
    pub answers: [u32; PATHS],
}

impl fmt::Debug for Found {
    /// The answers up to the last that is not 'none'.
    fn fmt(&self, f: &mut fmt::Formatter<'_>) -> fmt::Result {
        let last = self.answers.iter().rposition(|&answer| answer != NONE);
        let answers = &self.answers[..last.map_or(0, |last| last + 1)];
        f.debug_struct("Found")
            .field("steps", &self.steps)
            .field("answers", &answers)
            .finish()
    }
}

impl Parts for Search {
    fn parts(&mut self) -> Vec<Part<'_>> {
        let (event, paths) = (self.event.parts(), self.paths.parts());
        event.into_iter().chain(paths).collect()
    }
}

impl Search {
    /// The numbers of all values that each path reaches, in table order. "The event text's refusals up
    /// to 15 come first, then the path text's up to 15, then 28"
    pub fn reached(&self) -> Result<Vec<Vec<usize>>, Refusal> {
        let (event, paths) = (self.event.finished()?, self.paths.finished()?);
        let paths = path_list(&paths)?;
        Ok(paths.iter().map(|path| reached(&event, path)).collect())
    }
}

impl Model for Lookup {
    const NAME: &'static str = "lookup";
    type Case = Search;
    type Answer = Found;

    fn case(rng: &mut Rng) -> Search {
        cases::search(rng)
    }

    /// "the number of some value reached by it": here the last.
    fn expected(case: &Search) -> Result<Found, Refusal> {
        let (event, paths) = (case.event.finished()?, case.paths.finished()?);
        let paths = path_list(&paths)?;
        let mut answers = [NONE; PATHS];
        for (answer, path) in answers.iter_mut().zip(&paths) {
            if let Some(&value) = reached(&event, path).last() {
                *answer = word(value);
            }
        }
        let steps = steps(&event, &paths);
        Ok(Found { steps, answers })
    }

    /// Any of the values will do. "The answer holds 'none' exactly if no such value exists."
    fn allows(case: &Search, expected: &Found, found: &Found) -> bool {
        if found == expected {
            return true;
        }
        let reached = case.reached().unwrap_or_default();
        let allowed = |(path, &answer): (usize, &u32)| match reached.get(path) {
            Some(values) if !values.is_empty() => values.iter().any(|&value| answer == word(value)),
            _ => answer == NONE,
        };
        found.steps == expected.steps && found.answers.iter().enumerate().all(allowed)
    }
}

type Path<'t> = Vec<&'t [u8]>;

/// "a list of paths", "28 for a path list of another form or of more than 128 paths". Comments are
/// left out.
fn path_list<'t>(records: &[Record<'t>]) -> Result<Vec<Path<'t>>, Refusal> {
    let paths = listed(records, Record::root(records)).filter(|paths| paths.len() <= PATHS);
    let paths = paths.and_then(|paths| paths.iter().map(|&path| keys(records, path)).collect());
    paths.ok_or(Refusal::unplaced(NO_PATHS))
}

/// "a list of 1 to 8 keys, identifiers or strings"
fn keys<'t>(records: &[Record<'t>], path: usize) -> Option<Path<'t>> {
    let keys = listed(records, path).filter(|keys| KEYS.contains(&keys.len()))?;
    let key = |&key: &usize| is_key(&records[key]).then_some(records[key].text);
    keys.iter().map(key).collect()
}

/// The numbers of the values in a list; nothing else is one.
fn listed(records: &[Record<'_>], number: usize) -> Option<Vec<usize>> {
    (records[number].kind == LIST).then(|| Record::values(records, number))
}

fn is_key(record: &Record<'_>) -> bool {
    [IDENTIFIER, STRING].contains(&record.kind)
}

/// "A path goes through maps from the root." The values that a path or a front of one reaches.
fn reached(event: &[Record<'_>], path: &[&[u8]]) -> Vec<usize> {
    let Some((key, front)) = path.split_last() else {
        return vec![Record::root(event)];
    };
    let pairs = reached(event, front)
        .into_iter()
        .flat_map(|map| pairs(event, map));
    pairs
        .filter(|&[name, _]| matches(&event[name], key))
        .map(|[_, value]| value)
        .collect()
}

/// "compared byte by byte (event keys of other kinds match none)"
fn matches(name: &Record<'_>, key: &[u8]) -> bool {
    is_key(name) && name.text == key
}

/// The keys and values of a map; of any other value none.
fn pairs(event: &[Record<'_>], number: usize) -> Vec<[usize; 2]> {
    if event[number].kind != MAP {
        return vec![];
    }
    let values = Record::values(event, number);
    let (pairs, _) = values.as_chunks();
    pairs.to_vec()
}

/// "the root and, in each map that a proper front of some path reaches, every key and value, each
/// once"
fn steps(event: &[Record<'_>], paths: &[Path<'_>]) -> usize {
    let mut steps = BTreeSet::from([Record::root(event)]);
    for path in paths {
        for proper in 0..path.len() {
            for map in reached(event, &path[..proper]) {
                steps.extend(pairs(event, map).as_flattened());
            }
        }
    }
    steps.len()
}

#[cfg(test)]
mod tests {
    use super::*;
    use crate::models::{self, Table, Text};
    use crate::records::PREFIX;
    use std::collections::BTreeMap;

    fn finished(text: impl Into<Vec<u8>>) -> Handed {
        Handed::new(text, Table::Finished)
    }

    fn stale(text: impl Into<Vec<u8>>) -> Handed {
        Handed::new(text, Table::Short(1))
    }

    fn search(event: &str, paths: &str) -> Search {
        Search {
            event: finished(event),
            paths: finished(paths),
        }
    }

    /// The steps, and the values that each path reaches.
    fn finds(event: &str, paths: &str, steps: usize, reached: &[&[usize]]) {
        let case = search(event, paths);
        let all = case.reached().expect("is a path list");
        assert_eq!(all, reached, "{event:?} {paths:?}");
        let found = Lookup::expected(&case).expect("is a path list");
        assert_eq!(found.steps, steps, "{event:?} {paths:?}");
        for (path, &answer) in found.answers.iter().enumerate() {
            let last = reached.get(path).and_then(|values| values.last());
            assert_eq!(answer, last.map_or(NONE, |&value| word(value)));
        }
    }

    fn no_paths(paths: &str) {
        let refusal = Refusal {
            number: 28,
            start: 0,
            end: 0,
            expected: 0,
            found: 0,
        };
        for event in ["", "a: 1", "[]"] {
            let case = search(event, paths);
            assert_eq!(Lookup::expected(&case), Err(refusal), "{paths:?}");
            assert_eq!(case.reached(), Err(refusal), "{paths:?}");
        }
    }

    /// "A path goes through maps from the root."
    #[test]
    fn a_path_goes_through_maps() {
        let event = "a: 1 b: {c: 2 a: {b: 3}}";
        finds(event, "[[a]]", 5, &[&[2]]);
        finds(event, "[[b c]]", 9, &[&[6]]);
        finds(event, "[[b a b]]", 11, &[&[10]]);
        // From the root, and not from anywhere.
        finds(event, "[[c] [a b]]", 5, &[&[], &[]]);
        finds("{a: {b: 1}}", "[[a b]]", 5, &[&[4]]);
        // A path may end at a map.
        finds(event, "[[b]]", 5, &[&[4]]);
        finds(event, "[[b a]]", 9, &[&[8]]);
        // Lists, variants and others are no maps, nor is a key.
        finds("a: [{b: 1}]", "[[a b]]", 3, &[&[]]);
        finds("a: 'A'({b: 1})", "[[a b]]", 3, &[&[]]);
        finds("a: 1", "[[a a]]", 3, &[&[]]);
        finds("{a: 1}: 2", "[[a]]", 3, &[&[]]);
        for root in ["[{a: 1}]", "{a: 1} {a: 2}", "'A'({a: 1})", "a", "1", "'a'"] {
            finds(root, "[[a] [a a]]", 1, &[&[], &[]]);
        }
        finds("", "[[a] [a a]]", 1, &[&[], &[]]);
    }

    /// "identifiers or strings compared byte by byte"
    #[test]
    fn keys_are_compared_byte_by_byte() {
        let keys = ["a", "A", "ab", "\"a\"", "'a'", "\"\"\"a\"\"\"", "'''a'''"];
        let others = ["\"\\u{61}\"", "\"ab\"", "\"\"", "''", "true", "null", "_"];
        for own in keys.iter().chain(&others) {
            for key in keys.iter().chain(&others) {
                let reached: &[usize] = if own == key { &[2] } else { &[] };
                finds(&format!("{own}: 1"), &format!("[[{key}]]"), 3, &[reached]);
            }
        }
    }

    /// "event keys of other kinds match none"
    #[test]
    fn other_keys_match_none() {
        for key in [
            "1", "-1", "[a]", "[]", "{a: 1}", "{}", "\"a\"(1)", "\"a\"()",
        ] {
            let paths = "[[a] [\"a\"] [\"1\"] ['[a]'] [a a]]";
            finds(&format!("{key}: {{a: 2}}"), paths, 3, &[&[][..]; 5]);
        }
        // Those beside them do.
        finds("\"a\"(1): 2 \"a\": 3", "[[\"a\"]]", 5, &[&[5]]);
    }

    /// Of two equal keys both are followed.
    #[test]
    fn several_values_are_reached() {
        finds("a: 1 a: {b: 2}", "[[a]]", 5, &[&[2, 4]]);
        finds("a: 1 a: {b: 2}", "[[a b]]", 7, &[&[6]]);
        finds("a: {b: 2} a: 1", "[[a b]]", 7, &[&[4]]);
        finds("a: {b: 2} a: {b: 3}", "[[a b]]", 9, &[&[4, 8]]);
        finds("a: {b: 2 b: 3} a: {c: 4}", "[[a b]]", 11, &[&[4, 6]]);
        finds("a: {b: 1} a: {c: 2}", "[[a c] [a b]]", 9, &[&[8], &[4]]);
    }

    /// "the number of some value reached by it. The answer holds 'none' exactly if no such value
    /// exists."
    #[test]
    fn any_value_reached_is_allowed() {
        let case = search("a: 1 b: 2 a: 3", "[[a] [c] [b]]");
        let expected = Lookup::expected(&case).expect("is a path list");
        assert_eq!(expected.answers[..4], [6, NONE, 4, NONE]);
        let with = |path: usize, answer| {
            let mut found = expected.clone();
            found.answers[path] = answer;
            Lookup::allows(&case, &expected, &found)
        };
        for (path, allowed) in [
            (0, &[2, 6][..]),
            (1, &[NONE]),
            (2, &[4]),
            (3, &[NONE]),
            (127, &[NONE]),
        ] {
            for answer in (0..9).chain([NONE - 1, NONE]) {
                assert_eq!(
                    with(path, answer),
                    allowed.contains(&answer),
                    "{path} {answer}"
                );
            }
        }
        for steps in [0, 6, 8] {
            let found = Found {
                steps,
                ..expected.clone()
            };
            assert!(!Lookup::allows(&case, &expected, &found));
        }
    }

    /// "One table of 128 answers, all 'none' at the start"
    #[test]
    fn the_table_has_128_answers() {
        let answers = |count: usize| {
            let paths = format!("[{}]", "[a]".repeat(count));
            Lookup::expected(&search("a: 1", &paths)).map(|found| found.answers)
        };
        for count in [0, 1, 2, 127, 128] {
            let answers = answers(count).expect("is a path list");
            assert_eq!(answers[..count], vec![2; count]);
            assert_eq!(answers[count..], vec![NONE; 128 - count]);
        }
        for count in [129, 130, 1000] {
            assert_eq!(answers(count), Err(Refusal::unplaced(28)));
        }
    }

    /// "a list of paths, each a list of 1 to 8 keys, identifiers or strings"
    #[test]
    fn path_lists() {
        let event = "a: {a: {a: {a: {a: {a: {a: {a: {a: 1}}}}}}}}";
        finds(event, "[]", 1, &[]);
        finds(event, "[ ]", 1, &[]);
        finds(event, "[[a]]", 3, &[&[2]]);
        finds(event, "[[a], [b],]", 3, &[&[2], &[]]);
        finds(event, "[a] [a a]", 5, &[&[2], &[4]]);
        finds(event, "[[a a a a a a a a]]", 17, &[&[16]]);
        finds(event, "[[a a a a a a a b]]", 17, &[&[]]);
        finds("true: 1 null: 2", "[[true] [null]]", 5, &[&[2], &[4]]);
        no_paths("[[a a a a a a a a a]]");
        no_paths("[[a] [a a a a a a a a a]]");
        for other in [
            "",
            " ",
            "{}",
            "a: [b]",
            "{[a]: [b]}",
            "a",
            "'a'",
            "1",
            "[a]",
            "['a']",
            "[a b]",
            "a b",
            "[[]]",
            "[[] []]",
            "[[a] []]",
            "[a] []",
            "[[a] b]",
            "[b [a]]",
            "[[1]]",
            "[[a 1]]",
            "[[-1 a]]",
            "[[[a]]]",
            "[[a [b]]]",
            "[[a []]]",
            "[[{a: b}]]",
            "[[{}]]",
            "[{a: b}]",
            "[{}]",
            "['x'(a)]",
            "'x'([a])",
            "[[a 'x'(b)]]",
            "[['x'()]]",
            "'x'()",
            "1 2",
            "[1]",
        ] {
            no_paths(other);
        }
    }

    /// "comments in it are ignored"
    #[test]
    fn comments_in_the_path_text() {
        for paths in [
            "// c\n[[a] [b a]]",
            "[[a] [b a]] // c",
            "[[a] [b a]]\n// c\n",
            "[ // c\n// d\n[a] // e\n// f\n[b a]\n// g\n]",
            "[[ // c\na // d\n// e\n] [b, // f\n// g\na // h\n]]",
            "// c\n[a] // d\n// e\n[b // f\na] // g\n// h\n",
        ] {
            finds("a: 1 b: {a: 2}", paths, 7, &[&[2], &[6]]);
        }
        finds("a: 1", "[ // c\n// d\n]", 1, &[]);
        // They count neither as keys nor as paths.
        let eight = "[[// c\na a // d\na a a a a a // e\n// f\n]]";
        finds("a: 1", eight, 3, &[&[]]);
        let many = format!("[// c\n{} // d\n// e\n]", "[a]".repeat(128));
        finds("a: 1", &many, 3, &[&[2][..]; 128]);
        no_paths("// c");
        no_paths("[[// c\n]]");
        no_paths("[a] // c");
    }

    /// The number is the value's, and comments are no steps.
    #[test]
    fn comments_in_the_event() {
        finds("// p\na: 1", "[[a]]", 3, &[&[3]]);
        finds("a: // p\n1", "[[a]]", 3, &[&[3]]);
        finds("a // s\n: // p\n// q\n1 // s\n// c\n", "[[a]]", 3, &[&[5]]);
        finds("// p\n{a: 1}", "[[a]]", 3, &[&[3]]);
        finds(
            "// p\n{// q\na: {// c\n}} // s",
            "[[a] [a b]]",
            3,
            &[&[4], &[]],
        );
        finds("a: // p\n{b: // q\n1\n// c\n}", "[[a b]]", 5, &[&[6]]);
        // A comment is no key.
        finds("a: 1\n// b\nc: 2", "[[b] [c]]", 5, &[&[], &[5]]);
    }

    /// "the root and, in each map that a proper front of some path reaches, every key and value, each
    /// once"
    #[test]
    fn steps_are_counted_once() {
        let event = "a: {b: 1 c: {d: 2}} e: {f: 3} [g]: [4 5]";
        // No front of no path.
        finds(event, "[]", 1, &[]);
        // The empty one reaches the root: three keys and three values.
        finds(event, "[[x]]", 7, &[&[]]);
        finds(event, "[[a]]", 7, &[&[2]]);
        finds(event, "[[a] [a] [e] [x]]", 7, &[&[2], &[2], &[10], &[]]);
        finds(event, "[[a b]]", 11, &[&[4]]);
        finds(event, "[[a x]]", 11, &[&[]]);
        finds(event, "[[a b] [a c] [a b]]", 11, &[&[4], &[6], &[4]]);
        finds(event, "[[a c d]]", 13, &[&[8]]);
        finds(event, "[[a c d] [a] [a c]]", 13, &[&[8], &[2], &[6]]);
        finds(event, "[[a c d] [e f]]", 15, &[&[8], &[12]]);
        finds(event, "[[a x d] [e x y]]", 13, &[&[], &[]]);
        // Both of two equal keys.
        finds("a: {b: 1} a: {c: 2}", "[[a x]]", 9, &[&[]]);
    }

    /// "The event text's refusals up to 15 come first, then the path text's up to 15, then 28"
    #[test]
    fn refusals_come_in_their_order() {
        let lookup = |event: &Handed, paths: &Handed| {
            let (event, paths) = (event.clone(), paths.clone());
            Lookup::expected(&Search { event, paths })
        };
        let others = Table::Of(Text(b"[a]  [b]".to_vec()));
        let refused = [
            (
                stale(" ".repeat(65_536)),
                Refusal::placed(1, 65_535, 65_535),
            ),
            (stale(*b"[a]\xFF"), Refusal::placed(2, 3, 3)),
            (stale("a: ]"), Refusal::placed(6, 3, 4)),
            (stale("[1"), Refusal::placed(12, 1, 2).with_kinds(3, 0)),
            (finished("[a] [b]}"), Refusal::placed(13, 7, 8)),
            (stale("[a] [b]"), Refusal::unplaced(15)),
            (stale(""), Refusal::unplaced(15)),
            (Handed::new("[a] [b]", others), Refusal::unplaced(15)),
        ];
        let no_paths = Refusal::unplaced(28);
        let (good, other) = (finished("[a] [b]"), finished("a"));
        for (handed, refusal) in &refused {
            for paths in [&good, &other] {
                assert_eq!(lookup(handed, paths), Err(*refusal));
            }
            for (paths, _) in &refused {
                assert_eq!(lookup(handed, paths), Err(*refusal));
            }
            for event in [&good, &other] {
                assert_eq!(lookup(event, handed), Err(*refusal));
                assert_eq!(lookup(event, &other), Err(no_paths));
            }
        }
        let longer = Handed::new("[a] [b]", Table::Longer(vec![4, 0, 3, 3, 1]));
        assert!(lookup(&longer, &longer).is_ok());
    }

    #[test]
    fn found_is_shown_without_what_is_none_behind() {
        let shown = |paths| format!("{:?}", Lookup::expected(&search("a: 1", paths)));
        assert_eq!(shown("[]"), "Ok(Found { steps: 1, answers: [] })");
        assert_eq!(
            shown("[[b] [a] [b]]"),
            "Ok(Found { steps: 3, answers: [4294967295, 2] })"
        );
    }

    /// The same from below: from each record to the ones around it.
    struct Below<'r, 't> {
        records: &'r [Record<'t>],
        /// The record around each; none around the root and its comments.
        around: Vec<Option<usize>>,
        /// All but comments.
        values: Vec<usize>,
    }

    impl<'r, 't> Below<'r, 't> {
        fn new(records: &'r [Record<'t>]) -> Self {
            let holds = |number: usize| {
                let mut before = (0..number).rev();
                before.find(|&other| other + records[other].size > number)
            };
            let is_value = |&number: &usize| records[number].kind < PREFIX;
            Self {
                records,
                around: (0..records.len()).map(holds).collect(),
                values: (0..records.len()).filter(is_value).collect(),
            }
        }

        /// How many records are around it.
        fn depth(&self, number: usize) -> usize {
            self.around[number].map_or(0, |outer| 1 + self.depth(outer))
        }

        /// The keys that lead to a value, if it and all around it are values of maps.
        fn address(&self, number: usize) -> Option<Path<'t>> {
            let Some(outer) = self.around[number] else {
                return Some(vec![]);
            };
            let beside = |&&other: &&usize| self.around[other] == Some(outer);
            let before = self.values.iter().take_while(|&&other| other < number);
            let before: Vec<&usize> = before.filter(beside).collect();
            let key = self.records[**before.last()?];
            let is_value = self.records[outer].kind == MAP && before.len() % 2 == 1;
            let leads = is_value && matches!(key.kind, IDENTIFIER | STRING);
            let mut address = self.address(outer)?;
            address.push(key.text);
            leads.then_some(address)
        }

        /// Read off in table order: the list, lists in it, keys in these.
        fn path_list(&self) -> Option<Vec<Path<'t>>> {
            let mut paths: Vec<Path<'t>> = Vec::new();
            for &number in &self.values {
                let Record { kind, text, .. } = self.records[number];
                match (self.depth(number), kind) {
                    (0, LIST) => {}
                    (1, LIST) => paths.push(vec![]),
                    (2, IDENTIFIER | STRING) => paths.last_mut()?.push(text),
                    _ => return None,
                }
            }
            let sizes_fit = paths.iter().all(|path| !path.is_empty() && path.len() < 9);
            (sizes_fit && paths.len() < 129).then_some(paths)
        }
    }

    #[test]
    fn the_lookup_in_other_words() {
        const LONG: usize = 1000;
        const LONG_LIST: usize = 5000;
        let mut compared = 0;
        for number in 0..3000 {
            let case = models::case::<Lookup>(3, number);
            let (Ok(event), Ok(list)) = (case.event.finished(), case.paths.finished()) else {
                continue;
            };
            if case.event.text.len() > LONG || case.paths.text.len() > LONG_LIST {
                continue;
            }
            compared += 1;
            let Some(paths) = Below::new(&list).path_list() else {
                let no_paths = Err(Refusal::unplaced(28));
                assert_eq!(Lookup::expected(&case), no_paths, "{case:?}");
                continue;
            };
            let event = Below::new(&event);
            let values = &event.values;
            let address = |&number: &usize| Some((number, event.address(number)?));
            let addresses: BTreeMap<usize, Path<'_>> = values.iter().filter_map(address).collect();
            let at = |path: &Path<'_>| {
                let at = addresses.iter().filter(|(_, address)| *address == path);
                at.map(|(&number, _)| number).collect::<Vec<usize>>()
            };
            let reached: Vec<Vec<usize>> = paths.iter().map(at).collect();
            assert_eq!(case.reached().as_ref(), Ok(&reached), "{case:?}");
            let is_step = |&&number: &&usize| {
                let Some(outer) = event.around[number] else {
                    return true;
                };
                let is_entered = |address: &Path<'_>| {
                    let leads = |path: &Path<'_>| path.len() > address.len();
                    paths
                        .iter()
                        .any(|path| leads(path) && path.starts_with(address))
                };
                event.records[outer].kind == MAP && addresses.get(&outer).is_some_and(is_entered)
            };
            let found = Lookup::expected(&case).expect("is a path list");
            assert_eq!(
                found.steps,
                values.iter().filter(is_step).count(),
                "{case:?}"
            );
            // "They never exceed the event table's record count."
            assert!(found.steps <= event.records.len(), "{case:?}");
            let mut answers = found.answers.iter();
            for values in &reached {
                let answer = answers.next().filter(|&&answer| answer != NONE);
                assert_eq!(answer.is_none(), values.is_empty(), "{case:?}");
                assert!(answer.is_none_or(|&answer| values.contains(&(answer as usize))));
            }
            assert!(answers.all(|&answer| answer == NONE), "{case:?}");
        }
        assert!(compared > 1800, "{compared}");
    }
}

//! Events, and path texts that are made from the event's own keys.

use super::{KEYS, PATHS, Search, is_key};
use crate::calls;
use crate::generate::Rng;
use crate::generate::tree::{self, Bracket, Document, Inside, Node, Value};
use crate::models::{Handed, Record, Table, Text, texts};
use crate::records::{MAP, VARIANT, WORDS};

/// Keys that are near one another: in value, in their first bytes, in quotes.
const NAMES: [&str; 24] = [
    "a",
    "b",
    "ab",
    "key",
    "_",
    "Round_3",
    "true",
    "null",
    "\"a\"",
    "'a'",
    "\"\"\"a\"\"\"",
    "'''a'''",
    "\"b\"",
    "\"ab\"",
    "\"\"",
    "''",
    "\"1\"",
    "\"\\u{61}\"",
    "'''\na'''",
    "\"\"\"b\n\"\"\"",
    "\"é\"",
    "'\"a\"'",
    "\"// c\"",
    "'[a]'",
];

/// Keys of other kinds. The names of the variants are strings above.
const OTHERS: [&str; 14] = [
    "1",
    "-1",
    "+inf",
    "[]",
    "[a]",
    "[[a]]",
    "{}",
    "{a: 1}",
    "{a: {b: 1}}",
    "\"a\"()",
    "\"a\"(1)",
    "'a'({a: 1})",
    "\"b\"({b: 1})",
    "\"\"(1)",
];

/// Values that no path goes through, and empty ones.
const VALUES: [&str; 12] = [
    "1",
    "2",
    "x",
    "\"s\"",
    "'''\n'''",
    "{}",
    "{ }",
    "[]",
    "[1 2]",
    "\"A\"()",
    "[a 1 'a' {a: 2}]",
    "[{a: 1} {b: 2}]",
];

/// What may stand in a path's place and is none.
const NO_PATHS: [&str; 20] = [
    "a",
    "\"a\"",
    "1",
    "[]",
    "[ // c\n]",
    "{}",
    "{a: b}",
    "{[a]: [b]}",
    "'x'(a)",
    "\"a\"()",
    "[1]",
    "[a 1]",
    "[-1, a]",
    "[[a]]",
    "[a [b]]",
    "[a []]",
    "[{a: b}]",
    "[a {}]",
    "['x'(a)]",
    "[a \"b\"()]",
];

/// The most keys that a path is made of at first.
const LONGEST: usize = *KEYS.end() + 2;

pub fn search(rng: &mut Rng) -> Search {
    let event = event(rng);
    let paths = paths(&event, rng);
    let (table1, table2) = (table(&event, &paths, rng), table(&paths, &event, rng));
    Search {
        event: Handed::new(event, table1),
        paths: Handed::new(paths, table2),
    }
}

fn table(text: &[u8], other: &[u8], rng: &mut Rng) -> Table {
    match rng.below(20) {
        0 => Table::Of(Text(other.to_vec())),
        1 => twice(text),
        2..10 => Table::Finished,
        _ => Table::random(rng),
    }
}

/// Behind the finished table all but its first record again, which are none of the text's.
fn twice(text: &[u8]) -> Table {
    let words = calls::read(text).unwrap_or_default();
    Table::Longer(words.get(WORDS..).unwrap_or_default().to_vec())
}

fn event(rng: &mut Rng) -> Vec<u8> {
    match rng.below(20) {
        0 => texts::text(rng),
        1 => texts::sheet(rng),
        _ => {
            let document = Builder::new(rng).event();
            tree::render(&document, rng).into_bytes()
        }
    }
}

fn paths(event: &[u8], rng: &mut Rng) -> Vec<u8> {
    match rng.below(20) {
        0 => texts::text(rng),
        1 => texts::sheet(rng),
        kind => {
            let paths = Ways::of(event).paths(rng);
            let document = Builder::new(rng).path_list(&paths);
            let mut text = tree::render(&document, rng).into_bytes();
            if kind == 2 && !text.is_empty() {
                text.remove(rng.below(text.len()));
            }
            text
        }
    }
}

/// Makes trees with comments in every position.
struct Builder<'r> {
    rng: &'r mut Rng,
    comment_percent: usize,
    /// Most pairs of a map.
    most: usize,
    /// The keys of most maps, so few that a map has some twice.
    names: Vec<&'static str>,
}

impl<'r> Builder<'r> {
    fn new(rng: &'r mut Rng) -> Self {
        const SHORT: usize = 3;
        let kinds = if rng.chance(50) { SHORT } else { NAMES.len() };
        Self {
            comment_percent: *rng.pick_from(&[0, 0, 0, 10, 30]),
            most: rng.between(1, 3),
            names: (0..rng.between(1, 3))
                .map(|_| rng.pick(&NAMES[..kinds]))
                .collect(),
            rng,
        }
    }

    /// A map, or now and then something else with maps in it.
    fn event(&mut self) -> Document {
        const DEPTHS: [usize; 12] = [0, 0, 1, 1, 1, 1, 2, 2, 2, 3, 8, 10];
        const WITHIN: usize = 2;
        let depth = *self.rng.pick_from(&DEPTHS);
        let map = self.map(depth);
        match self.rng.below(20) {
            0..12 => Document {
                is_map: true,
                inside: map,
            },
            12..17 => self.sole(Value::Container(Bracket::Map, map)),
            17 => {
                let list = self.container(Bracket::List, Value::Container(Bracket::Map, map));
                self.sole(list)
            }
            18 => {
                let name = self.variant();
                let variant = self.container(name, Value::Container(Bracket::Map, map));
                self.sole(variant)
            }
            _ => {
                let value = self.value(WITHIN);
                self.sole(value)
            }
        }
    }

    fn sole(&mut self, value: Value) -> Document {
        let node = self.node(value);
        self.several(vec![node])
    }

    fn several(&mut self, values: Vec<Node>) -> Document {
        Document {
            is_map: false,
            inside: self.inside(values),
        }
    }

    /// A map with so many more in one another in it.
    fn map(&mut self, depth: usize) -> Inside {
        // A deep one is narrow, or it would be long.
        let (most, within) = if depth < 4 {
            (self.most, depth.min(2))
        } else {
            (1, 1)
        };
        let mut pairs: Vec<[Node; 2]> = Vec::new();
        for _ in 0..self.rng.between(0, most) {
            let value = self.value(within);
            pairs.push(self.pair(value));
        }
        if depth > 0 {
            let value = Value::Container(Bracket::Map, self.map(depth - 1));
            let place = self.rng.below(pairs.len() + 1);
            let pair = self.pair(value);
            pairs.insert(place, pair);
        }
        self.inside(pairs.into_iter().flatten().collect())
    }

    fn pair(&mut self, value: Value) -> [Node; 2] {
        let key = match self.rng.below(20) {
            0..15 => self.rng.pick(&self.names),
            15..18 => self.rng.pick(&NAMES),
            _ => self.rng.pick(&OTHERS),
        };
        let key = self.node(Value::Atom(key.to_owned()));
        [key, self.node(value)]
    }

    fn value(&mut self, depth: usize) -> Value {
        if depth > 0 {
            match self.rng.below(10) {
                0..3 => return Value::Container(Bracket::Map, self.map(depth - 1)),
                3 => return self.wrapped(Bracket::List, depth - 1),
                4 => {
                    let name = self.variant();
                    return self.wrapped(name, depth - 1);
                }
                _ => {}
            }
        }
        Value::Atom(self.rng.pick(&VALUES).to_owned())
    }

    fn variant(&mut self) -> Bracket {
        Bracket::Variant(self.rng.pick(&["\"A\"", "\"a\"", "'a'"]).to_owned())
    }

    /// A list or a variant with a map in it.
    fn wrapped(&mut self, bracket: Bracket, depth: usize) -> Value {
        let map = Value::Container(Bracket::Map, self.map(depth));
        self.container(bracket, map)
    }

    /// A container of that value, now and then of others beside it.
    fn container(&mut self, bracket: Bracket, value: Value) -> Value {
        let mut values = vec![self.node(value)];
        while self.rng.chance(30) {
            let other = Value::Atom(self.rng.pick(&VALUES).to_owned());
            let place = self.rng.below(values.len() + 1);
            let other = self.node(other);
            values.insert(place, other);
        }
        Value::Container(bracket, self.inside(values))
    }

    /// The paths as a list with or without brackets, or now and then as something else.
    fn path_list(&mut self, paths: &[Vec<String>]) -> Document {
        let wrong = self.rng.below(paths.len().max(1));
        let is_wrong = self.rng.chance(12);
        let mut nodes = Vec::new();
        for (number, path) in paths.iter().enumerate() {
            let path = if is_wrong && number == wrong {
                self.no_path(path)
            } else {
                self.path(path)
            };
            nodes.push(self.node(path));
        }
        // One list alone would be the list of paths, and none the empty map.
        let brackets = if nodes.len() < 2 { 88 } else { 50 };
        match self.rng.below(40) {
            0 => self.around(Bracket::Variant("'x'".to_owned()), nodes),
            1 => {
                let pairs = nodes.into_iter().map(|value| [Node::atom("a"), value]);
                Document {
                    is_map: true,
                    inside: self.inside(pairs.flatten().collect()),
                }
            }
            2 => {
                let list = Value::Container(Bracket::List, self.inside(nodes));
                let node = self.node(list);
                self.around(Bracket::List, vec![node])
            }
            // One path alone, in brackets or without.
            3 => {
                nodes.truncate(1);
                self.several(nodes)
            }
            4 => {
                let keys = paths.first().cloned().unwrap_or_default();
                let keys = keys.into_iter().map(Node::atom).collect();
                self.several(keys)
            }
            _ if self.rng.chance(brackets) => self.around(Bracket::List, nodes),
            _ => self.several(nodes),
        }
    }

    fn around(&mut self, bracket: Bracket, values: Vec<Node>) -> Document {
        let container = Value::Container(bracket, self.inside(values));
        self.sole(container)
    }

    fn path(&mut self, keys: &[String]) -> Value {
        let mut nodes = Vec::new();
        for key in keys {
            nodes.push(self.node(Value::Atom(key.clone())));
        }
        Value::Container(Bracket::List, self.inside(nodes))
    }

    /// A path of one key too many, or no path at all.
    fn no_path(&mut self, path: &[String]) -> Value {
        if self.rng.chance(30) {
            let keys = path.iter().cycle().take(KEYS.end() + 1);
            let keys: Vec<String> = keys.cloned().collect();
            self.path(&keys)
        } else {
            Value::Atom(self.rng.pick(&NO_PATHS).to_owned())
        }
    }

    fn node(&mut self, value: Value) -> Node {
        Node {
            prefix: self.comments(),
            value,
            suffix: self.comment(),
        }
    }

    fn inside(&mut self, values: Vec<Node>) -> Inside {
        Inside {
            values,
            closing: self.comments(),
        }
    }

    fn comment(&mut self) -> Option<String> {
        let comment = self.rng.chance(self.comment_percent);
        comment.then(|| self.rng.pick(&tree::COMMENTS).to_owned())
    }

    fn comments(&mut self) -> Vec<String> {
        let mut comments = Vec::new();
        while let Some(comment) = self.comment() {
            comments.push(comment);
        }
        comments
    }
}

/// Ways into an event; into none if it is refused.
struct Ways<'t> {
    records: Vec<Record<'t>>,
    /// The texts of its keys, wherever they stand.
    names: Vec<String>,
}

impl<'t> Ways<'t> {
    fn of(text: &'t [u8]) -> Self {
        let words = calls::read(text).unwrap_or_default();
        let records = Record::all(text, &words);
        let is_map = |&number: &usize| records[number].kind == MAP;
        let maps = (0..records.len()).filter(is_map);
        let keys = maps.flat_map(|map| Record::values(&records, map).into_iter().step_by(2));
        let keys = keys.filter(|&key| is_key(&records[key]));
        let keys = keys.map(|key| String::from_utf8_lossy(records[key].text).into_owned());
        Self {
            names: keys.collect(),
            records,
        }
    }

    fn paths(&self, rng: &mut Rng) -> Vec<Vec<String>> {
        let count = match rng.below(100) {
            0..6 => 0,
            6..26 => 1,
            26..92 => rng.between(2, 6),
            92..96 => rng.between(7, 16),
            96 => PATHS - 1,
            97 | 98 => PATHS,
            _ => PATHS + 1,
        };
        // Long paths in a long list would take long.
        let longest = if count < PATHS - 1 { *KEYS.end() } else { 2 };
        let mut paths = Vec::new();
        for _ in 0..count {
            let mut path = self.path(&paths, rng);
            path.truncate(longest);
            paths.push(path);
        }
        paths
    }

    /// A way into the event, or a path made before; as it is, cut, longer or with another key.
    fn path(&self, made: &[Vec<String>], rng: &mut Rng) -> Vec<String> {
        let mut path = match rng.below(20) {
            0 => vec![],
            1..6 if !made.is_empty() => rng.pick_from(made).clone(),
            _ => self.way(rng),
        };
        match rng.below(20) {
            0..11 => {}
            11..14 => path.truncate(rng.between(1, path.len().max(1))),
            14..17 => path.push(self.name(rng)),
            17 if rng.chance(40) => path.resize_with(LONGEST, || self.name(rng)),
            _ if path.is_empty() => {}
            _ => {
                let place = rng.below(path.len());
                path[place] = if rng.chance(50) {
                    other_quotes(&path[place], rng)
                } else {
                    self.name(rng)
                };
            }
        }
        if path.is_empty() {
            path.resize_with(rng.between(1, 3), || self.name(rng));
        }
        path
    }

    /// The keys on the way to some record. It goes on where a path does not: through lists and
    /// variants, also by what stands in them by twos, past a variant for a key, seldom into a key.
    fn way(&self, rng: &mut Rng) -> Vec<String> {
        let mut way = Vec::new();
        if self.records.is_empty() {
            return way;
        }
        let mut at = Record::root(&self.records);
        while way.len() < LONGEST && !rng.chance(4) {
            let values = Record::values(&self.records, at);
            if values.is_empty() {
                break;
            }
            // The more stands in a value, the more often.
            let last = at + self.records[at].size - 1;
            let record = rng.between(values[0], last);
            let place = values.iter().rposition(|&value| value <= record);
            let place = place.unwrap_or_default();
            let pair = place - place % 2;
            let by_twos = self.records[at].kind == MAP || rng.chance(30);
            let Some(&[key, value]) = values[pair..].first_chunk().filter(|_| by_twos) else {
                at = values[place];
                continue;
            };
            let name = &self.records[key];
            if !is_key(name) && name.kind != VARIANT {
                break;
            }
            way.push(String::from_utf8_lossy(name.text).into_owned());
            at = if rng.chance(4) { key } else { value };
        }
        way
    }

    /// More often a key of the event than not.
    fn name(&self, rng: &mut Rng) -> String {
        if !self.names.is_empty() && rng.chance(60) {
            rng.pick_from(&self.names).clone()
        } else {
            rng.pick(&NAMES).to_owned()
        }
    }
}

/// The same key with other quotes, or with some.
fn other_quotes(key: &str, rng: &mut Rng) -> String {
    let bare = key.trim_matches(['"', '\'']);
    let quote = rng.pick(&["", "\"", "'", "\"\"\"", "'''"]);
    if quote.is_empty() && !calls::identifier(bare.as_bytes()) {
        return format!("'{}'", bare.replace(['\'', '\n'], ""));
    }
    format!("{quote}{bare}{quote}")
}

#[cfg(test)]
mod tests {
    use super::super::{Lookup, Path, keys, listed, matches, pairs, path_list, reached};
    use super::*;
    use crate::models;
    use crate::records::{LIST, NUMBER, PREFIX};
    use std::collections::{BTreeMap, BTreeSet};

    type Outcome = (&'static str, u32);

    /// What a case is an example of: the refused text with the number, the wrong form, or what the
    /// paths meet.
    fn outcomes(case: &Search) -> BTreeSet<Outcome> {
        let (event, paths) = match (case.event.finished(), case.paths.finished()) {
            (Ok(event), Ok(paths)) => (event, paths),
            (Err(event), Err(_)) => return [("event", event.number), ("both", 0)].into(),
            (Err(event), _) => return [("event", event.number)].into(),
            (_, Err(paths)) => return [("paths", paths.number)].into(),
        };
        let Ok(list) = path_list(&paths) else {
            return [("no list of paths", 0), (form(&paths), 0)].into();
        };
        let mut met = BTreeSet::from([(count(&list), 0)]);
        let has_comments = |records: &[Record<'_>]| records.iter().any(|r| r.kind >= PREFIX);
        for (is_met, what) in [
            (has_comments(&event), "comments in the event"),
            (has_comments(&paths), "comments in the paths"),
            (event[Record::root(&event)].kind != MAP, "no map"),
        ] {
            met.extend(is_met.then_some((what, 0)));
        }
        for (number, path) in list.iter().enumerate() {
            let of_path = of_path(&event, path).into_iter();
            let beside = beside(path, &list[..number]).into_iter();
            let all = of_path.chain(beside).filter(|(is_met, _)| *is_met);
            met.extend(all.map(|(_, what)| (what, 0)));
        }
        met
    }

    fn count(paths: &[Path<'_>]) -> &'static str {
        match paths.len() {
            0 => "no path",
            1 => "one path",
            2..127 => "some paths",
            127 => "127 paths",
            _ => "128 paths",
        }
    }

    /// What is wrong with a path list.
    fn form(records: &[Record<'_>]) -> &'static str {
        let root = Record::root(records);
        let Some(paths) = listed(records, root) else {
            return match records[root].kind {
                MAP => "a map of paths",
                VARIANT => "a variant of paths",
                _ => "one word",
            };
        };
        let mut wrong = paths.iter().filter(|&&path| keys(records, path).is_none());
        let Some(&path) = wrong.next() else {
            return "129 paths";
        };
        match records[path].kind {
            LIST => no_keys(records, path),
            VARIANT => "a variant for a path",
            MAP => "a map for a path",
            NUMBER => "a number for a path",
            _ => "a key for a path",
        }
    }

    fn no_keys(records: &[Record<'_>], path: usize) -> &'static str {
        let keys = Record::values(records, path);
        let wrong = keys.iter().find(|&&key| !is_key(&records[key]));
        match wrong.map(|&key| records[key].kind) {
            None if keys.is_empty() => "no key",
            None => "nine keys",
            Some(NUMBER) => "a number for a key",
            Some(LIST) => "a list for a key",
            Some(MAP) => "a map for a key",
            Some(_) => "a variant for a key",
        }
    }

    /// What a path meets in the event.
    fn of_path(event: &[Record<'_>], path: &Path<'_>) -> [(bool, &'static str); 15] {
        let (key, front) = path.split_last().expect("a path has a key");
        let values = reached(event, path);
        let ends = reached(event, front);
        let names = ends.iter().flat_map(|&map| pairs(event, map));
        let names: Vec<Record<'_>> = names.map(|[name, _]| event[name]).collect();
        let reaches = !values.is_empty();
        let has_end = |kind| {
            let is_full = |&end: &usize| event[end].kind == kind && event[end].size > 1;
            ends.iter().any(is_full)
        };
        let is_full_map = |&value: &usize| event[value].kind == MAP && event[value].size > 1;
        [
            (!reaches, "none"),
            (values.len() == 1, "one value"),
            (values.len() > 1, "several values"),
            (values.iter().any(is_full_map), "a map at the end"),
            (
                values.iter().any(|&value| event[value - 1].kind == PREFIX),
                "a comment before the value",
            ),
            (reaches && path.len() > 1, "two keys deep"),
            (path.len() == 8, "eight keys"),
            (reaches && path.len() == 8, "eight keys deep"),
            (!reaches && !ends.is_empty() && path.len() > 1, "too far"),
            (
                reaches && !first(event, path),
                "the later of two equal keys",
            ),
            (has_end(LIST), "a list on the way"),
            (has_end(VARIANT), "a variant on the way"),
            (
                names.iter().any(|name| name.size > 1),
                "a container for a key",
            ),
            (
                names.iter().any(|name| !is_key(name) && name.text == *key),
                "a variant of that name",
            ),
            (
                names
                    .iter()
                    .any(|name| is_key(name) && name.text != *key && bare(name.text) == bare(key)),
                "other quotes",
            ),
        ]
    }

    /// Whether the first of all equal keys leads to the path's end.
    fn first(event: &[Record<'_>], path: &Path<'_>) -> bool {
        let mut at = Some(Record::root(event));
        for key in path {
            let pairs = at.map_or(vec![], |map| pairs(event, map));
            let mut leading = pairs.iter().filter(|[name, _]| matches(&event[*name], key));
            at = leading.next().map(|&[_, value]| value);
        }
        at.is_some()
    }

    fn bare(key: &[u8]) -> &[u8] {
        let is_quote = |byte: &u8| [b'"', b'\''].contains(byte);
        let start = key.iter().take_while(|byte| is_quote(byte)).count();
        let end = key.iter().rev().take_while(|byte| is_quote(byte)).count();
        key.get(start..key.len() - end).unwrap_or_default()
    }

    /// How a path stands to those before it.
    fn beside(path: &Path<'_>, others: &[Path<'_>]) -> [(bool, &'static str); 3] {
        let extends = |other: &Path<'_>| {
            other.len() != path.len() && (other.starts_with(path) || path.starts_with(other))
        };
        let parts = |other: &Path<'_>| other[0] == path[0] && other.get(1) != path.get(1);
        [
            (others.contains(path), "a path twice"),
            (others.iter().any(extends), "a path and a longer one"),
            (others.iter().any(parts), "a shared front"),
        ]
    }

    #[test]
    fn every_outcome_is_reached() {
        const CASES: usize = 6000;
        let mut met: BTreeMap<Outcome, usize> = BTreeMap::new();
        for number in 0..CASES {
            for outcome in outcomes(&models::case::<Lookup>(1, number)) {
                *met.entry(outcome).or_default() += 1;
            }
        }
        // At least so many of a thousand cases each.
        let often = |share: usize, outcomes: &[&'static str]| {
            for &outcome in outcomes {
                let count = met.get(&(outcome, 0)).copied().unwrap_or_default();
                assert!(count * 1000 >= CASES * share, "{outcome}: {met:?}");
            }
        };
        often(
            50,
            &[
                "no list of paths",
                "some paths",
                "one path",
                "no map",
                "comments in the event",
                "comments in the paths",
                "none",
                "one value",
                "several values",
                "two keys deep",
                "too far",
                "a path twice",
                "a path and a longer one",
                "a shared front",
                "a map at the end",
                "a list on the way",
            ],
        );
        often(
            20,
            &[
                "both",
                "no path",
                "eight keys",
                "a comment before the value",
                "a container for a key",
                "other quotes",
                "the later of two equal keys",
                "a variant on the way",
                "a map of paths",
                "a key for a path",
                "a list for a key",
            ],
        );
        often(
            8,
            &[
                "eight keys deep",
                "a variant of that name",
                "128 paths",
                "a variant of paths",
                "one word",
                "nine keys",
            ],
        );
        often(
            2,
            &[
                "127 paths",
                "129 paths",
                "a variant for a path",
                "a map for a path",
                "a number for a path",
                "no key",
                "a number for a key",
                "a map for a key",
                "a variant for a key",
            ],
        );
        for text in ["event", "paths"] {
            for number in (1..=13).chain([15]) {
                assert!(
                    met.contains_key(&(text, number)),
                    "{text} {number}: {met:?}"
                );
            }
            assert!(met[&(text, 15)] * 1000 >= CASES * 80, "{met:?}");
        }
    }
}

//! Wrong readings of document 02, L2, and calls that write where they must not.

use super::{PLAN, difference};
use differential::lent::{Behind, Lent};
use differential::requests::{Answered, Calls, Given, run};
use oracle::Refusal;
use oracle::generate::Rng;
use oracle::models::lookup::{Found, Lookup, NONE, PATHS, Search};
use oracle::models::{Handed, Model, Record, Table};
use std::collections::BTreeSet;

const NO_PATHS: u32 = 28;

const IDENTIFIER: u32 = 1;
const NUMBER: u32 = 2;
const STRING: u32 = 3;
const LIST: u32 = 4;
const MAP: u32 = 5;
const VARIANT: u32 = 6;
const PREFIX: u32 = 7;

type Path = Vec<Vec<u8>>;

/// How the call may be read.
struct Reading {
    /// The paths of a path text; none if it is of another form.
    paths: fn(&[Record<'_>]) -> Option<Vec<Path>>,
    /// All numbers that will do for each path; 'none' where there are none.
    answers: fn(&[Record<'_>], &[Path]) -> Vec<Vec<usize>>,
    steps: fn(&[Record<'_>], &[Path]) -> usize,
}

const RIGHT: Reading = Reading {
    paths: |records| FORM.paths(records),
    answers: |event, paths| walked(event, paths, map_pairs, same),
    steps: once,
};

impl Reading {
    fn look(&self, case: &Search) -> Result<All, Refusal> {
        let (event, paths) = (case.event.finished()?, case.paths.finished()?);
        let paths = (self.paths)(&paths).ok_or(Refusal::unplaced(NO_PATHS))?;
        Ok(All {
            steps: (self.steps)(&event, &paths),
            answers: (self.answers)(&event, &paths),
        })
    }
}

/// What a reading answers.
struct All {
    steps: usize,
    answers: Vec<Vec<usize>>,
}

impl All {
    fn first(&self) -> Found {
        let mut answers = [NONE; PATHS];
        for (answer, values) in answers.iter_mut().zip(&self.answers) {
            *answer = values.first().map_or(NONE, |&value| value as u32);
        }
        let steps = self.steps;
        Found { steps, answers }
    }

    fn allows(&self, found: &Found) -> bool {
        let answers = found.answers.iter().enumerate();
        let mut allowed = answers.map(|(path, &answer)| match self.answers.get(path) {
            Some(values) if !values.is_empty() => values.contains(&(answer as usize)),
            _ => answer == NONE,
        });
        found.steps == self.steps && allowed.all(|allowed| allowed)
    }
}

type Look = fn(&Search) -> Result<All, Refusal>;

/// A model by another reading, which leaves free what that reading leaves free.
macro_rules! reading {
    ($name:ident, $look:expr) => {
        other!(
            Lookup,
            $name,
            |case| {
                let look: Look = $look;
                look(case).map(|all| all.first())
            },
            fn allows(case: &Search, _: &Found, found: &Found) -> bool {
                let look: Look = $look;
                look(case).is_ok_and(|all| all.allows(found))
            }
        );
    };
    ($name:ident, $part:ident, $value:expr) => {
        reading!($name, |case| {
            let reading = Reading {
                $part: $value,
                ..RIGHT
            };
            reading.look(case)
        });
    };
}

/// What a path list is made of.
struct Form {
    is_list: fn(&Record<'_>) -> bool,
    is_path: fn(&Record<'_>) -> bool,
    is_key: fn(&Record<'_>) -> bool,
    least_keys: usize,
    most_keys: usize,
    most_paths: usize,
}

const FORM: Form = Form {
    is_list: |record| record.kind == LIST,
    is_path: |record| record.kind == LIST,
    is_key,
    least_keys: 1,
    most_keys: 8,
    most_paths: 128,
};

impl Form {
    fn paths(&self, records: &[Record<'_>]) -> Option<Vec<Path>> {
        let root = Record::root(records);
        let numbers = Record::values(records, root);
        let is_list = (self.is_list)(&records[root]) && numbers.len() <= self.most_paths;
        let paths = numbers.iter().map(|&number| self.path(records, number));
        paths.collect::<Option<_>>().filter(|_| is_list)
    }

    fn path(&self, records: &[Record<'_>], number: usize) -> Option<Path> {
        let keys = Record::values(records, number);
        let fits = (self.least_keys..=self.most_keys).contains(&keys.len());
        let is_path = (self.is_path)(&records[number]) && fits;
        let is_key = |key: &&usize| (self.is_key)(&records[**key]);
        let all = is_path && keys.iter().filter(is_key).count() == keys.len();
        all.then(|| keys.iter().map(|&key| records[key].text.to_vec()).collect())
    }
}

fn is_key(record: &Record<'_>) -> bool {
    matches!(record.kind, IDENTIFIER | STRING)
}

fn each(paths: &[Path], answers: impl Fn(&[Vec<u8>]) -> Vec<usize>) -> Vec<Vec<usize>> {
    paths.iter().map(|path| answers(path)).collect()
}

type Pairs = fn(&[Record<'_>], usize) -> Vec<[usize; 2]>;

type Same = fn(&Record<'_>, &[u8]) -> bool;

/// The keys and values at the end of a way through such pairs, by keys that are the same.
fn walk(event: &[Record<'_>], path: &[Vec<u8>], pairs: Pairs, same: Same) -> Vec<[usize; 2]> {
    let mut ends = vec![[Record::root(event); 2]];
    for key in path {
        let met = ends.iter().flat_map(|&[_, value]| pairs(event, value));
        ends = met.filter(|[name, _]| same(&event[*name], key)).collect();
    }
    ends
}

fn values(ends: Vec<[usize; 2]>) -> Vec<usize> {
    ends.into_iter().map(|[_, value]| value).collect()
}

fn walked(event: &[Record<'_>], paths: &[Path], pairs: Pairs, same: Same) -> Vec<Vec<usize>> {
    each(paths, |path| values(walk(event, path, pairs, same)))
}

fn reached(event: &[Record<'_>], path: &[Vec<u8>]) -> Vec<usize> {
    values(walk(event, path, map_pairs, same))
}

fn same(name: &Record<'_>, key: &[u8]) -> bool {
    is_key(name) && name.text == key
}

fn map_pairs(event: &[Record<'_>], number: usize) -> Vec<[usize; 2]> {
    pairs_of(event, number, MAP)
}

/// What stands in it by twos, if it is of that kind.
fn pairs_of(event: &[Record<'_>], number: usize, kind: u32) -> Vec<[usize; 2]> {
    let values = Record::values(event, number);
    let pairs = values.chunks_exact(2).map(|pair| [pair[0], pair[1]]);
    pairs.filter(|_| event[number].kind == kind).collect()
}

fn proper_fronts(paths: &[Path]) -> impl Iterator<Item = &[Vec<u8>]> {
    let fronts = |path| (0..Path::len(path)).map(move |end| &path[..end]);
    paths.iter().flat_map(fronts)
}

/// The values that proper fronts of the paths reach.
fn entered(event: &[Record<'_>], paths: &[Path]) -> BTreeSet<usize> {
    let fronts = proper_fronts(paths);
    fronts.flat_map(|front| reached(event, front)).collect()
}

/// The root, and the keys and values of all these that are maps.
fn counted(event: &[Record<'_>], maps: impl IntoIterator<Item = usize>) -> usize {
    let maps = maps.into_iter();
    1 + maps
        .map(|map| 2 * map_pairs(event, map).len())
        .sum::<usize>()
}

fn once(event: &[Record<'_>], paths: &[Path]) -> usize {
    counted(event, entered(event, paths))
}

/// How many comments stand in a container, but not in others in it.
fn comments_in(records: &[Record<'_>], number: usize) -> usize {
    let inside = &records[number + 1..number + records[number].size];
    let inside = Record::outermost(inside).into_iter();
    inside.filter(|record| record.kind >= PREFIX).count()
}

reading!(SameLookup, |case| RIGHT.look(case));

// Where a path goes.

/// The pairs of all maps that are reached through containers of that kind.
fn through(event: &[Record<'_>], number: usize, kind: u32) -> Vec<[usize; 2]> {
    if event[number].kind != kind {
        return map_pairs(event, number);
    }
    let inside = Record::values(event, number).into_iter();
    inside
        .flat_map(|value| through(event, value, kind))
        .collect()
}

reading!(ThroughLists, answers, |event, paths| {
    let pairs: Pairs = |event, value| through(event, value, LIST);
    walked(event, paths, pairs, same)
});
reading!(ThroughVariants, answers, |event, paths| {
    let pairs: Pairs = |event, value| through(event, value, VARIANT);
    walked(event, paths, pairs, same)
});
// A list of keys and values by turns is taken for a map.
reading!(ListsAsMaps, answers, |event, paths| {
    let pairs: Pairs =
        |event, value| [pairs_of(event, value, LIST), map_pairs(event, value)].concat();
    walked(event, paths, pairs, same)
});
reading!(IntoKeys, answers, |event, paths| {
    let pairs: Pairs = |event, value| {
        let own = map_pairs(event, value);
        let of_keys = own.iter().flat_map(|&[name, _]| map_pairs(event, name));
        own.iter().copied().chain(of_keys).collect()
    };
    walked(event, paths, pairs, same)
});
reading!(FromAnywhere, answers, |event, paths| {
    let pairs: Pairs = |event, value| {
        let is_first = value == Record::root(event);
        let last = if is_first { event.len() } else { value + 1 };
        (value..last)
            .flat_map(|value| map_pairs(event, value))
            .collect()
    };
    walked(event, paths, pairs, same)
});

/// The right values, but none if one of all equal keys, taken at once, does not lead to any.
fn greedy(
    event: &[Record<'_>],
    path: &[Vec<u8>],
    one: fn(&[[usize; 2]]) -> Option<&[usize; 2]>,
) -> Vec<usize> {
    let mut at = Some(Record::root(event));
    for key in path {
        let mut pairs = at.map_or(vec![], |value| map_pairs(event, value));
        pairs.retain(|[name, _]| same(&event[*name], key));
        at = one(&pairs).map(|&[_, value]| value);
    }
    at.map_or(vec![], |_| reached(event, path))
}

reading!(FirstOfTwo, answers, |event, paths| each(paths, |path| {
    greedy(event, path, |pairs| pairs.first())
}));
reading!(LastOfTwo, answers, |event, paths| each(paths, |path| {
    greedy(event, path, |pairs| pairs.last())
}));
// As far as it goes.
reading!(LongestFront, answers, |event, paths| each(paths, |path| {
    let fronts = (1..=path.len()).rev().map(|end| &path[..end]);
    let mut values = fronts.map(|front| reached(event, front));
    values.find(|values| !values.is_empty()).unwrap_or_default()
}));
reading!(NoMapAtTheEnd, answers, |event, paths| each(paths, |path| {
    let mut values = reached(event, path);
    values.retain(|&value| event[value].kind != MAP);
    values
}));
reading!(WholeTable, |case: &Search| {
    let mut all = RIGHT.look(case)?;
    let (event, words) = (case.event.finished()?, case.event.words());
    if event[Record::root(&event)].kind == MAP && !all.answers.is_empty() {
        all.steps += words.len() / eon::RECORD_WORDS - event.len();
    }
    Ok(all)
});

#[test]
fn other_ways_are_noticed() {
    for difference in [
        difference::<ThroughLists>,
        difference::<ThroughVariants>,
        difference::<ListsAsMaps>,
        difference::<IntoKeys>,
        difference::<FromAnywhere>,
        difference::<FirstOfTwo>,
        difference::<LastOfTwo>,
        difference::<LongestFront>,
        difference::<NoMapAtTheEnd>,
        difference::<WholeTable>,
    ] {
        noticed(difference);
    }
    // What is noticed is what is wrong in them.
    assert!(run::<SameLookup>(&PLAN).is_ok());
}

fn noticed(difference: fn() -> String) {
    let difference = difference();
    assert!(difference.contains("\nsmallest: "), "{difference}");
}

#[test]
fn a_way_is_shrunk() {
    let difference = difference::<FirstOfTwo>();
    assert!(difference.contains("answers: []"), "{difference}");
    let smallest = difference.lines().last().unwrap_or_default();
    assert!(smallest.len() < 220, "{difference}");
}

// Which keys are the same.

fn value_of(key: &[u8]) -> Vec<u8> {
    oracle::unquote(key).unwrap_or_else(|_| key.to_vec())
}

reading!(ByValue, answers, |event, paths| {
    let same: Same = |name, key| is_key(name) && value_of(name.text) == value_of(key);
    walked(event, paths, map_pairs, same)
});
reading!(StringsByValue, answers, |event, paths| {
    let same: Same = |name, key| {
        let is_string = key.starts_with(b"\"") || key.starts_with(b"'");
        same(name, key) || name.kind == STRING && is_string && value_of(name.text) == value_of(key)
    };
    walked(event, paths, map_pairs, same)
});
reading!(ByFirstBytes, answers, |event, paths| {
    let same: Same =
        |name, key| is_key(name) && (name.text.starts_with(key) || key.starts_with(name.text));
    walked(event, paths, map_pairs, same)
});
reading!(VariantsByName, answers, |event, paths| {
    let same: Same =
        |name, key| [IDENTIFIER, STRING, VARIANT].contains(&name.kind) && name.text == key;
    walked(event, paths, map_pairs, same)
});
reading!(IdentifiersOnly, answers, |event, paths| {
    let same: Same = |name, key| name.kind == IDENTIFIER && name.text == key;
    walked(event, paths, map_pairs, same)
});
reading!(TrueMatchesNone, answers, |event, paths| {
    let same: Same = |name, key| {
        let is_word = [&b"true"[..], b"false", b"null"].contains(&key);
        same(name, key) && !is_word
    };
    walked(event, paths, map_pairs, same)
});
reading!(NumberKeys, |case| {
    let paths = |records: &[Record<'_>]| {
        let is_key = |record: &Record<'_>| is_key(record) || record.kind == NUMBER;
        Form { is_key, ..FORM }.paths(records)
    };
    let answers = |event: &[Record<'_>], paths: &[Path]| {
        let same: Same = |name, key| (is_key(name) || name.kind == NUMBER) && name.text == key;
        walked(event, paths, map_pairs, same)
    };
    Reading {
        paths,
        answers,
        ..RIGHT
    }
    .look(case)
});

#[test]
fn other_keys_are_noticed() {
    for difference in [
        difference::<ByValue>,
        difference::<StringsByValue>,
        difference::<ByFirstBytes>,
        difference::<VariantsByName>,
        difference::<IdentifiersOnly>,
        difference::<TrueMatchesNone>,
        difference::<NumberKeys>,
    ] {
        noticed(difference);
    }
}

// Which number is answered, and for which path.

reading!(CommentAnswered, answers, |event, paths| each(
    paths,
    |path| {
        let comments = |&value: &usize| {
            let before = event[..value].iter().rev();
            before.take_while(|record| record.kind == PREFIX).count()
        };
        let values = reached(event, path);
        values.iter().map(|value| value - comments(value)).collect()
    }
));
reading!(KeyAnswered, answers, |event, paths| each(paths, |path| {
    let ends = walk(event, path, map_pairs, same).into_iter();
    ends.map(|[name, _]| name).collect()
}));
reading!(CountedFromOne, answers, |event, paths| each(
    paths,
    |path| { reached(event, path).iter().map(|value| value + 1).collect() }
));
// Comments have no numbers.
reading!(CommentsLeftOut, answers, |event, paths| each(
    paths,
    |path| {
        let number = |&value: &usize| {
            event[..value]
                .iter()
                .filter(|record| record.kind < PREFIX)
                .count()
        };
        reached(event, path).iter().map(number).collect()
    }
));
reading!(StartAnswered, answers, |event, paths| each(paths, |path| {
    reached(event, path)
        .iter()
        .map(|&value| event[value].start)
        .collect()
}));
reading!(FirstTwoMixed, answers, |event, paths| {
    let mut answers = (RIGHT.answers)(event, paths);
    if let [first, second, ..] = &mut answers[..] {
        std::mem::swap(first, second);
    }
    answers
});
reading!(LastTwoMixed, answers, |event, paths| {
    let mut answers = (RIGHT.answers)(event, paths);
    if let [.., first, second] = &mut answers[..] {
        std::mem::swap(first, second);
    }
    answers
});
reading!(NoneIfExtended, answers, |event, paths| each(
    paths,
    |path| {
        let extends = |other: &Path| other.len() > path.len() && other.starts_with(path);
        let values = reached(event, path).into_iter();
        values.filter(|_| !paths.iter().any(extends)).collect()
    }
));
reading!(NoneIfItExtends, answers, |event, paths| each(
    paths,
    |path| {
        let is_front = |other: &Path| other.len() < path.len() && path.starts_with(other);
        let values = reached(event, path).into_iter();
        values.filter(|_| !paths.iter().any(is_front)).collect()
    }
));
reading!(NoneTheSecondTime, answers, |event, paths| {
    let answer = |(number, path): (usize, &Path)| {
        let values = reached(event, path).into_iter();
        values.filter(|_| !paths[..number].contains(path)).collect()
    };
    paths.iter().enumerate().map(answer).collect()
});
// Those that reach nothing take no place.
reading!(MovedUp, answers, |event, paths| {
    let mut answers = (RIGHT.answers)(event, paths);
    answers.retain(|values| !values.is_empty());
    answers
});

#[test]
fn other_answers_are_noticed() {
    for difference in [
        difference::<CommentAnswered>,
        difference::<KeyAnswered>,
        difference::<CountedFromOne>,
        difference::<CommentsLeftOut>,
        difference::<StartAnswered>,
        difference::<FirstTwoMixed>,
        difference::<LastTwoMixed>,
        difference::<NoneIfExtended>,
        difference::<NoneIfItExtends>,
        difference::<NoneTheSecondTime>,
        difference::<MovedUp>,
    ] {
        noticed(difference);
    }
}

// What is a step.

reading!(StepsOfEachPath, steps, |event, paths| {
    let alone = |path: &Path| once(event, std::slice::from_ref(path)) - 1;
    1 + paths.iter().map(alone).sum::<usize>()
});
reading!(StepsOfEachFront, steps, |event, paths| {
    let fronts = proper_fronts(paths);
    counted(event, fronts.flat_map(|front| reached(event, front)))
});
reading!(StepsOfWholePaths, steps, |event, paths| {
    let mut maps = entered(event, paths);
    maps.extend(paths.iter().flat_map(|path| reached(event, path)));
    counted(event, maps)
});
reading!(StepsWithoutRoot, steps, |event, paths| {
    let steps = once(event, paths);
    steps - 1
});
reading!(StepsWithoutKeys, steps, |event, paths| {
    let steps = once(event, paths);
    steps.div_ceil(2)
});
reading!(StepsOfRootAlways, steps, |event, paths| {
    let mut maps = entered(event, paths);
    maps.insert(Record::root(event));
    counted(event, maps)
});
reading!(StepsOfComments, steps, |event, paths| {
    let mut maps = entered(event, paths);
    maps.retain(|&map| event[map].kind == MAP);
    let comments = maps.iter().map(|&map| comments_in(event, map));
    once(event, paths) + comments.sum::<usize>()
});
reading!(StepsOfAllRecords, steps, |event, _| event.len());
reading!(StepsInKeys, steps, |event, paths| {
    let pairs = entered(event, paths)
        .into_iter()
        .flat_map(|map| map_pairs(event, map));
    1 + pairs.map(|[name, _]| event[name].size + 1).sum::<usize>()
});
reading!(StepsToAnswers, steps, |event, paths| {
    let mut paths = paths.to_vec();
    paths.retain(|path| !reached(event, path).is_empty());
    once(event, &paths)
});
reading!(StepsOfFirstOfTwo, steps, |event, paths| {
    let mut maps = BTreeSet::new();
    for path in paths {
        let mut at = Some(Record::root(event));
        for key in path {
            maps.extend(at);
            let pairs = at.map_or(vec![], |value| map_pairs(event, value));
            let mut leading = pairs.iter().filter(|[name, _]| same(&event[*name], key));
            at = leading.next().map(|&[_, value]| value);
        }
    }
    counted(event, maps)
});
// A value that no path leads to is passed over.
reading!(StepsOfLedValues, steps, |event, paths| {
    let mut led = entered(event, paths);
    led.extend(paths.iter().flat_map(|path| reached(event, path)));
    led.remove(&Record::root(event));
    let keys = once(event, paths) / 2;
    1 + keys + led.len()
});
// The walk of a map ends where one path's key is found.
reading!(StepsUpToTheKey, steps, |event, paths| {
    let [path] = paths else {
        return once(event, paths);
    };
    let mut steps = 1;
    for (end, key) in path.iter().enumerate() {
        for map in reached(event, &path[..end]) {
            let pairs = map_pairs(event, map);
            let found = pairs.iter().position(|[name, _]| same(&event[*name], key));
            steps += 2 * found.map_or(pairs.len(), |found| found + 1);
        }
    }
    steps
});
reading!(StepsOfLists, steps, |event, paths| {
    let ends = entered(event, paths).into_iter();
    1 + ends
        .map(|end| Record::values(event, end).len())
        .sum::<usize>()
});

#[test]
fn other_steps_are_noticed() {
    for difference in [
        difference::<StepsOfEachPath>,
        difference::<StepsOfEachFront>,
        difference::<StepsOfWholePaths>,
        difference::<StepsWithoutRoot>,
        difference::<StepsWithoutKeys>,
        difference::<StepsOfRootAlways>,
        difference::<StepsOfComments>,
        difference::<StepsOfAllRecords>,
        difference::<StepsInKeys>,
        difference::<StepsToAnswers>,
        difference::<StepsOfFirstOfTwo>,
        difference::<StepsOfLedValues>,
        difference::<StepsUpToTheKey>,
        difference::<StepsOfLists>,
    ] {
        noticed(difference);
    }
}

// What is a path list.

fn sizes(least_keys: usize, most_keys: usize, most_paths: usize) -> Form {
    Form {
        least_keys,
        most_keys,
        most_paths,
        ..FORM
    }
}

reading!(NineKeys, paths, |list| sizes(1, 9, 128).paths(list));
reading!(SevenKeys, paths, |list| sizes(1, 7, 128).paths(list));
reading!(EmptyPath, paths, |list| sizes(0, 8, 128).paths(list));
reading!(OnePathMore, paths, |list| sizes(1, 8, 129).paths(list));
reading!(OnePathLess, paths, |list| sizes(1, 8, 127).paths(list));
reading!(VariantForList, paths, |records| {
    let is_list = |record: &Record<'_>| matches!(record.kind, LIST | VARIANT);
    Form { is_list, ..FORM }.paths(records)
});
reading!(VariantForPath, paths, |records| {
    let is_path = |record: &Record<'_>| matches!(record.kind, LIST | VARIANT);
    Form { is_path, ..FORM }.paths(records)
});
reading!(MapForPath, paths, |records| {
    let is_path = |record: &Record<'_>| matches!(record.kind, LIST | MAP);
    Form { is_path, ..FORM }.paths(records)
});
reading!(NumberForKey, paths, |records| {
    let is_key = |record: &Record<'_>| is_key(record) || record.kind == NUMBER;
    Form { is_key, ..FORM }.paths(records)
});
reading!(VariantForKey, paths, |records| {
    let is_key = |record: &Record<'_>| is_key(record) || record.kind == VARIANT;
    Form { is_key, ..FORM }.paths(records)
});
reading!(ListForKey, paths, |records| {
    let is_key = |record: &Record<'_>| is_key(record) || record.kind == LIST;
    Form { is_key, ..FORM }.paths(records)
});
reading!(NoString, paths, |records| {
    let is_key = |record: &Record<'_>| record.kind == IDENTIFIER;
    Form { is_key, ..FORM }.paths(records)
});
reading!(TrueForNoKey, paths, |records| {
    let is_key = |record: &Record<'_>| is_key(record) && record.text != b"true";
    Form { is_key, ..FORM }.paths(records)
});
// A key alone is a path.
reading!(KeyForPath, paths, |records| {
    let root = Record::root(records);
    let keys = Record::values(records, root);
    let all = records[root].kind == LIST && keys.iter().all(|&key| is_key(&records[key]));
    let paths = || keys.iter().map(|&key| vec![records[key].text.to_vec()]);
    all.then(|| paths().collect())
        .or_else(|| FORM.paths(records))
});
// A list of keys is one path.
reading!(PathForList, paths, |records| {
    let one = FORM.path(records, Record::root(records));
    one.map(|path| vec![path]).or_else(|| FORM.paths(records))
});
reading!(NoPathRefused, paths, |records| {
    FORM.paths(records).filter(|paths| !paths.is_empty())
});
reading!(EmptyTextForNoPath, paths, |records| {
    let root = &records[Record::root(records)];
    let is_empty = root.kind == MAP && root.size == 1;
    is_empty.then(Vec::new).or_else(|| FORM.paths(records))
});
reading!(TwiceRefused, paths, |records| {
    let paths = FORM.paths(records)?;
    let different: BTreeSet<&Path> = paths.iter().collect();
    (different.len() == paths.len()).then_some(paths)
});
reading!(CommentRefused, paths, |records| {
    let has_comment = records.iter().any(|record| record.kind >= PREFIX);
    FORM.paths(records).filter(|_| !has_comment)
});
// A comment in a path takes the place of a key, and one in the list of a path.
reading!(CommentCounted, paths, |records| {
    let root = Record::root(records);
    let paths = FORM.paths(records)?;
    let mut fits = paths.len() + comments_in(records, root) <= FORM.most_paths;
    for (path, number) in paths.iter().zip(Record::values(records, root)) {
        fits &= path.len() + comments_in(records, number) <= FORM.most_keys;
    }
    fits.then_some(paths)
});
reading!(CommentBeforeRootRefused, paths, |records| {
    FORM.paths(records).filter(|_| records[0].kind == LIST)
});
// A path of another form reaches nothing.
reading!(OtherPathSkipped, |case: &Search| {
    let paths = |records: &[Record<'_>]| {
        let numbers = Record::values(records, Record::root(records));
        let paths = numbers.iter().map(|&number| FORM.path(records, number));
        let is_list = records[Record::root(records)].kind == LIST && numbers.len() <= PATHS;
        // No key is empty.
        let paths = paths.map(|path| path.unwrap_or(vec![vec![]]));
        is_list.then(|| paths.collect())
    };
    Reading { paths, ..RIGHT }.look(case)
});
// One path of the right form is enough.
reading!(FirstPathOnly, paths, |records| {
    let root = Record::root(records);
    let first = *Record::values(records, root).first().unwrap_or(&root);
    let is_fine = records[root].kind == LIST && FORM.path(records, first).is_some();
    FORM.paths(records).or_else(|| is_fine.then(Vec::new))
});
reading!(NoMapNoForm, |case: &Search| {
    let event = case.event.finished()?;
    case.paths.finished()?;
    if event[Record::root(&event)].kind != MAP {
        let (steps, answers) = (1, vec![]);
        return Ok(All { steps, answers });
    }
    RIGHT.look(case)
});

#[test]
fn other_forms_are_noticed() {
    for difference in [
        difference::<NineKeys>,
        difference::<SevenKeys>,
        difference::<EmptyPath>,
        difference::<OnePathMore>,
        difference::<OnePathLess>,
        difference::<VariantForList>,
        difference::<VariantForPath>,
        difference::<MapForPath>,
        difference::<NumberForKey>,
        difference::<VariantForKey>,
        difference::<ListForKey>,
        difference::<NoString>,
        difference::<TrueForNoKey>,
        difference::<KeyForPath>,
        difference::<PathForList>,
        difference::<NoPathRefused>,
        difference::<EmptyTextForNoPath>,
        difference::<TwiceRefused>,
        difference::<CommentRefused>,
        difference::<CommentCounted>,
        difference::<CommentBeforeRootRefused>,
        difference::<OtherPathSkipped>,
        difference::<FirstPathOnly>,
        difference::<NoMapNoForm>,
    ] {
        noticed(difference);
    }
}

// Which refusal comes first, and where it is.

/// The same text with its finished table.
fn with_its_table(handed: &Handed) -> Handed {
    Handed::new(handed.text.to_vec(), Table::Finished)
}

reading!(FormBeforeStalePaths, |case: &Search| {
    let finished = Search {
        event: case.event.clone(),
        paths: with_its_table(&case.paths),
    };
    RIGHT.look(&finished)?;
    RIGHT.look(case)
});
reading!(FormBeforeStaleEvent, |case: &Search| {
    let finished = Search {
        event: with_its_table(&case.event),
        paths: case.paths.clone(),
    };
    RIGHT.look(&finished)?;
    RIGHT.look(case)
});
reading!(PathsFirst, |case: &Search| {
    case.paths.finished()?;
    RIGHT.look(case)
});
reading!(BothReadFirst, |case: &Search| {
    with_its_table(&case.event).finished()?;
    with_its_table(&case.paths).finished()?;
    RIGHT.look(case)
});
reading!(PathsUnheldToTheirTable, |case: &Search| {
    RIGHT.look(&Search {
        event: case.event.clone(),
        paths: with_its_table(&case.paths),
    })
});
reading!(NoFormWithoutPlace, |case: &Search| {
    RIGHT.look(case).map_err(|refusal| match refusal.number {
        NO_PATHS => Refusal::placed(NO_PATHS, 0, case.paths.text.len().max(1)),
        _ => refusal,
    })
});

#[test]
fn other_refusals_are_noticed() {
    for difference in [
        difference::<FormBeforeStalePaths>,
        difference::<FormBeforeStaleEvent>,
        difference::<PathsFirst>,
        difference::<BothReadFirst>,
        difference::<PathsUnheldToTheirTable>,
        difference::<NoFormWithoutPlace>,
    ] {
        let difference = difference();
        assert!(difference.contains("model: Err") || difference.contains("ours:  Err"));
        assert!(difference.contains("\nsmallest: "), "{difference}");
    }
}

/// The call, and what it does besides: answers that are to be 'none', behind the paths or among
/// them, stay as they were, or answers are set on a refusal.
struct Careless<const WAY: u32>;

const BEHIND_KEPT: u32 = 0;
const NONE_KEPT: u32 = 1;
const SET_ON_REFUSAL: u32 = 2;
const SET_ON_NO_PATHS: u32 = 3;
const LAST_SET_ON_REFUSAL: u32 = 4;

impl<const WAY: u32> Model for Careless<WAY> {
    const NAME: &'static str = "careless";
    type Case = Search;
    type Answer = Found;

    fn case(rng: &mut Rng) -> Search {
        Lookup::case(rng)
    }

    fn expected(case: &Search) -> Result<Found, Refusal> {
        Lookup::expected(case)
    }

    fn allows(case: &Search, expected: &Found, found: &Found) -> bool {
        Lookup::allows(case, expected, found)
    }
}

impl<const WAY: u32> Calls for Careless<WAY> {
    fn ask(case: &Search, behind: Behind) -> Result<Answered<Found>, String> {
        let event = Given::new(&case.event, behind);
        let paths = Given::new(&case.paths, behind);
        let mut lent = Lent::new(behind);
        let answers: &mut [u32; PATHS] = lent.lend_array();
        let before = *answers;
        let answer = eon::lookup(
            event.text(),
            event.table(),
            paths.text(),
            paths.table(),
            answers,
        );
        let count = case.reached().map_or(0, |reached| reached.len());
        match &answer {
            Ok(_) if WAY == BEHIND_KEPT => {
                answers[count..].copy_from_slice(&before[count..]);
            }
            Ok(_) if WAY == NONE_KEPT => {
                let among = answers[..count].iter_mut().zip(before);
                among
                    .filter(|(answer, _)| **answer == NONE)
                    .for_each(|(answer, before)| *answer = before);
            }
            Err(_) if WAY == SET_ON_REFUSAL => *answers = [NONE; PATHS],
            Err(_) if WAY == LAST_SET_ON_REFUSAL => answers[PATHS - 1] = NONE,
            Err(refusal) if WAY == SET_ON_NO_PATHS && refusal.kind.number() == NO_PATHS => {
                *answers = [NONE; PATHS];
            }
            _ => {}
        }
        let found = lent.answered_array(answer)?;
        Ok(found.map(|(steps, answers)| Found { steps, answers }))
    }
}

#[test]
fn answers_that_are_not_set_are_noticed() {
    for difference in [
        difference::<Careless<BEHIND_KEPT>>,
        difference::<Careless<NONE_KEPT>>,
    ] {
        let difference = difference();
        assert!(difference.contains("ours:  Ok(Found"), "{difference}");
    }
}

#[test]
fn answers_that_are_set_on_a_refusal_are_noticed() {
    for difference in [
        difference::<Careless<SET_ON_REFUSAL>>,
        difference::<Careless<SET_ON_NO_PATHS>>,
        difference::<Careless<LAST_SET_ON_REFUSAL>>,
    ] {
        let difference = difference();
        assert!(
            difference.contains(" holds 4294967295, not "),
            "{difference}"
        );
    }
}

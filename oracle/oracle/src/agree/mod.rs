//! Rows of a proof file held against the original: what they say is its answer, and not ours. Rows
//! of calls that it does not have are held against the models of these.

mod parse;

use crate::models::Model;
use crate::models::lookup::{Lookup, Search};
use crate::models::pick::{Hit, RecordAt, RecordsIn};
use crate::protocol::Answer;
use crate::refusal::{Refusal, word};
use parse::{Fact, Question, counted};
use std::fmt;

/// How the rows of a file stand to the original and the models.
#[derive(Debug, Default, PartialEq, Eq)]
pub struct Agreement {
    pub agreeing: usize,
    pub differing: Vec<Difference>,
    /// The names of the rows that are not read.
    pub unread: Vec<String>,
}

/// A row that says otherwise than the original or a model: both answers in numbers.
#[derive(Debug, PartialEq, Eq)]
pub struct Difference {
    pub row: String,
    pub said: Vec<u32>,
    pub asked: Asked,
    pub answer: Vec<u32>,
}

/// Who was asked.
#[derive(Clone, Copy, Debug, PartialEq, Eq)]
pub enum Asked {
    Original,
    Model,
}

/// Asks the original, or a model, what each row of a file says.
pub fn agree(file: &str) -> Agreement {
    let mut agreement = Agreement::default();
    for (name, statement) in rows(file) {
        match parse::facts(&statement) {
            Some(facts) => agreement.hold(name, facts),
            None => agreement.unread.push(name.to_owned()),
        }
    }
    agreement
}

impl Agreement {
    fn hold(&mut self, name: &str, facts: Vec<Fact>) {
        let several = facts.len() > 1;
        for (at, fact) in facts.into_iter().enumerate() {
            let (asked, mut answer) = fact.question.answer();
            answer.truncate(fact.shown);
            if answer == fact.numbers {
                self.agreeing += 1;
            } else {
                let row = if several {
                    format!("{name} {}", at + 1)
                } else {
                    name.to_owned()
                };
                self.differing.push(Difference {
                    row,
                    said: fact.numbers,
                    asked,
                    answer,
                });
            }
        }
    }
}

impl fmt::Display for Agreement {
    fn fmt(&self, f: &mut fmt::Formatter<'_>) -> fmt::Result {
        let (differing, unread) = (self.differing.len(), self.unread.len());
        write!(
            f,
            "{} rows agree, {differing} differ, {unread} are not read",
            self.agreeing
        )?;
        for difference in &self.differing {
            difference.fmt(f)?;
        }
        if unread > 0 {
            write!(f, "\n  not read: {}", self.unread.join(" "))?;
        }
        Ok(())
    }
}

impl fmt::Display for Difference {
    fn fmt(&self, f: &mut fmt::Formatter<'_>) -> fmt::Result {
        let Self {
            row, said, answer, ..
        } = self;
        let asked = match self.asked {
            Asked::Original => "the original:",
            Asked::Model => "the model:   ",
        };
        write!(
            f,
            "\n  {row}\n    the row:      {said:?}\n    {asked} {answer:?}"
        )
    }
}

/// The name and the statement of each row: from the line `NAME : STATEMENT` to the line that begins
/// the proof, with `unfolding` or with `NAME = refl`.
fn rows(file: &str) -> Vec<(&str, String)> {
    let mut rows = Vec::new();
    let mut open: Option<(&str, String)> = None;
    for line in file.lines() {
        if let Some(row) = start(line) {
            open = Some(row);
        } else if let Some((name, mut statement)) = open.take() {
            if line.starts_with(' ') {
                statement += "\n";
                statement += line;
                open = Some((name, statement));
            } else if line.starts_with("unfolding ") || line == format!("{name} = refl") {
                rows.push((name, statement));
            }
        }
    }
    rows
}

fn start(line: &str) -> Option<(&str, String)> {
    let (name, statement) = line.split_once(" :")?;
    let is_name = !name.contains(char::is_whitespace) && !name.starts_with("--");
    let is_statement = statement.is_empty() || statement.starts_with(' ');
    (is_name && is_statement).then(|| (name, statement.to_owned()))
}

impl Question {
    /// Who was asked, and 0 and the answer, or the five numbers of a refusal.
    fn answer(&self) -> (Asked, Vec<u32>) {
        let (asked, answer) = match self {
            Self::Original(case) => (Asked::Original, in_words(case.answer())),
            Self::RecordAt(click) => {
                let record = RecordAt::expected(click);
                (Asked::Model, record.map(|record| vec![word(record)]))
            }
            Self::RecordsIn(selection) => {
                let hits = RecordsIn::expected(selection);
                let words = |hits: Vec<Hit>| hits.iter().flat_map(hit_words).collect();
                (Asked::Model, hits.map(words))
            }
            Self::Lookup(search) => (Asked::Model, lookup_words(search)),
        };
        let numbers = match answer {
            Ok(words) => [vec![0], words].concat(),
            Err(refusal) => refusal.numbers().to_vec(),
        };
        (asked, numbers)
    }
}

fn in_words(answer: Answer) -> Result<Vec<u32>, Refusal> {
    match answer {
        Answer::Words(words) => Ok(words),
        Answer::Bytes(bytes) => Ok(bytes.into_iter().map(u32::from).collect()),
        Answer::Truth(truth) => Ok(vec![u32::from(truth)]),
        Answer::Refused(refusal) => Err(refusal),
    }
}

/// The steps, and how many records each path reaches with their numbers.
fn lookup_words(search: &Search) -> Result<Vec<u32>, Refusal> {
    let steps = Lookup::expected(search)?.steps;
    let reached = search.reached()?.into_iter();
    let reached = reached.map(|records| records.into_iter().map(word).collect());
    Ok([vec![word(steps)], counted(reached.collect())].concat())
}

fn hit_words(hit: &Hit) -> [u32; 3] {
    [hit.record, hit.start, hit.end].map(word)
}

#[cfg(test)]
mod tests {
    use super::*;

    const FILE: &str = "\
-- A head : \"1\" equals \"2\"
use mathlib.Core.List.{[], ◌∷◌}

-- a row
two_values : \"1 2\" is_written \"[1, 2]\"
unfolding writes bytes
two_values = refl

table :
    (\"\" has_records 5 ∷ 0 ∷ 0 ∷ 0 ∷ 1 ∷ [])  -- P1
    × (\"]\" is_refused 6 ∷ 0 ∷ 1 ∷ 0 ∷ 0 ∷ [])  -- P2
    × (\"'''\" is_no_string 18)
unfolding reads shows bytes
table = (refl, refl, refl)

abbrev one : List ℕ
one = 1 ∷ []

two : List ℕ
two = 2 ∷ []

unfoldable pub three : List ℕ
unfolding reads
three = 3 ∷ []

named : reads (bytes \"a\") ≡ one
unfolding reads bytes
named = refl

bare : one ≡ two
bare = refl

same : \"[1]\" equals \"[2]\"
unfolding compares bytes
same = refl
";

    fn difference(row: &str, said: &[u32], asked: Asked, answer: &[u32]) -> Difference {
        Difference {
            row: row.to_owned(),
            said: said.to_vec(),
            asked,
            answer: answer.to_vec(),
        }
    }

    #[test]
    fn rows_of_a_file() {
        let names: Vec<&str> = rows(FILE).iter().map(|(name, _)| *name).collect();
        assert_eq!(names, ["two_values", "table", "named", "bare", "same"]);
    }

    #[test]
    fn rows_against_the_original() {
        let agreement = agree(FILE);
        assert_eq!(agreement.agreeing, 3);
        assert_eq!(agreement.unread, ["named", "bare"]);
        let difference = |row, said, answer| difference(row, said, Asked::Original, answer);
        assert_eq!(
            agreement.differing,
            [
                difference("table 2", &[6, 0, 1, 0, 0], &[13, 0, 1, 0, 0]),
                difference("same", &[0, 1], &[0, 0]),
            ]
        );
    }

    const PICKED: &str = "\
midway : \"// c\\n1\" offset 4 picks 0
unfolding picks bytes
midway = refl

beyond : \"1 2\" offset 18446744073709551615 picks 2
unfolding picks bytes
beyond = refl

later : \"// c\\n1\" offset 4 picks 1
unfolding picks bytes
later = refl

no-byte : \"\" offset 3 refused_by 27
unfolding picks bytes
no-byte = refl

blank : \" \" offset 3 refused_by 27
unfolding picks bytes
blank = refl

two : \"// c\\n1\" range 3 up_to 6 hits (0 ∷ 0 ∷ 4 ∷ 1 ∷ 5 ∷ 6 ∷ [])
unfolding finds bytes
two = refl

none : \"1\" range 1 up_to 9 hits []
unfolding finds bytes
none = refl

touched :
    (\"1\" range 0 up_to 1 hits (0 ∷ 0 ∷ 1 ∷ []))
    × (\"[1]\" range 0 up_to 1 hits (0 ∷ 0 ∷ 3 ∷ 1 ∷ 1 ∷ 2 ∷ []))
unfolding finds bytes
touched = (refl, refl)

unread : \"1\" range 0 up_to one hits []
unfolding finds bytes
unread = refl
";

    #[test]
    fn rows_against_the_models() {
        let agreement = agree(PICKED);
        assert_eq!(agreement.agreeing, 6);
        assert_eq!(agreement.unread, ["unread"]);
        let difference = |row, said, answer| difference(row, said, Asked::Model, answer);
        assert_eq!(
            agreement.differing,
            [
                difference("later", &[0, 1], &[0, 0]),
                difference("blank", &[27, 0, 0, 0, 0], &[0, 0]),
                difference("touched 2", &[0, 0, 0, 3, 1, 1, 2], &[0, 0, 0, 3]),
            ]
        );
        let later = "\n  later\n    the row:      [0, 1]\n    the model:    [0, 0]\n";
        assert!(agreement.to_string().contains(later), "{agreement}");
    }

    const LOOKED_UP: &str = "\
two : \"a: 1 b: 2 a: {b: 3}\" along \"[[a] [c] [a b]]\" takes 9 reaching ((2 ∷ 6 ∷ []) ∷ [] ∷ (8 ∷ []) ∷ [])
unfolding looks bytes
two = refl

none : \"a: 1\" along \"[]\" takes 1 reaching []
unfolding looks bytes
none = refl

no-list : \"a: 1\" along \"[a]\" refused_by 28
unfolding looks bytes
no-list = refl

wrong :
    (\"a: 1 a: 2\" along \"[[a]]\" takes 5 reaching ((2 ∷ []) ∷ []))
    × (\"a: 1 a: 2\" along \"[[a]]\" takes 4 reaching ((2 ∷ 4 ∷ []) ∷ []))
    × (\"a: 1 a: 2\" along \"[[a]]\" takes 5 reaching ((4 ∷ 2 ∷ []) ∷ []))
    × (\"a: 1\" along \"[[a] [b]]\" takes 3 reaching ((2 ∷ []) ∷ []))
    × (\"a: 1\" along \"[[a]]\" refused_by 28)
    × (\"a: ]\" along \"[a]\" refused_by 28)
unfolding looks bytes
wrong = (refl, refl, refl, refl, refl, refl)
";

    #[test]
    fn rows_against_the_lookup() {
        let agreement = agree(LOOKED_UP);
        assert_eq!((agreement.agreeing, agreement.unread), (3, vec![]));
        let difference = |row, said, answer| difference(row, said, Asked::Model, answer);
        assert_eq!(
            agreement.differing,
            [
                difference("wrong 1", &[0, 5, 1, 2], &[0, 5, 2, 2, 4]),
                difference("wrong 2", &[0, 4, 2, 2, 4], &[0, 5, 2, 2, 4]),
                difference("wrong 3", &[0, 5, 2, 4, 2], &[0, 5, 2, 2, 4]),
                difference("wrong 4", &[0, 3, 1, 2], &[0, 3, 1, 2, 0]),
                difference("wrong 5", &[28, 0, 0, 0, 0], &[0, 3, 1, 2]),
                difference("wrong 6", &[28, 0, 0, 0, 0], &[6, 3, 4, 0, 0]),
            ]
        );
    }

    #[test]
    fn as_lines() {
        let text = agree(FILE).to_string();
        assert!(text.starts_with("3 rows agree, 2 differ, 2 are not read\n  table 2\n"));
        assert!(text.ends_with("\n  not read: named bare"));
        assert_eq!(
            agree("").to_string(),
            "0 rows agree, 0 differ, 0 are not read"
        );
    }

    #[test]
    fn only_what_is_shown_is_compared() {
        let row = |count: u32| {
            format!(
                "r : take {count} (reads (bytes \"1\")) ≡ 0 ∷ 2 ∷ []\nunfolding reads\nr = refl\n"
            )
        };
        assert_eq!(agree(&row(2)).agreeing, 1);
        assert_eq!(agree(&row(3)).differing.len(), 1);
    }

    /// What `oracle rows` prints is read whole, and agrees.
    #[test]
    fn printed_rows_agree() {
        let agreement = agree(&crate::rows(300, 5));
        assert_eq!((agreement.agreeing, agreement.unread), (300, vec![]));
    }
}

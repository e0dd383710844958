//! The statement of a row, by recursive descent. The words are those of `proofs/Computing.antt` and
//! of the requests' rows.

use crate::calls::Options;
use crate::models::lookup::Search;
use crate::models::pick::{Click, Selection};
use crate::models::{Handed, Table};
use crate::protocol::Case;
use std::iter::repeat_n;

/// What a row says: the first numbers of the answer to a question, as many as are shown. The numbers
/// are 0 and the answer, or the five of a refusal.
#[derive(Debug, PartialEq, Eq)]
pub struct Fact {
    pub question: Question,
    pub shown: usize,
    pub numbers: Vec<u32>,
}

/// Put to the original, or to the model of a call that it does not have.
#[derive(Debug, PartialEq, Eq)]
pub enum Question {
    Original(Case),
    RecordAt(Click),
    RecordsIn(Selection),
    Lookup(Search),
}

impl Fact {
    fn whole(question: Question, numbers: Vec<u32>) -> Self {
        Self {
            question,
            shown: usize::MAX,
            numbers,
        }
    }
}

/// The facts of a statement: one, or all of a product; none if the statement is not read.
pub fn facts(statement: &str) -> Option<Vec<Fact>> {
    let tokens = tokens(statement)?;
    let mut parser = Parser { tokens: &tokens };
    let facts = parser.facts()?;
    parser.tokens.is_empty().then_some(facts)
}

#[derive(Clone, Debug, PartialEq, Eq)]
enum Token<'s> {
    Open,
    Close,
    Text(String),
    Number(usize),
    Word(&'s str),
}

fn tokens(statement: &str) -> Option<Vec<Token<'_>>> {
    let mut tokens = Vec::new();
    let mut rest = statement.trim_start();
    while let Some(first) = rest.chars().next() {
        match first {
            '(' => {
                tokens.push(Token::Open);
                rest = &rest[1..];
            }
            ')' => {
                tokens.push(Token::Close);
                rest = &rest[1..];
            }
            '"' => {
                let (text, behind) = quoted(&rest[1..])?;
                tokens.push(Token::Text(text));
                rest = behind;
            }
            _ if rest.starts_with("--") => {
                rest = rest.split_once('\n').map_or("", |(_, next)| next)
            }
            _ => {
                let is_end = |c: char| c.is_whitespace() || "()\"".contains(c);
                let (word, behind) = rest.split_at(rest.find(is_end).unwrap_or(rest.len()));
                tokens.push(number(word).map_or(Token::Word(word), Token::Number));
                rest = behind;
            }
        }
        rest = rest.trim_start();
    }
    Some(tokens)
}

fn number(word: &str) -> Option<usize> {
    match word.strip_prefix("0x") {
        Some(digits) => usize::from_str_radix(digits, 16).ok(),
        None => word.parse().ok(),
    }
}

/// A text behind its opening quote, with Rust's escapes, and what is behind its closing one.
fn quoted(source: &str) -> Option<(String, &str)> {
    let mut text = String::new();
    let mut rest = source.chars();
    loop {
        match rest.next()? {
            '"' => return Some((text, rest.as_str())),
            '\\' => {
                let (character, behind) = escaped(rest.as_str())?;
                text.push(character);
                rest = behind.chars();
            }
            character => text.push(character),
        }
    }
}

/// The character behind a backslash, and what is behind it.
fn escaped(source: &str) -> Option<(char, &str)> {
    let mut rest = source.chars();
    let character = match rest.next()? {
        'n' => '\n',
        'r' => '\r',
        't' => '\t',
        '0' => '\0',
        same @ ('\\' | '"' | '\'') => same,
        'u' => {
            let (digits, behind) = rest.as_str().strip_prefix('{')?.split_once('}')?;
            let code = u32::from_str_radix(digits, 16).ok()?;
            return Some((char::from_u32(code)?, behind));
        }
        _ => return None,
    };
    Some((character, rest.as_str()))
}

struct Parser<'t> {
    tokens: &'t [Token<'t>],
}

/// Each method takes what it names off the front, or answers none.
impl<'t> Parser<'t> {
    fn next(&mut self) -> Option<&'t Token<'t>> {
        let (first, rest) = self.tokens.split_first()?;
        self.tokens = rest;
        Some(first)
    }

    /// Whether the token stands in front; it is taken then.
    fn takes(&mut self, token: &Token<'_>) -> bool {
        let takes = self.tokens.first() == Some(token);
        if takes {
            self.tokens = &self.tokens[1..];
        }
        takes
    }

    fn expect(&mut self, token: &Token<'_>) -> Option<()> {
        self.takes(token).then_some(())
    }

    fn word(&mut self) -> Option<&'t str> {
        match self.next()? {
            Token::Word(word) => Some(word),
            _ => None,
        }
    }

    fn count(&mut self) -> Option<usize> {
        match self.next()? {
            Token::Number(number) => Some(*number),
            _ => None,
        }
    }

    /// A number that an answer can have.
    fn number(&mut self) -> Option<u32> {
        u32::try_from(self.count()?).ok()
    }

    fn text(&mut self) -> Option<Vec<u8>> {
        match self.next()? {
            Token::Text(text) => Some(text.clone().into_bytes()),
            _ => None,
        }
    }

    /// A fact, or a product of facts in brackets.
    fn facts(&mut self) -> Option<Vec<Fact>> {
        if self.tokens.first() != Some(&Token::Open) {
            return Some(vec![self.fact()?]);
        }
        let mut facts = Vec::new();
        loop {
            self.expect(&Token::Open)?;
            facts.push(self.fact()?);
            self.expect(&Token::Close)?;
            if !self.takes(&Token::Word("×")) {
                return Some(facts);
            }
        }
    }

    fn fact(&mut self) -> Option<Fact> {
        match self.tokens.first()? {
            Token::Text(_) => {
                let text = self.text()?;
                self.relation(text)
            }
            Token::Word("take") => {
                self.next();
                let shown = self.count()?;
                self.expect(&Token::Open)?;
                let case = self.call()?;
                self.expect(&Token::Close)?;
                let numbers = self.equal()?;
                Some(Fact {
                    question: Question::Original(case),
                    shown,
                    numbers,
                })
            }
            _ => {
                let question = Question::Original(self.call()?);
                Some(Fact::whole(question, self.equal()?))
            }
        }
    }

    /// A row's own word, between a text and what is said of it.
    fn relation(&mut self, text: Vec<u8>) -> Option<Fact> {
        let (case, numbers) = match self.word()? {
            "has_tokens" => (Case::Tokens(text), accepted(self.list()?)),
            "has_records" => (Case::Read(text), accepted(self.list()?)),
            "is_refused" => (Case::Read(text), self.list()?),
            "is_written" => (Case::Format(text, Options::default()), self.answer()?),
            "unquotes_to" => (Case::Unquote(text), self.answer()?),
            "is_no_string" => (Case::Unquote(text), self.unplaced()?),
            "equals" => (Case::Compare(text, self.text()?), vec![0, 1]),
            "differs_from" => (Case::Compare(text, self.text()?), vec![0, 0]),
            "offset" => return self.record_at(text),
            "range" => return self.records_in(text),
            "along" => return self.lookup(text),
            _ => return None,
        };
        Some(Fact::whole(Question::Original(case), numbers))
    }

    /// An offset, and the record that it picks or the refusal.
    fn record_at(&mut self, text: Vec<u8>) -> Option<Fact> {
        let click = Click {
            handed: Handed::new(text, Table::Finished),
            offset: self.count()?,
        };
        let numbers = match self.word()? {
            "picks" => accepted(vec![self.number()?]),
            "refused_by" => self.unplaced()?,
            _ => return None,
        };
        Some(Fact::whole(Question::RecordAt(click), numbers))
    }

    /// A range, and its hits in a list that has room for all: three numbers each.
    fn records_in(&mut self, text: Vec<u8>) -> Option<Fact> {
        let start = self.count()?;
        self.expect(&Token::Word("up_to"))?;
        let end = self.count()?;
        self.expect(&Token::Word("hits"))?;
        let selection = Selection {
            handed: Handed::new(text, Table::Finished),
            start,
            end,
            room: usize::MAX,
        };
        let numbers = accepted(self.list()?);
        Some(Fact::whole(Question::RecordsIn(selection), numbers))
    }

    /// A path text, and the steps with all records that each path reaches, or the refusal.
    fn lookup(&mut self, event: Vec<u8>) -> Option<Fact> {
        let search = Search {
            event: Handed::new(event, Table::Finished),
            paths: Handed::new(self.text()?, Table::Finished),
        };
        let numbers = match self.word()? {
            "takes" => {
                let steps = self.number()?;
                self.expect(&Token::Word("reaching"))?;
                accepted([vec![steps], counted(self.lists()?)].concat())
            }
            "refused_by" => self.unplaced()?,
            _ => return None,
        };
        Some(Fact::whole(Question::Lookup(search), numbers))
    }

    /// A refusal by its number, which has no place.
    fn unplaced(&mut self) -> Option<Vec<u32>> {
        Some(vec![self.number()?, 0, 0, 0, 0])
    }

    fn call(&mut self) -> Option<Case> {
        let case = match self.word()? {
            "reads" => Case::Read(self.bytes()?),
            "tokens_of" => Case::Tokens(self.bytes()?),
            "writes" => Case::Format(self.bytes()?, Options::default()),
            "writes_by" => {
                let options = self.settings()?;
                Case::Format(self.bytes()?, options)
            }
            "shows" => Case::Unquote(self.bytes()?),
            "ident" => Case::Identifier(self.bytes()?),
            "compares" => Case::Compare(self.bytes()?, self.bytes()?),
            _ => return None,
        };
        Some(case)
    }

    fn settings(&mut self) -> Option<Options> {
        self.expect(&Token::Open)?;
        self.expect(&Token::Word("settings"))?;
        let options = Options {
            indentation: self.bytes()?,
            newline: self.bytes()?,
            space: self.bytes()?,
            separator: self.bytes()?,
            braces: self.word()?.parse().ok()?,
        };
        self.expect(&Token::Close)?;
        Some(options)
    }

    /// What a call is said to answer.
    fn equal(&mut self) -> Option<Vec<u32>> {
        self.expect(&Token::Word("≡"))?;
        self.list()
    }

    /// A text that is said to be the answer.
    fn answer(&mut self) -> Option<Vec<u32>> {
        Some(accepted(numbers(&self.text()?)))
    }

    /// An argument that is a list of bytes.
    fn bytes(&mut self) -> Option<Vec<u8>> {
        let numbers = self.argument()?;
        numbers.into_iter().map(|n| u8::try_from(n).ok()).collect()
    }

    /// Numbers in front, and parts joined.
    fn list(&mut self) -> Option<Vec<u32>> {
        let mut list = Vec::new();
        loop {
            while let Some(Token::Number(_)) = self.tokens.first() {
                list.push(self.number()?);
                self.expect(&Token::Word("∷"))?;
            }
            list.extend(self.part()?);
            if !self.takes(&Token::Word("++")) {
                return Some(list);
            }
        }
    }

    fn part(&mut self) -> Option<Vec<u32>> {
        if self.takes(&Token::Word("bytes")) {
            Some(numbers(&self.text()?))
        } else if self.takes(&Token::Word("replicate")) {
            let count = self.count()?;
            Some(repeat_n(self.number()?, count).collect())
        } else if self.takes(&Token::Word("repeated")) {
            let count = self.count()?;
            Some(self.argument()?.repeat(count))
        } else {
            self.argument()
        }
    }

    /// A list of lists: lists in front, each an argument, and the empty one; any of it in brackets.
    fn lists(&mut self) -> Option<Vec<Vec<u32>>> {
        let mut lists = Vec::new();
        loop {
            let rest = self.tokens;
            match self.argument() {
                Some(list) if self.takes(&Token::Word("∷")) => lists.push(list),
                _ => {
                    self.tokens = rest;
                    break;
                }
            }
        }
        if !self.takes(&Token::Word("[]")) {
            self.expect(&Token::Open)?;
            lists.extend(self.lists()?);
            self.expect(&Token::Close)?;
        }
        Some(lists)
    }

    /// A list where it is an argument: the empty one, or any in brackets.
    fn argument(&mut self) -> Option<Vec<u32>> {
        if self.takes(&Token::Word("[]")) {
            return Some(Vec::new());
        }
        self.expect(&Token::Open)?;
        let list = self.list()?;
        self.expect(&Token::Close)?;
        Some(list)
    }
}

fn numbers(bytes: &[u8]) -> Vec<u32> {
    bytes.iter().copied().map(u32::from).collect()
}

/// Each list behind its length.
pub fn counted(lists: Vec<Vec<u32>>) -> Vec<u32> {
    let counted = lists.into_iter().flat_map(|list| {
        let length = u32::try_from(list.len()).expect("a list is short");
        [vec![length], list].concat()
    });
    counted.collect()
}

fn accepted(mut answer: Vec<u32>) -> Vec<u32> {
    answer.insert(0, 0);
    answer
}

#[cfg(test)]
mod tests {
    use super::*;

    fn fact(statement: &str) -> Fact {
        let facts = facts(statement).unwrap_or_else(|| panic!("{statement} is not read"));
        let [fact] = <[Fact; 1]>::try_from(facts).expect("one fact");
        fact
    }

    fn whole(case: Case, numbers: &[u32]) -> Fact {
        Fact::whole(Question::Original(case), numbers.to_vec())
    }

    fn written(text: &[u8]) -> Case {
        Case::Format(text.to_vec(), Options::default())
    }

    #[test]
    fn each_word_of_a_row() {
        let text = || b"a".to_vec();
        for (statement, case, numbers) in [
            (
                "\"a\" has_tokens 10 ∷ 0 ∷ 1 ∷ []",
                Case::Tokens(text()),
                &[0, 10, 0, 1][..],
            ),
            ("\"a\" has_tokens []", Case::Tokens(text()), &[0]),
            ("\"a\" has_records 1 ∷ []", Case::Read(text()), &[0, 1]),
            ("\"a\" is_refused 13 ∷ 0 ∷ []", Case::Read(text()), &[13, 0]),
            ("\"a\" is_written \"b\"", written(b"a"), &[0, 98]),
            ("\"a\" unquotes_to \"\"", Case::Unquote(text()), &[0]),
            (
                "\"a\" is_no_string 17",
                Case::Unquote(text()),
                &[17, 0, 0, 0, 0],
            ),
            (
                "\"a\" equals \"b\"",
                Case::Compare(text(), b"b".to_vec()),
                &[0, 1],
            ),
            (
                "\"a\" differs_from \"b\"",
                Case::Compare(text(), b"b".to_vec()),
                &[0, 0],
            ),
        ] {
            assert_eq!(fact(statement), whole(case, numbers), "{statement}");
        }
    }

    #[test]
    fn each_word_of_a_requests_row() {
        let at = |offset, numbers: &[u32]| {
            let handed = Handed::new("a", Table::Finished);
            let click = Click { handed, offset };
            Fact::whole(Question::RecordAt(click), numbers.to_vec())
        };
        let within = |start, end, numbers: &[u32]| {
            let selection = Selection {
                handed: Handed::new("a", Table::Finished),
                start,
                end,
                room: usize::MAX,
            };
            Fact::whole(Question::RecordsIn(selection), numbers.to_vec())
        };
        for (statement, expected) in [
            ("\"a\" offset 7 picks 1", at(7, &[0, 1])),
            (
                "\"a\" offset 18446744073709551615 picks 0",
                at(usize::MAX, &[0, 0]),
            ),
            ("\"a\" offset 0 refused_by 27", at(0, &[27, 0, 0, 0, 0])),
            (
                "\"a\" range 2 up_to 5 hits (1 ∷ 2 ∷ 3 ∷ [])",
                within(2, 5, &[0, 1, 2, 3]),
            ),
            (
                "\"a\" range 0 up_to 18446744073709551615 hits []",
                within(0, usize::MAX, &[0]),
            ),
            (
                "\"a\" along \"b\" takes 7 reaching ((2 ∷ 4 ∷ []) ∷ [] ∷ [])",
                along(&[0, 7, 2, 2, 4, 0]),
            ),
            ("\"a\" along \"b\" refused_by 28", along(&[28, 0, 0, 0, 0])),
        ] {
            assert_eq!(fact(statement), expected, "{statement}");
        }
    }

    fn along(numbers: &[u32]) -> Fact {
        let search = Search {
            event: Handed::new("a", Table::Finished),
            paths: Handed::new("b", Table::Finished),
        };
        Fact::whole(Question::Lookup(search), numbers.to_vec())
    }

    /// Each list behind its length.
    #[test]
    fn lists_of_lists() {
        for (lists, numbers) in [
            ("[]", &[][..]),
            ("([])", &[]),
            ("[] ∷ []", &[0]),
            ("([] ∷ [])", &[0]),
            ("[] ∷ [] ∷ []", &[0, 0]),
            ("(2 ∷ []) ∷ []", &[1, 2]),
            ("((2 ∷ []) ∷ [])", &[1, 2]),
            ("(((2 ∷ []) ∷ []))", &[1, 2]),
            ("((2 ∷ [])) ∷ []", &[1, 2]),
            ("(2 ∷ 4 ∷ []) ∷ [] ∷ []", &[2, 2, 4, 0]),
            ("[] ∷ (2 ∷ 4 ∷ []) ∷ []", &[0, 2, 2, 4]),
            ("(2 ∷ []) ∷ ((4 ∷ []) ∷ [])", &[1, 2, 1, 4]),
            ("(2 ∷ []) ∷ (replicate 2 7) ∷ []", &[1, 2, 2, 7, 7]),
        ] {
            let statement = format!("\"a\" along \"b\" takes 9 reaching {lists}");
            let expected = along(&[&[0, 9], numbers].concat());
            assert_eq!(fact(&statement), expected, "{statement}");
        }
    }

    #[test]
    fn each_call() {
        let text = || b"a".to_vec();
        for (call, case) in [
            ("reads (bytes \"a\")", Case::Read(text())),
            ("tokens_of (97 ∷ [])", Case::Tokens(text())),
            ("writes (bytes \"a\")", written(b"a")),
            ("shows (bytes \"a\")", Case::Unquote(text())),
            ("ident []", Case::Identifier(vec![])),
            ("compares (bytes \"a\") []", Case::Compare(text(), vec![])),
        ] {
            assert_eq!(fact(&format!("{call} ≡ 7 ∷ []")), whole(case, &[7]));
        }
        let options = Options {
            indentation: b"i".to_vec(),
            newline: b"n".to_vec(),
            space: vec![],
            separator: vec![0xFF],
            braces: true,
        };
        assert_eq!(
            fact(
                "writes_by (settings (bytes \"i\") (bytes \"n\") [] (0xFF ∷ []) true) (bytes \"a\")\n    ≡ 0 ∷ bytes \"b\""
            ),
            whole(Case::Format(text(), options), &[0, 98])
        );
    }

    #[test]
    fn the_first_numbers() {
        let fact = fact("take 2 (reads (bytes \"a\")) ≡ 0 ∷ 1 ∷ []");
        let read = Case::Read(b"a".to_vec());
        assert_eq!(fact.question, Question::Original(read));
        assert_eq!((fact.shown, fact.numbers), (2, vec![0, 1]));
    }

    #[test]
    fn lists() {
        for (list, numbers) in [
            ("[]", &[][..]),
            ("0 ∷ 0x1F ∷ 0xfF ∷ []", &[0, 31, 255]),
            ("0 ∷ (1 ∷ [])", &[0, 1]),
            ("(((1 ∷ [])))", &[1]),
            ("replicate 3 7", &[7, 7, 7]),
            ("repeated 2 (bytes \"ab\")", &[97, 98, 97, 98]),
            ("repeated 0 (bytes \"ab\")", &[]),
            (
                "0 ∷ bytes \"a\" ++ replicate 2 1 ++ (2 ∷ 3 ∷ [])",
                &[0, 97, 1, 1, 2, 3],
            ),
            ("(bytes \"a\" ++ bytes \"b\") ++ 4 ∷ [] ++ []", &[97, 98, 4]),
        ] {
            assert_eq!(
                fact(&format!("reads [] ≡ {list}")).numbers,
                numbers,
                "{list}"
            );
        }
    }

    #[test]
    fn texts() {
        for (text, bytes) in [
            ("", &b""[..]),
            (r#"a\n\r\t\0\\\"\'b"#, b"a\n\r\t\0\\\"'b"),
            (r"\u{7}\u{e9}é", b"\x07\xC3\xA9\xC3\xA9"),
            ("-- (a) ≡ []", "-- (a) ≡ []".as_bytes()),
            (r"\\n", b"\\n"),
        ] {
            let expected = whole(Case::Unquote(bytes.to_vec()), &[18, 0, 0, 0, 0]);
            assert_eq!(fact(&format!("\"{text}\" is_no_string 18")), expected);
        }
    }

    #[test]
    fn products() {
        let facts = facts(
            "\n    (\"\" is_written \"\")  -- P1\n    × (reads (bytes \"a\") ≡ 5 ∷ [])  -- (P2\n    × (\"b\" equals \"b\")\n",
        );
        let expected = vec![
            whole(written(b""), &[0]),
            whole(Case::Read(b"a".to_vec()), &[5]),
            whole(Case::Compare(b"b".to_vec(), b"b".to_vec()), &[0, 1]),
        ];
        assert_eq!(facts, Some(expected));
    }

    #[test]
    fn what_is_not_read() {
        for statement in [
            "",
            "List ℕ",
            "\"a\" has_records",
            "\"a\" has_records 1 ∷",
            "\"a\" has_records 1 ∷ [] 2",
            "\"a\" has_records 1 ∷ [] × (\"a\" equals \"a\")",
            "\"a\" isLike \"a\"",
            "\"a\" equals",
            "\"a equals",
            "\"\\q\" equals \"a\"",
            "\"\\u{D800}\" equals \"a\"",
            "reads (bytes \"a\")",
            "reads (bytes \"a\" ≡ 1 ∷ []",
            "reads bytes \"a\" ≡ 1 ∷ []",
            "reads (256 ∷ []) ≡ 1 ∷ []",
            "reads (encode (97 ∷ [])) ≡ 1 ∷ []",
            "read_text (bytes \"a\") ≡ refused_with (nowhere 14)",
            "map ident (bytes \"a\" ∷ []) ≡ replicate 1 (0 ∷ [])",
            "writes_by (settings [] [] [] [] maybe) [] ≡ 0 ∷ []",
            "reads [] ≡ 4294967296 ∷ []",
            "reads [] ≡ 18446744073709551616 ∷ []",
            "\"a\" is_no_string 4294967296",
            "\"a\" offset 1",
            "\"a\" offset picks 1",
            "\"a\" offset 18446744073709551616 picks 1",
            "\"a\" offset 1 picks []",
            "\"a\" offset 1 hits []",
            "\"a\" range 1 up_to 2",
            "\"a\" range 1 2 hits []",
            "\"a\" range 1 up_to 2 picks 1",
            "\"a\" range 1 up_to 2 hits 1",
            "\"a\" range 1 up_to 2 hits (1 ∷ 2 ∷ 3)",
            "\"a\" along \"b\"",
            "\"a\" along [] takes 1 reaching []",
            "\"a\" along \"b\" takes 1",
            "\"a\" along \"b\" takes reaching []",
            "\"a\" along \"b\" takes 4294967296 reaching []",
            "\"a\" along \"b\" takes 1 reaching",
            "\"a\" along \"b\" takes 1 reaching 2",
            "\"a\" along \"b\" takes 1 reaching 2 ∷ []",
            "\"a\" along \"b\" takes 1 reaching (2 ∷ [])",
            "\"a\" along \"b\" takes 1 reaching (2 ∷ []) ∷",
            "\"a\" along \"b\" takes 1 reaching ((2 ∷ []) ∷ []",
            "\"a\" along \"b\" takes 1 reaching (2 ∷ 3) ∷ []",
            "\"a\" along \"b\" takes 1 reaching [] []",
            "\"a\" along \"b\" refused_by",
            "\"a\" along \"b\" picks 1",
            "(\"a\" equals \"a\") ×",
        ] {
            assert_eq!(facts(statement), None, "{statement}");
        }
    }
}

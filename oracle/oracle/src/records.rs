//! The record table of document 01, made from the original's tree.

use crate::refusal::word;
use eon_syntax::{Span, TokenTree, TokenValue};

/// Words in a record: kind, start, text end, end, records in it counting itself.
pub const WORDS: usize = 5;

pub const IDENTIFIER: u32 = 1;
pub const NUMBER: u32 = 2;
pub const STRING: u32 = 3;
pub const LIST: u32 = 4;
pub const MAP: u32 = 5;
pub const VARIANT: u32 = 6;
pub const PREFIX: u32 = 7;
pub const SUFFIX: u32 = 8;
pub const CLOSING: u32 = 9;

pub fn records(source: &str, tree: &TokenTree<'_>) -> Vec<u32> {
    let mut table = Table {
        source,
        words: Vec::new(),
    };
    table.tree(tree);
    table.words
}

/// Whether two tables, each with its text, are equal, spans aside.
pub fn same_records(a: (&str, &[u32]), b: (&str, &[u32])) -> bool {
    let ((a_text, a_words), (b_text, b_words)) = (a, b);
    a_words.len() == b_words.len()
        && a_words
            .chunks_exact(WORDS)
            .zip(b_words.chunks_exact(WORDS))
            .all(|(a, b)| {
                a[0] == b[0] && a[4] == b[4] && record_text(a_text, a) == record_text(b_text, b)
            })
}

/// The bytes that count in a comparison: a variant's name, none for lists and maps.
fn record_text<'s>(source: &'s str, record: &[u32]) -> &'s str {
    match record[0] {
        LIST | MAP => "",
        _ => &source[record[1] as usize..record[2] as usize],
    }
}

struct Table<'s> {
    source: &'s str,
    words: Vec<u32>,
}

impl Table<'_> {
    fn tree(&mut self, tree: &TokenTree<'_>) {
        self.comments(PREFIX, &tree.prefix_comments);
        self.value(tree);
        if let Some(comment) = tree.suffix_comment {
            self.comment(SUFFIX, comment);
        }
    }

    fn value(&mut self, tree: &TokenTree<'_>) {
        let span = tree.span.expect("a parsed value has a span");
        match &tree.value {
            TokenValue::Identifier(text) => self.leaf(IDENTIFIER, span, text),
            TokenValue::Number(text) => self.leaf(NUMBER, span, text),
            TokenValue::QuotedString(text) => self.leaf(STRING, span, text),
            TokenValue::List(list) => {
                let record = self.open(LIST, span, span.end);
                self.inside(&list.values, &list.closing_comments);
                self.close(record);
            }
            TokenValue::Map(map) => {
                let record = self.open(MAP, span, span.end);
                for pair in &map.key_values {
                    self.tree(&pair.key);
                    self.tree(&pair.value);
                }
                self.comments(CLOSING, &map.closing_comments);
                self.close(record);
            }
            TokenValue::Variant(variant) => {
                let name = variant.name_span.expect("a parsed variant has a name span");
                debug_assert_eq!(name.start, span.start, "a variant starts with its name");
                let record = self.open(VARIANT, span, name.end);
                self.inside(&variant.values, &variant.closing_comments);
                self.close(record);
            }
        }
    }

    fn leaf(&mut self, kind: u32, span: Span, text: &str) {
        debug_assert_eq!(&self.source[span.start..span.end], text);
        let record = self.open(kind, span, span.end);
        self.close(record);
    }

    fn inside(&mut self, values: &[TokenTree<'_>], closing_comments: &[&str]) {
        for value in values {
            self.tree(value);
        }
        self.comments(CLOSING, closing_comments);
    }

    fn comments(&mut self, kind: u32, comments: &[&str]) {
        for comment in comments {
            self.comment(kind, comment);
        }
    }

    fn comment(&mut self, kind: u32, comment: &str) {
        let span = self.span_of(comment);
        let record = self.open(kind, span, span.end);
        self.close(record);
    }

    /// The original keeps no spans of comments, but its comments are parts of the source.
    fn span_of(&self, comment: &str) -> Span {
        let start = (comment.as_ptr() as usize)
            .checked_sub(self.source.as_ptr() as usize)
            .expect("a comment is a part of the source");
        let end = start + comment.len();
        assert_eq!(self.source.get(start..end), Some(comment));
        Span { start, end }
    }

    /// Adds a record with its size to come; answers where its words start.
    fn open(&mut self, kind: u32, span: Span, text_end: usize) -> usize {
        let record = self.words.len();
        let (start, end) = (word(span.start), word(span.end));
        self.words.extend([kind, start, word(text_end), end, 0]);
        record
    }

    fn close(&mut self, record: usize) {
        let size = (self.words.len() - record) / WORDS;
        self.words[record + WORDS - 1] = word(size);
    }
}

//! Records by their parts.

use crate::records::{LIST, MAP, PREFIX, WORDS};

/// A record of document 01, with the bytes that are its text: a variant's name, none for lists and
/// maps.
#[derive(Clone, Copy, Debug, PartialEq, Eq)]
pub struct Record<'t> {
    pub kind: u32,
    pub start: usize,
    pub end: usize,
    /// Records in it, counting itself.
    pub size: usize,
    pub text: &'t [u8],
}

impl<'t> Record<'t> {
    /// From a record's five words.
    pub fn new(text: &'t [u8], words: &[u32]) -> Self {
        let place = |word: usize| words[word] as usize;
        let (kind, start, text_end) = (words[0], place(1), place(2));
        Self {
            kind,
            start,
            end: place(3),
            size: place(4),
            text: match kind {
                LIST | MAP => &[],
                _ => &text[start..text_end],
            },
        }
    }

    /// All of a table.
    pub fn all(text: &'t [u8], words: &[u32]) -> Vec<Self> {
        let records = words.chunks_exact(WORDS);
        records.map(|words| Self::new(text, words)).collect()
    }

    fn is_comment(&self) -> bool {
        self.kind >= PREFIX
    }

    /// The number of the root's record: comments may stand before it.
    pub fn root(records: &[Self]) -> usize {
        let root = records.iter().position(|record| !record.is_comment());
        root.expect("a tree has a root")
    }

    /// The records that stand in no other: the root with its comments.
    pub fn outermost(records: &[Self]) -> Vec<Self> {
        let mut outermost = Vec::new();
        let mut at = 0;
        while let Some(&record) = records.get(at) {
            outermost.push(record);
            at += record.size;
        }
        outermost
    }

    /// The numbers of the values in a container, keys and values by turns in a map. Comments are left
    /// out.
    pub fn values(records: &[Self], container: usize) -> Vec<usize> {
        let end = container + records[container].size;
        let mut values = Vec::new();
        let mut at = container + 1;
        while at < end {
            if !records[at].is_comment() {
                values.push(at);
            }
            at += records[at].size;
        }
        values
    }
}

#[cfg(test)]
mod tests {
    use super::*;
    use crate::models::{Handed, Table};

    #[test]
    fn records_have_their_text() {
        let sheet = Handed::new("// c\n\"A\"([1] k) // d", Table::Finished);
        let records = sheet.finished().expect("is finished");
        let texts: Vec<&[u8]> = records.iter().map(|record| record.text).collect();
        assert_eq!(texts, [&b"// c"[..], b"\"A\"", b"", b"1", b"k", b"// d"]);
        let variant = records[1];
        assert_eq!((variant.kind, variant.size), (6, 4));
        assert_eq!((variant.start, variant.end), (5, 15));
    }

    #[test]
    fn values_leave_comments_out() {
        let sheet = Handed::new(
            "// c\n[1 // d\n\n// e\n[2 3] // f\n4\n// g\n]",
            Table::Finished,
        );
        let records = sheet.finished().expect("is finished");
        let root = Record::root(&records);
        assert_eq!(root, 1);
        let values = Record::values(&records, root);
        let texts: Vec<&[u8]> = values.iter().map(|&at| records[at].text).collect();
        assert_eq!(texts, [&b"1"[..], b"", b"4"]);
        assert_eq!(Record::values(&records, values[1]).len(), 2);
        assert_eq!(Record::values(&records, values[0]), []);
    }
}

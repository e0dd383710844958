//! A place picked on the screen, by document 02, L1: the record at an offset, and the records of a
//! range. Records are numbered from 0, in table order.

use super::{Handed, Model, Part, Parts, Record, Table, fitting, room, texts};
use crate::calls;
use crate::generate::Rng;
use crate::records::NUMBER;
use crate::refusal::{NO_BYTE, Refusal, word};
use std::ops::Range;

/// The call that takes an offset.
pub struct RecordAt;

/// The call that takes a range.
pub struct RecordsIn;

#[derive(Clone, Debug, PartialEq, Eq)]
pub struct Click {
    pub handed: Handed,
    pub offset: usize,
}

#[derive(Clone, Debug, PartialEq, Eq)]
pub struct Selection {
    pub handed: Handed,
    pub start: usize,
    /// "its end not counted"
    pub end: usize,
    /// How many hits the lent list has room for.
    pub room: usize,
}

/// "each a record number with its span"
#[derive(Clone, Copy, Debug, PartialEq, Eq)]
pub struct Hit {
    pub record: usize,
    pub start: usize,
    pub end: usize,
}

impl Parts for Click {
    fn parts(&mut self) -> Vec<Part<'_>> {
        let offset = Part::Place(&mut self.offset);
        self.handed.parts().into_iter().chain([offset]).collect()
    }
}

impl Parts for Selection {
    fn parts(&mut self) -> Vec<Part<'_>> {
        let places = [&mut self.start, &mut self.end].map(Part::Place);
        let room = Part::Number(&mut self.room);
        let parts = self.handed.parts().into_iter();
        parts.chain(places).chain([room]).collect()
    }
}

impl Model for RecordAt {
    const NAME: &'static str = "record_at";
    type Case = Click;
    type Answer = usize;

    fn case(rng: &mut Rng) -> Click {
        const SOLE: usize = 60;
        let handed = handed(SOLE, rng);
        let offset = Sheet::of(&handed).place(rng);
        Click { handed, offset }
    }

    /// "Number 27 is for a table whose records cover no byte, in the offset call only, directly after
    /// 15."
    fn expected(case: &Click) -> Result<usize, Refusal> {
        let records = case.handed.finished()?;
        let holding = highest(&records, case.offset);
        let picked = holding.or_else(|| highest(&records, nearest(&records, case.offset)?));
        picked.ok_or(Refusal::unplaced(NO_BYTE))
    }
}

/// "the highest-numbered record whose span holds it"
fn highest(records: &[Record<'_>], byte: usize) -> Option<usize> {
    records
        .iter()
        .rposition(|record| bytes(record).contains(&byte))
}

/// "the nearest byte that a record covers; of one before and one after at equal distance, the earlier"
fn nearest(records: &[Record<'_>], offset: usize) -> Option<usize> {
    let covered = records.iter().flat_map(bytes);
    covered.min_by_key(|&byte| (byte.abs_diff(offset), byte))
}

/// The bytes of a record's span.
fn bytes(record: &Record<'_>) -> Range<usize> {
    record.start..record.end
}

impl Model for RecordsIn {
    const NAME: &'static str = "records_in";
    type Case = Selection;
    type Answer = Vec<Hit>;

    fn case(rng: &mut Rng) -> Selection {
        const SOLE: usize = 35;
        let handed = handed(SOLE, rng);
        let sheet = Sheet::of(&handed);
        let Range { start, end } = sheet.range(rng);
        let room = room(hits(&sheet.records, start..end).len(), rng);
        Selection {
            handed,
            start,
            end,
            room,
        }
    }

    /// "Too short a list is 14", the call's own and so the last.
    fn expected(case: &Selection) -> Result<Vec<Hit>, Refusal> {
        let records = case.handed.finished()?;
        fitting(hits(&records, case.start..case.end), case.room)
    }
}

/// "every record that shares a byte with the range, in table order"
fn hits(records: &[Record<'_>], range: Range<usize>) -> Vec<Hit> {
    let shares = |record: &Record<'_>| bytes(record).any(|byte| range.contains(&byte));
    let numbered = records.iter().enumerate();
    numbered
        .filter(|(_, record)| shares(record))
        .map(|(number, record)| Hit {
            record: number,
            start: record.start,
            end: record.end,
        })
        .collect()
}

/// A text and its table. So many in a hundred are one value with bytes around it that no record
/// covers: a list or a map without brackets covers all of its text.
fn handed(sole: usize, rng: &mut Rng) -> Handed {
    let text = match rng.below(100) {
        place if place < sole => texts::sole(rng),
        place if place < sole + 5 => vec![],
        place if place < sole + 8 => texts::blank(rng).into_bytes(),
        place if place < sole + 14 => texts::sheet(rng),
        _ => texts::text(rng),
    };
    let table = if rng.chance(5) {
        one_more(text.len())
    } else {
        Table::random(rng)
    };
    Handed::new(text, table)
}

/// Behind the finished table another record, of the whole text, which is none of the text's.
fn one_more(length: usize) -> Table {
    let end = word(length);
    Table::Longer(vec![NUMBER, 0, end, end, 1])
}

/// A text's records, none if it is refused: for places where answers change.
struct Sheet<'t> {
    records: Vec<Record<'t>>,
    length: usize,
}

impl<'t> Sheet<'t> {
    fn of(handed: &'t Handed) -> Self {
        let words = calls::read(&handed.text).unwrap_or_default();
        Self {
            records: Record::all(&handed.text, &words),
            length: handed.text.len(),
        }
    }

    /// Mostly an edge of a record or midway between two; else any, up to the greatest.
    fn place(&self, rng: &mut Rng) -> usize {
        const BEYOND: usize = 20;
        const GREATEST: usize = 2;
        match rng.below(20) {
            0..4 => rng.between(0, self.length),
            4..8 => self.edge(rng),
            8..16 => self.midway(rng),
            16 | 17 => self.length + rng.below(BEYOND),
            18 => usize::MAX - rng.below(GREATEST),
            _ => (rng.bits() >> rng.below(64)) as usize,
        }
    }

    /// A record's start or end, the byte before or the byte after it.
    fn edge(&self, rng: &mut Rng) -> usize {
        let Range { start, end } = self.span(rng);
        let edge = if rng.chance(50) { start } else { end };
        (edge + rng.below(3)).saturating_sub(1)
    }

    fn span(&self, rng: &mut Rng) -> Range<usize> {
        if self.records.is_empty() {
            return 0..self.length;
        }
        bytes(rng.pick_from(&self.records))
    }

    /// The middle between two records that stand apart, now and then the byte behind it; the text's
    /// middle if there are none.
    fn midway(&self, rng: &mut Rng) -> usize {
        match self.gap(rng) {
            Some(Range { start, end }) => (start - 1 + end) / 2 + usize::from(rng.chance(25)),
            None => self.length / 2,
        }
    }

    /// From the end of a record to the start of the next one, if some stand apart.
    fn gap(&self, rng: &mut Rng) -> Option<Range<usize>> {
        let outer = Record::outermost(&self.records);
        let between = outer.windows(2).map(|pair| pair[0].end..pair[1].start);
        let gaps: Vec<_> = between.filter(|gap| !gap.is_empty()).collect();
        (!gaps.is_empty()).then(|| rng.pick_from(&gaps).clone())
    }

    /// Ranges of every kind, empty and reversed ones too.
    fn range(&self, rng: &mut Rng) -> Range<usize> {
        const FEW: usize = 3;
        let (one, other) = (self.place(rng), self.place(rng));
        let (first, last) = (one.min(other), one.max(other));
        match rng.below(20) {
            0..7 => first..last,
            7 | 8 => last..first,
            9 => one..one,
            10 | 11 => one..one.saturating_add(rng.between(1, FEW)),
            12 | 13 => self.span(rng),
            14 | 15 => self.gap(rng).unwrap_or(first..last),
            16 | 17 => 0..self.length,
            18 => 0..last,
            _ => one..usize::MAX,
        }
    }
}

#[cfg(test)]
mod tests {
    use super::*;
    use crate::models::{self, Text};
    use std::collections::BTreeMap;

    fn finished(text: impl Into<Vec<u8>>) -> Handed {
        Handed::new(text, Table::Finished)
    }

    fn stale(text: impl Into<Vec<u8>>) -> Handed {
        Handed::new(text, Table::Short(1))
    }

    fn click(handed: Handed, offset: usize) -> Result<usize, Refusal> {
        RecordAt::expected(&Click { handed, offset })
    }

    fn select(handed: Handed, range: Range<usize>, room: usize) -> Result<Vec<Hit>, Refusal> {
        let Range { start, end } = range;
        RecordsIn::expected(&Selection {
            handed,
            start,
            end,
            room,
        })
    }

    /// The answers at the first offsets of a text, as many as are given.
    fn picks(text: &str, records: &[usize]) {
        for (offset, &record) in records.iter().enumerate() {
            assert_eq!(
                click(finished(text), offset),
                Ok(record),
                "{text:?} {offset}"
            );
        }
    }

    /// The hits of a range: record, start and end of each.
    fn shares(text: &str, range: Range<usize>, hits: &[(usize, usize, usize)]) {
        let answer = select(finished(text), range.clone(), hits.len());
        let found = answer.map(|hits| {
            let hits = hits.iter().map(|hit| (hit.record, hit.start, hit.end));
            hits.collect::<Vec<_>>()
        });
        assert_eq!(found.as_deref(), Ok(hits), "{text:?} {range:?}");
    }

    /// "the highest-numbered record whose span holds it"
    #[test]
    fn the_innermost_record_holds_the_offset() {
        picks("[1 [2]]", &[0, 1, 0, 2, 3, 2, 0]);
        picks("{a: 1}", &[0, 1, 0, 0, 2, 0]);
        picks("[1 //c\n]", &[0, 1, 0, 2, 2, 2, 0, 0]);
        // A variant's span goes to its bracket, not to its name's end.
        picks("\"A\" (1)", &[0, 0, 0, 0, 0, 1, 0]);
        // Without brackets all of the text belongs to the list or the map.
        picks(" 1 2 ", &[0, 1, 0, 2, 0]);
        picks("//c\na:1 ", &[1, 1, 1, 0, 2, 0, 3, 0]);
        picks(" \n ", &[0, 0, 0]);
    }

    /// "If none does, take the nearest byte that a record covers"
    #[test]
    fn the_nearest_byte_picks() {
        picks("  1  ", &[0, 0, 0, 0, 0]);
        // Two bytes apart: none is midway.
        picks("1  //", &[0, 0, 1, 1, 1]);
        picks("//\n //\n\n\n\n1", &[0, 0, 0, 1, 1, 1, 1, 1, 2, 2, 2]);
        // It is a byte of the list, and not of what stands in it.
        picks("  [1]  // c", &[0, 0, 0, 1, 0, 0, 2, 2]);
        // A comment that is lost covers nothing, nor does a comma.
        picks("1 // a\n ,", &[0; 9]);
        picks("1\n// lost\n", &[0; 10]);
        picks("1 //\n, //", &[0, 0, 0, 0, 1, 1, 1, 1, 1]);
    }

    /// "of one before and one after at equal distance, the earlier"
    #[test]
    fn of_two_bytes_the_earlier() {
        picks("//\n1", &[0, 0, 0, 1]);
        picks("1   //", &[0, 0, 0, 1, 1, 1]);
        picks("//c\n    'a'     //", &[0, 0, 0, 0, 0, 0, 1, 1]);
        picks("[]   //", &[0, 0, 0, 0, 1, 1, 1]);
        picks("//\r\n//\n1", &[0, 0, 0, 0, 1, 1, 1, 2]);
    }

    /// "An offset beyond the text is allowed."
    #[test]
    fn an_offset_beyond_the_text_picks_the_last_byte() {
        for (text, record) in [
            ("1", 0),
            ("1 // c\n\n", 1),
            ("// c\n[1 2]\n// lost\n", 1),
            ("1 2", 2),
            ("1 2 ", 0),
            ("[1 2]", 0),
            (" ", 0),
        ] {
            let end = text.len();
            for offset in [end, end + 1, 70_000, usize::MAX - 1, usize::MAX] {
                assert_eq!(
                    click(finished(text), offset),
                    Ok(record),
                    "{text:?} {offset}"
                );
            }
        }
    }

    /// "Number 27 is for a table whose records cover no byte, in the offset call only, directly after
    /// 15."
    #[test]
    fn no_byte_is_covered() {
        let no_byte = Err(Refusal {
            number: 27,
            start: 0,
            end: 0,
            expected: 0,
            found: 0,
        });
        for offset in [0, 1, 70_000, usize::MAX] {
            assert_eq!(click(finished(""), offset), no_byte, "{offset}");
            assert_eq!(click(Handed::new("", one_more(9)), offset), no_byte);
            assert_eq!(click(stale(""), offset), Err(Refusal::unplaced(15)));
            assert_eq!(click(finished(" "), offset), Ok(0));
        }
        for range in [0..0, 0..1, 0..usize::MAX] {
            shares("", range, &[]);
        }
    }

    #[test]
    fn the_refusals_of_the_text_and_its_table_come_first() {
        let others = Table::Of(Text(b"1  2".to_vec()));
        for (handed, refusal) in [
            (
                stale(" ".repeat(65_536)),
                Refusal::placed(1, 65_535, 65_535),
            ),
            (stale(*b"1\xFF"), Refusal::placed(2, 1, 1)),
            (stale("a: ]"), Refusal::placed(6, 3, 4)),
            (stale("[1"), Refusal::placed(12, 1, 2).with_kinds(3, 0)),
            (finished("1 2}"), Refusal::placed(13, 3, 4)),
            (stale("1 2"), Refusal::unplaced(15)),
            (Handed::new("1 2", others), Refusal::unplaced(15)),
        ] {
            assert_eq!(click(handed.clone(), 0), Err(refusal));
            for (start, end) in [(0, 9), (9, 0)] {
                assert_eq!(select(handed.clone(), start..end, 0), Err(refusal));
            }
        }
    }

    /// "every record that shares a byte with the range, in table order"
    #[test]
    fn records_that_share_a_byte() {
        let text = "[1 [2]]";
        shares(text, 0..1, &[(0, 0, 7)]);
        shares(text, 1..2, &[(0, 0, 7), (1, 1, 2)]);
        shares(text, 4..5, &[(0, 0, 7), (2, 3, 6), (3, 4, 5)]);
        let all = [(0, 0, 7), (1, 1, 2), (2, 3, 6), (3, 4, 5)];
        for range in [0..7, 1..5, 0..8, 0..usize::MAX] {
            shares(text, range, &all);
        }
        // A variant's span goes to its bracket.
        shares("\"A\" (1)", 4..5, &[(0, 0, 7)]);
        shares("// c\n1", 0..6, &[(0, 0, 4), (1, 5, 6)]);
        shares("1  // lost\n ,", 1..13, &[]);
        shares(" ", 0..1, &[(0, 0, 1)]);
    }

    /// "a byte range, its end not counted"
    #[test]
    fn a_touch_is_no_hit() {
        let text = " 22  // c\n ";
        shares(text, 0..1, &[]);
        shares(text, 0..2, &[(0, 1, 3)]);
        shares(text, 2..5, &[(0, 1, 3)]);
        shares(text, 2..6, &[(0, 1, 3), (1, 5, 9)]);
        shares(text, 3..5, &[]);
        shares(text, 3..6, &[(1, 5, 9)]);
        shares(text, 8..9, &[(1, 5, 9)]);
        shares(text, 9..usize::MAX, &[]);
        shares(text, 70_000..usize::MAX, &[]);
    }

    #[test]
    fn empty_and_reversed_ranges_share_nothing() {
        for text in ["", " ", "1", "[1 2]", "// c\n1 // d"] {
            for at in [0, 1, 2, 6, 70_000, usize::MAX] {
                shares(text, at..at, &[]);
                shares(text, at..0, &[]);
                shares(text, at..at.saturating_sub(1), &[]);
            }
        }
    }

    /// "Too short a list is 14"
    #[test]
    fn the_hits_fit_the_list() {
        for (range, hits) in [(0..7, 4), (1..2, 2), (0..1, 1)] {
            let count = |room| select(finished("[1 [2]]"), range.clone(), room).map(|h| h.len());
            for room in [hits, hits + 1, hits + 100] {
                assert_eq!(count(room), Ok(hits));
            }
            for room in 0..hits {
                assert_eq!(count(room), Err(Refusal::unplaced(14)));
            }
        }
        // 15 comes before it.
        let refusal = Err(Refusal::unplaced(15));
        assert_eq!(select(stale("[1 [2]]"), 0..7, 0), refusal);
    }

    /// From the offset outward a byte at a time, the byte before first.
    fn outward(records: &[Record<'_>], length: usize, offset: usize) -> Option<usize> {
        let to_the_text = offset.saturating_sub(length);
        let held = |byte| highest(records, byte);
        (to_the_text..=to_the_text + length).find_map(|distance| {
            let before = offset.checked_sub(distance).and_then(held);
            before.or_else(|| offset.checked_add(distance).and_then(held))
        })
    }

    #[test]
    fn the_nearest_byte_in_other_words() {
        const LONG: usize = 1000;
        for number in 0..3000 {
            let case = models::case::<RecordAt>(3, number);
            let length = case.handed.text.len();
            if let Ok(records) = case.handed.finished()
                && length < LONG
            {
                let wanted = outward(&records, length, case.offset);
                let wanted = wanted.ok_or(Refusal::unplaced(27));
                assert_eq!(RecordAt::expected(&case), wanted, "{case:?}");
            }
        }
    }

    #[test]
    fn a_shared_byte_in_other_words() {
        for number in 0..3000 {
            let case = models::case::<RecordsIn>(3, number);
            let Ok(hits) = RecordsIn::expected(&case) else {
                continue;
            };
            let records = case.handed.finished().expect("is finished");
            let overlaps = |&number: &usize| {
                let Record { start, end, .. } = records[number];
                start.max(case.start) < end.min(case.end)
            };
            let wanted: Vec<usize> = (0..records.len()).filter(overlaps).collect();
            let found: Vec<usize> = hits.iter().map(|hit| hit.record).collect();
            assert_eq!(found, wanted, "{case:?}");
        }
    }

    type Met = BTreeMap<(&'static str, u32), usize>;

    const CASES: usize = 6000;

    fn met<M: Model>(outcome: impl Fn(&M::Case) -> (&'static str, u32)) -> Met {
        let mut met = Met::new();
        for number in 0..CASES {
            *met.entry(outcome(&models::case::<M>(1, number)))
                .or_default() += 1;
        }
        met
    }

    /// At least so many of a hundred cases each.
    fn often(met: &Met, outcomes: &[(&'static str, u32)], percent: usize) {
        for outcome in outcomes {
            assert!(
                met.get(outcome)
                    .is_some_and(|&count| count * 100 >= CASES * percent),
                "{outcome:?}: {met:?}"
            );
        }
    }

    /// Each at all.
    fn reached(met: &Met, refusals: impl IntoIterator<Item = u32>) {
        for number in refusals {
            assert!(met.contains_key(&("refused", number)), "{number}: {met:?}");
        }
    }

    /// Where the picked byte stands, or the number.
    fn place_of_pick(case: &Click) -> (&'static str, u32) {
        let records = match RecordAt::expected(case) {
            Ok(_) => case.handed.finished().unwrap_or_default(),
            Err(refusal) => return ("refused", refusal.number),
        };
        let offset = case.offset;
        let byte = nearest(&records, offset).expect("a byte is covered");
        let mirrored = offset.saturating_add(offset.abs_diff(byte));
        let place = match byte {
            _ if byte == offset => "held",
            _ if offset == usize::MAX => "greatest",
            _ if offset >= case.handed.text.len() => "beyond",
            _ if byte > offset => "after",
            _ if highest(&records, mirrored).is_some() => "tie",
            _ => "before",
        };
        (place, 0)
    }

    #[test]
    fn every_pick_is_reached() {
        let met = met::<RecordAt>(place_of_pick);
        let places = ["held", "beyond", "after", "tie", "before"];
        often(&met, &places.map(|place| (place, 0)), 5);
        often(&met, &[("refused", 15), ("refused", 27)], 3);
        often(&met, &[("greatest", 0)], 1);
        reached(&met, (1..=13).chain([15, 27]));
    }

    /// How the range and the list stand to the hits, or the number.
    fn kind_of_hits(case: &Selection) -> (&'static str, u32) {
        let hits = match RecordsIn::expected(case) {
            Ok(hits) => hits.len(),
            Err(refusal) => return ("refused", refusal.number),
        };
        let kind = match hits {
            0 if case.start > case.end => "reversed",
            0 if case.start == case.end => "empty",
            0 if case.start >= case.handed.text.len() => "beyond",
            0 => "none",
            _ if case.end == usize::MAX => "to the greatest",
            _ if hits == case.room => "just enough room",
            _ => "room to spare",
        };
        (kind, 0)
    }

    #[test]
    fn every_kind_of_hits_is_reached() {
        let met = met::<RecordsIn>(kind_of_hits);
        let kinds = ["reversed", "empty", "beyond", "none", "room to spare"];
        often(&met, &kinds.map(|kind| (kind, 0)), 3);
        often(&met, &[("just enough room", 0)], 10);
        often(&met, &[("to the greatest", 0)], 1);
        often(&met, &[("refused", 14), ("refused", 15)], 5);
        reached(&met, 1..=15);
        assert!(!met.contains_key(&("refused", 27)), "{met:?}");
    }
}

//! Wrong readings of document 02, L1, and calls that write where they must not.

use super::{PLAN, difference};
use differential::lent::{Behind, Lent};
use differential::requests::{Answered, Calls, Given, run};
use oracle::Refusal;
use oracle::generate::Rng;
use oracle::models::pick::{Click, Hit, RecordAt, RecordsIn, Selection};
use oracle::models::{Handed, Model, Record, Table, fitting};
use std::ops::Range;

const NO_BYTE: u32 = 27;

/// How the offset call may be read.
struct Reading {
    span: fn(&Record<'_>) -> Range<usize>,
    /// Of an offset and a byte; the least is the nearest.
    distance: fn(usize, usize) -> (usize, usize),
    /// The number of the record that holds a byte.
    holder: fn(&[Range<usize>], usize) -> Option<usize>,
}

const RIGHT: Reading = Reading {
    span: whole,
    distance: |offset, byte| (offset.abs_diff(byte), byte),
    holder: |spans, byte| spans.iter().rposition(|span| span.contains(&byte)),
};

impl Reading {
    fn pick(&self, case: &Click) -> Result<usize, Refusal> {
        let records = case.handed.finished()?;
        let spans: Vec<Range<usize>> = records.iter().map(self.span).collect();
        let bytes = spans.iter().cloned().flatten();
        let nearest = bytes.min_by_key(|&byte| (self.distance)(case.offset, byte));
        let record = nearest.and_then(|byte| (self.holder)(&spans, byte));
        record.ok_or(Refusal::unplaced(NO_BYTE))
    }
}

fn whole(record: &Record<'_>) -> Range<usize> {
    record.start..record.end
}

/// A variant's span ends with its name.
fn name_only(record: &Record<'_>) -> Range<usize> {
    const VARIANT: u32 = 6;
    match record.kind {
        VARIANT => record.start..record.start + record.text.len(),
        _ => whole(record),
    }
}

/// 27 where it is so.
fn no_byte_if(is_so: bool, case: &Click) -> Result<usize, Refusal> {
    if is_so {
        return Err(Refusal::unplaced(NO_BYTE));
    }
    RIGHT.pick(case)
}

other!(RecordAt, SamePick, |case| RIGHT.pick(case));
other!(RecordAt, Lowest, |case| {
    let holder = |spans: &[Range<usize>], byte| spans.iter().position(|span| span.contains(&byte));
    Reading { holder, ..RIGHT }.pick(case)
});
other!(RecordAt, LaterOfTwo, |case| {
    let distance = |offset: usize, byte| (offset.abs_diff(byte), usize::MAX - byte);
    Reading { distance, ..RIGHT }.pick(case)
});
// A byte before comes before any byte after.
other!(RecordAt, Before, |case| {
    let distance = |offset: usize, byte| (usize::from(byte > offset), offset.abs_diff(byte));
    Reading { distance, ..RIGHT }.pick(case)
});
// The way to a span goes to its start or to its end, and not to its last byte.
other!(RecordAt, NearestEdge, |case| {
    let distance = |offset: usize, byte: usize| {
        let further = usize::from(byte > offset);
        (offset.abs_diff(byte) + further, byte)
    };
    Reading { distance, ..RIGHT }.pick(case)
});
other!(RecordAt, EndHeld, |case| {
    let span = |record: &Record<'_>| record.start..record.end + 1;
    Reading { span, ..RIGHT }.pick(case)
});
other!(RecordAt, NameHeld, |case| {
    let span = name_only;
    Reading { span, ..RIGHT }.pick(case)
});
// Words behind the finished table are taken for records.
other!(RecordAt, WholeTable, |case: &Click| {
    let right = RIGHT.pick(case)?;
    let words = case.handed.words();
    let holds = |record: &[u32]| (record[1] as usize..record[3] as usize).contains(&case.offset);
    let mut records = words.chunks_exact(eon::RECORD_WORDS);
    Ok(records.rposition(holds).unwrap_or(right))
});
other!(RecordAt, NoByteBeforeStale, |case: &Click| {
    no_byte_if(case.handed.text.is_empty(), case)
});
other!(RecordAt, NoByteOfBlanks, |case: &Click| {
    case.handed.finished()?;
    let blank = case.handed.text.iter().all(u8::is_ascii_whitespace);
    no_byte_if(blank, case)
});
other!(RecordAt, NoByteBeyond, |case: &Click| {
    case.handed.finished()?;
    no_byte_if(case.offset > case.handed.text.len(), case)
});

#[test]
fn wrong_readings_of_the_offset_call_are_noticed() {
    for difference in [
        difference::<Lowest>,
        difference::<LaterOfTwo>,
        difference::<Before>,
        difference::<NearestEdge>,
        difference::<EndHeld>,
        difference::<NameHeld>,
        difference::<WholeTable>,
        difference::<NoByteBeforeStale>,
        difference::<NoByteOfBlanks>,
        difference::<NoByteBeyond>,
    ] {
        let difference = difference();
        assert!(difference.contains("\nsmallest: "), "{difference}");
    }
    // What is noticed is what is wrong in them.
    assert!(run::<SamePick>(&PLAN).is_ok());
}

#[test]
fn a_tie_is_shrunk() {
    let difference = difference::<LaterOfTwo>();
    let answers = "\nours:  Ok(0)\nmodel: Ok(1)\n";
    assert!(difference.contains(answers), "{difference}");
    let smallest = difference.lines().last().unwrap_or_default();
    assert!(smallest.len() < 100, "{difference}");
}

type IsHit = fn(&Selection, Range<usize>) -> bool;

fn overlaps(case: &Selection, span: Range<usize>) -> bool {
    span.start.max(case.start) < span.end.min(case.end)
}

/// The hits by another test of a record's span.
fn hits_by(is_hit: IsHit, case: &Selection) -> Result<Vec<Hit>, Refusal> {
    hits_of(whole, is_hit, case)
}

fn hits_of(
    span: fn(&Record<'_>) -> Range<usize>,
    is_hit: IsHit,
    case: &Selection,
) -> Result<Vec<Hit>, Refusal> {
    let records = case.handed.finished()?;
    let numbered = records.iter().enumerate();
    let hits = numbered
        .filter(|(_, record)| is_hit(case, span(record)))
        .map(|(number, record)| Hit {
            record: number,
            start: record.start,
            end: record.end,
        });
    fitting(hits.collect(), case.room)
}

other!(RecordsIn, SameHits, |case| hits_by(overlaps, case));
other!(RecordsIn, Touching, |case| {
    let touches: IsHit = |case, span| span.start.max(case.start) <= span.end.min(case.end);
    hits_by(touches, case)
});
other!(RecordsIn, EndCounted, |case| {
    let reaches: IsHit = |case, span| {
        let end = case.end.saturating_add(usize::from(case.start < case.end));
        span.start.max(case.start) < span.end.min(end)
    };
    hits_by(reaches, case)
});
other!(RecordsIn, EmptyIsAPlace, |case| {
    let holds: IsHit = |case, span| {
        overlaps(case, span.clone()) || case.start == case.end && span.contains(&case.start)
    };
    hits_by(holds, case)
});
other!(RecordsIn, Turned, |case: &Selection| {
    let turned = Selection {
        start: case.start.min(case.end),
        end: case.start.max(case.end),
        ..case.clone()
    };
    RecordsIn::expected(&turned)
});
other!(RecordsIn, WhollyInside, |case| {
    let inside: IsHit = |case, span| {
        overlaps(case, span.clone()) && case.start <= span.start && span.end <= case.end
    };
    hits_by(inside, case)
});
other!(RecordsIn, NameHit, |case| hits_of(
    name_only, overlaps, case
));
other!(RecordsIn, LastFirst, |case| {
    let mut hits = RecordsIn::expected(case)?;
    hits.reverse();
    Ok(hits)
});
other!(RecordsIn, CountedFromOne, |case| {
    let mut hits = RecordsIn::expected(case)?;
    hits.iter_mut().for_each(|hit| hit.record += 1);
    Ok(hits)
});
other!(RecordsIn, NoByteToo, |case: &Selection| {
    let hits = RecordsIn::expected(case)?;
    if case.handed.text.is_empty() {
        return Err(Refusal::unplaced(NO_BYTE));
    }
    Ok(hits)
});
other!(RecordsIn, NoSpaceBeforeStale, |case: &Selection| {
    let finished = Selection {
        handed: Handed::new(case.handed.text.to_vec(), Table::Finished),
        ..case.clone()
    };
    RecordsIn::expected(&finished)?;
    RecordsIn::expected(case)
});
other!(RecordsIn, OneToSpare, |case: &Selection| {
    let hits = RecordsIn::expected(case)?;
    fitting(hits, case.room.saturating_sub(1))
});
other!(RecordsIn, AsManyAsFit, |case: &Selection| {
    let mut hits = RecordsIn::expected(&endless(case))?;
    hits.truncate(case.room);
    Ok(hits)
});

/// With room for all hits.
fn endless(case: &Selection) -> Selection {
    Selection {
        room: usize::MAX,
        ..case.clone()
    }
}

#[test]
fn wrong_readings_of_the_range_call_are_noticed() {
    for difference in [
        difference::<Touching>,
        difference::<EndCounted>,
        difference::<EmptyIsAPlace>,
        difference::<Turned>,
        difference::<WhollyInside>,
        difference::<NameHit>,
        difference::<LastFirst>,
        difference::<CountedFromOne>,
        difference::<NoByteToo>,
        difference::<NoSpaceBeforeStale>,
        difference::<OneToSpare>,
        difference::<AsManyAsFit>,
    ] {
        let difference = difference();
        assert!(difference.contains("\nsmallest: "), "{difference}");
    }
    assert!(run::<SameHits>(&PLAN).is_ok());
}

/// The range call, which also writes an entry of the list that must stay: on refusal 14 the first, or
/// the one behind the hits.
struct Careless<const ON_REFUSAL: bool>;

impl<const ON_REFUSAL: bool> Model for Careless<ON_REFUSAL> {
    const NAME: &'static str = "careless";
    type Case = Selection;
    /// How many hits.
    type Answer = usize;

    fn case(rng: &mut Rng) -> Selection {
        RecordsIn::case(rng)
    }

    fn expected(case: &Selection) -> Result<usize, Refusal> {
        RecordsIn::expected(case).map(|hits| hits.len())
    }
}

impl<const ON_REFUSAL: bool> Calls for Careless<ON_REFUSAL> {
    fn ask(case: &Selection, behind: Behind) -> Result<Answered<usize>, String> {
        let given = Given::new(&case.handed, behind);
        let mut list = Lent::new(behind);
        let lent = list.lend(case.room);
        let range = case.start..case.end;
        let answer = eon::records_in(given.text(), given.table(), range, lent);
        let written = match answer {
            Ok(hits) if !ON_REFUSAL => lent.get_mut(hits),
            Err(refusal) if ON_REFUSAL && refusal.kind == eon::RefusalKind::NoSpace => {
                lent.first_mut()
            }
            _ => None,
        };
        if let Some(written) = written {
            written.end += 1;
        }
        let hits = list.answered(answer)?;
        Ok(hits.map(|hits| hits.len()))
    }
}

#[test]
fn a_list_that_is_written_on_a_refusal_is_noticed() {
    let difference = difference::<Careless<true>>();
    assert!(difference.contains("memory at 0 holds Hit"), "{difference}");
}

#[test]
fn an_entry_behind_the_hits_is_noticed() {
    let difference = difference::<Careless<false>>();
    assert!(difference.contains("memory at 0 holds Hit"), "{difference}");
}

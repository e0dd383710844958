//! The records at a place of a text.

use crate::{Refusal, answered, sys};
use core::ops::Range;

/// A record's number, from 0 on, and its span in bytes, the end not counted.
#[repr(C)]
#[derive(Clone, Copy, Debug, Default, PartialEq, Eq, Hash)]
pub struct Hit {
    pub record: usize,
    pub start: usize,
    pub end: usize,
}

// C's hits are of `uint64_t`.
const _: () = assert!(usize::BITS == u64::BITS);

/// How many hits suffice for any range of any text of so many bytes.
pub const fn hits(text_len: usize) -> usize {
    text_len.saturating_add(1)
}

/// The number of the record at a byte offset of a text with its finished table: the highest-numbered
/// one whose span holds the offset.
///
/// ```
/// let (text, mut table) = (b"7 // late", [0; 10]);
/// eon::read(text, &mut table)?;
/// assert_eq!(eon::record_at(text, &table, 0), Ok(0));
/// assert_eq!(eon::record_at(text, &table, 4), Ok(1));
/// # Ok::<(), eon::Refusal>(())
/// ```
///
/// If none does, the nearest byte that a record covers stands in for the offset; of one before and
/// one after at equal distance, the earlier. An offset beyond the text is allowed.
///
/// ```
/// # let (text, mut table) = (b"7 // late", [0; 10]);
/// # eon::read(text, &mut table)?;
/// assert_eq!(eon::record_at(text, &table, 1), Ok(0));
/// assert_eq!(eon::record_at(text, &table, usize::MAX), Ok(1));
/// # Ok::<(), eon::Refusal>(())
/// ```
///
/// Of the empty text no byte is covered.
///
/// ```
/// let mut table = [0; 5];
/// eon::read(b"", &mut table)?;
/// let refusal = eon::record_at(b"", &table, 0).unwrap_err();
/// assert_eq!(refusal.kind, eon::RefusalKind::NoByte);
/// # Ok::<(), eon::Refusal>(())
/// ```
pub fn record_at(text: &[u8], table: &[u32], offset: usize) -> Result<usize, Refusal> {
    // SAFETY: each pointer is a slice's with its length.
    let answer = answered(|answer| unsafe {
        sys::eon_record_at(
            text.as_ptr(),
            text.len(),
            table.as_ptr(),
            table.len(),
            offset as u64,
            answer,
        );
    })?;
    Ok(answer.value as usize)
}

/// Lists the records of a text with its finished table that share a byte with a range, in table
/// order, and answers how many they are. Hits behind them are kept.
///
/// ```
/// use eon::Hit;
///
/// let (text, mut table) = (b"[1, 2]", [0; 15]);
/// eon::read(text, &mut table)?;
/// let mut hits = vec![Hit::default(); eon::hits(text.len())];
/// // The number 2 starts where the range ends, and shares no byte with it.
/// assert_eq!(eon::records_in(text, &table, 0..4, &mut hits), Ok(2));
/// assert_eq!(hits[0], Hit { record: 0, start: 0, end: 6 });
/// assert_eq!(hits[1], Hit { record: 1, start: 1, end: 2 });
/// # Ok::<(), eon::Refusal>(())
/// ```
///
/// A range may reach beyond the text; an empty or reversed one shares no byte. Too short a list is
/// refused and kept.
///
/// ```
/// # use eon::Hit;
/// # let (text, mut table) = (b"[1, 2]", [0; 15]);
/// # eon::read(text, &mut table)?;
/// assert_eq!(eon::records_in(text, &table, 4..4, &mut []), Ok(0));
/// let mut short = [Hit::default(); 2];
/// let refusal = eon::records_in(text, &table, 0..usize::MAX, &mut short).unwrap_err();
/// assert_eq!(refusal.kind, eon::RefusalKind::NoSpace);
/// assert_eq!(short, [Hit::default(); 2]);
/// # Ok::<(), eon::Refusal>(())
/// ```
pub fn records_in(
    text: &[u8],
    table: &[u32],
    range: Range<usize>,
    hits: &mut [Hit],
) -> Result<usize, Refusal> {
    // SAFETY: each pointer is a slice's with its length, and `hits` is borrowed alone.
    let answer = answered(|answer| unsafe {
        sys::eon_records_in(
            text.as_ptr(),
            text.len(),
            table.as_ptr(),
            table.len(),
            range.start as u64,
            range.end as u64,
            hits.as_mut_ptr(),
            hits.len(),
            answer,
        );
    })?;
    Ok(answer.value as usize)
}

//! Bytes of stack that the calls take at most, with a margin: for threads with a stack of their own,
//! which need some 10 KB for themselves besides.

pub const READ: usize = 100 * 1024;
pub const FORMAT: usize = 130 * 1024;
pub const COMPARE: usize = 100 * 1024;
pub const RECORD_AT: usize = 100 * 1024;
pub const RECORDS_IN: usize = 100 * 1024;
pub const LOOKUP: usize = 130 * 1024;
/// Unquoting, showing and the identifier test.
pub const OTHERS: usize = 8 * 1024;

/// Reformatting a text of so many bytes: it reads into a table of its own.
pub const fn reformat(text_len: usize) -> usize {
    if text_len <= SMALL_TEXT {
        180 * 1024
    } else if text_len <= MEDIUM_TEXT {
        550 * 1024
    } else {
        1700 * 1024
    }
}

const SMALL_TEXT: usize = 2047;
const MEDIUM_TEXT: usize = 16383;

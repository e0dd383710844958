//! Many paths looked up in one walk.

use crate::{Refusal, answered, sys};

/// The most paths that are looked up at once.
pub const PATHS_MAX: usize = 128;

/// The most keys of a path.
pub const KEYS_MAX: usize = 8;

/// The answer of a path that reaches nothing: no record has this number.
pub const NONE: u32 = u32::MAX;

/// Looks paths up in a text with its finished table, all in one walk, and answers how many steps it
/// took. The path text, with its finished table too, is a list of at most [`PATHS_MAX`] paths, each a
/// list of 1 to [`KEYS_MAX`] keys, identifiers or strings; comments in it are ignored.
///
/// A path goes through maps from the root. Each answer is set: for each path the number of a record
/// that it reaches, [`NONE`] for a path that reaches nothing and behind the last path. If a path
/// reaches several values, the answer is some one of them; which one is left open.
///
/// ```
/// let (text, mut table) = (b"round:{live:3 \"last\":9}", [0; 35]);
/// let (paths, mut paths_table) = (b"[round live] [round last] [round]", [0; 45]);
/// eon::read(text, &mut table)?;
/// eon::read(paths, &mut paths_table)?;
/// let mut answers = [0; eon::PATHS_MAX];
/// // The root, the key and value in it, and the two pairs of the inner map.
/// assert_eq!(eon::lookup(text, &table, paths, &paths_table, &mut answers), Ok(7));
/// // A string is compared with its quotes.
/// assert_eq!(answers[..3], [4, eon::NONE, 2]);
/// assert!(answers[3..].iter().all(|&answer| answer == eon::NONE));
/// # Ok::<(), eon::Refusal>(())
/// ```
///
/// Another text than a list of paths is refused, and the answers are kept.
///
/// ```
/// let mut table = [0; 10];
/// eon::read(b"[a]", &mut table)?;
/// let mut answers = [7; eon::PATHS_MAX];
/// let refusal = eon::lookup(b"[a]", &table, b"[a]", &table, &mut answers).unwrap_err();
/// assert_eq!(refusal.kind, eon::RefusalKind::NoPaths);
/// assert_eq!(answers, [7; eon::PATHS_MAX]);
/// # Ok::<(), eon::Refusal>(())
/// ```
pub fn lookup(
    text: &[u8],
    table: &[u32],
    paths: &[u8],
    paths_table: &[u32],
    answers: &mut [u32; PATHS_MAX],
) -> Result<usize, Refusal> {
    // SAFETY: each pointer is a slice's with its length, and `answers` is borrowed alone.
    let answer = answered(|answer| unsafe {
        sys::eon_lookup(
            text.as_ptr(),
            text.len(),
            table.as_ptr(),
            table.len(),
            paths.as_ptr(),
            paths.len(),
            paths_table.as_ptr(),
            paths_table.len(),
            answers,
            answer,
        );
    })?;
    Ok(answer.value as usize)
}

//! What both programs need: see README.md.

pub mod check;
pub mod counts;
pub mod lent;
pub mod requests;
pub mod shrink;

use std::panic::{self, AssertUnwindSafe};

/// A panic is a difference, whosesoever it is.
pub fn caught<T>(check: impl FnOnce() -> Result<T, String>) -> Result<T, String> {
    let answer = panic::catch_unwind(AssertUnwindSafe(check));
    answer.unwrap_or_else(|_| Err("a panic, see standard error".to_owned()))
}

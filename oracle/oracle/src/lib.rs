//! What the original `eon_syntax` answers, in the numbers of document 01.
//!
//! Texts are bytes. Each answer is a value or a [`Refusal`].

mod agree;
mod calls;
mod error_map;
pub mod generate;
mod hex;
mod lent;
pub mod models;
mod protocol;
mod records;
mod refusal;
mod rows;

// The original keeps its lexer to itself, so the same unchanged file is built in here too.
#[rustfmt::skip]
#[path = "../../eon_syntax/src/token_kind.rs"]
mod token_kind;

pub use crate::{
    agree::{Agreement, Asked, Difference, agree},
    calls::{Options, compare, format, identifier, read, tokens, unquote},
    lent::Lent,
    protocol::{Answer, Case, answer},
    refusal::Refusal,
    rows::rows,
    token_kind::TokenKind,
};

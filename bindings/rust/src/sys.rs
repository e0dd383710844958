//! The calls of `include/eon.h`.

use crate::{Hit, PATHS_MAX};

/// The eight words of an answer.
#[repr(C)]
#[derive(Clone, Copy, Debug, Default, PartialEq, Eq)]
pub struct Answer {
    pub number: u64,
    pub start: u64,
    pub end: u64,
    pub expected: u64,
    pub found: u64,
    pub value: u64,
    pub slice: u64,
    pub from: u64,
}

/// The two calls that lay out differ in what they may do with the table.
macro_rules! layout_call {
    ($name:ident, $table:ty) => {
        unsafe extern "C" {
            pub fn $name(
                text: *const u8,
                text_len: usize,
                table: $table,
                table_words: usize,
                indentation: *const u8,
                indentation_len: usize,
                newline: *const u8,
                newline_len: usize,
                space_before_suffix_comment: *const u8,
                space_before_suffix_comment_len: usize,
                key_value_separator: *const u8,
                key_value_separator_len: usize,
                always_include_outer_braces: bool,
                out: *mut u8,
                out_len: usize,
                answer: *mut Answer,
            );
        }
    };
}

layout_call!(eon_format, *const u32);
layout_call!(eon_reformat, *mut u32);

/// Their type, by the table's.
pub type Layout<Table> = unsafe extern "C" fn(
    *const u8,
    usize,
    Table,
    usize,
    *const u8,
    usize,
    *const u8,
    usize,
    *const u8,
    usize,
    *const u8,
    usize,
    bool,
    *mut u8,
    usize,
    *mut Answer,
);

unsafe extern "C" {
    pub fn eon_read(
        text: *const u8,
        text_len: usize,
        table: *mut u32,
        table_words: usize,
        answer: *mut Answer,
    );

    pub fn eon_compare(
        text1: *const u8,
        text1_len: usize,
        table1: *const u32,
        table1_words: usize,
        text2: *const u8,
        text2_len: usize,
        table2: *const u32,
        table2_words: usize,
        answer: *mut Answer,
    );

    pub fn eon_record_at(
        text: *const u8,
        text_len: usize,
        table: *const u32,
        table_words: usize,
        offset: u64,
        answer: *mut Answer,
    );

    pub fn eon_records_in(
        text: *const u8,
        text_len: usize,
        table: *const u32,
        table_words: usize,
        start: u64,
        end: u64,
        hits: *mut Hit,
        hits_len: usize,
        answer: *mut Answer,
    );

    pub fn eon_lookup(
        text: *const u8,
        text_len: usize,
        table: *const u32,
        table_words: usize,
        paths: *const u8,
        paths_len: usize,
        paths_table: *const u32,
        paths_table_words: usize,
        answers: *mut [u32; PATHS_MAX],
        answer: *mut Answer,
    );

    pub fn eon_unquote(
        quoted: *const u8,
        quoted_len: usize,
        scratch: *mut u8,
        scratch_len: usize,
        answer: *mut Answer,
    );

    pub fn eon_show(
        quoted: *const u8,
        quoted_len: usize,
        scratch: *const u8,
        scratch_len: usize,
        slice: u64,
        from: usize,
        value: usize,
        answer: *mut Answer,
    );

    pub fn eon_is_valid_identifier(text: *const u8, text_len: usize) -> bool;
}

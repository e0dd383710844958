//! The calls that are measured, each ready to be made again and again. Memory is lent once and not
//! cleared between the calls.

use crate::texts;
use eon::{Hit, NONE, PATHS_MAX, Settings};
use std::hint::black_box;

pub type Call<'a> = Box<dyn FnMut() + 'a>;

/// `original` runs over the compiled lexer, `general` over the oracle's automaton.
pub const SIDES: [&str; 3] = ["ours", "original", "general"];

/// Bytes of a narrow range.
const LINE: usize = 80;

/// None if the side does not have the call.
pub fn call<'a>(side: &str, name: &str, text: &'a str) -> Option<Call<'a>> {
    match side {
        "ours" => ours(name, text)
            .or_else(|| ours_alone(name, text))
            .or_else(|| lookup(name, text)),
        "original" => original::call(name, text),
        "general" => general::call(name, text),
        _ => None,
    }
}

fn ours<'a>(name: &str, text: &'a str) -> Option<Call<'a>> {
    let text = text.as_bytes();
    let mut table = vec![0; eon::table_words(text.len())];
    let mut out = vec![0; eon::layout_bytes(text.len())];
    let settings = Settings::default();
    match name {
        "read" => Some(Box::new(move || {
            let _ = black_box(eon::read(black_box(text), &mut table));
        })),
        "format" => {
            let _ = eon::read(text, &mut table);
            Some(Box::new(move || {
                let _ = black_box(eon::format(black_box(text), &table, &settings, &mut out));
            }))
        }
        "reformat" => Some(Box::new(move || {
            let text = black_box(text);
            let _ = black_box(eon::reformat(text, &mut table, &settings, &mut out));
        })),
        "unquote" => Some(Box::new(move || {
            let _ = black_box(eon::unquote(black_box(text), &mut out));
        })),
        // A text that does not begin with a quote is refused by 17 right after the check.
        "utf8" => Some(Box::new(move || {
            let _ = black_box(eon::unquote(black_box(text), &mut []));
        })),
        _ => None,
    }
}

/// Calls that the original does not have, on a text with its finished table.
fn ours_alone<'a>(name: &str, text: &'a str) -> Option<Call<'a>> {
    let text = text.as_bytes();
    let mut table = vec![0; eon::table_words(text.len())];
    let mut hits = vec![Hit::default(); eon::hits(text.len())];
    let _ = eon::read(text, &mut table);
    let middle = text.len() / 2;
    match name {
        "compare" => Some(Box::new(move || {
            let _ = black_box(eon::compare(black_box(text), &table, text, &table));
        })),
        "record_at" => Some(Box::new(move || {
            let _ = black_box(eon::record_at(black_box(text), &table, middle));
        })),
        "records_in" => Some(Box::new(move || {
            let all = 0..text.len();
            let _ = black_box(eon::records_in(black_box(text), &table, all, &mut hits));
        })),
        "records_in, a line" => Some(Box::new(move || {
            let line = middle..middle + LINE;
            let _ = black_box(eon::records_in(black_box(text), &table, line, &mut hits));
        })),
        _ => None,
    }
}

/// As many paths as are taken, by one call or each by a call of its own.
fn lookup<'a>(name: &str, sheet: &'a str) -> Option<Call<'a>> {
    let paths = texts::paths(sheet, PATHS_MAX);
    let lists = match name {
        "lookup" => vec![paths.concat()],
        "lookup, a path a call" => paths.iter().map(|path| format!("[{path}]")).collect(),
        _ => return None,
    };
    let (sheet, table) = finished(sheet.to_owned());
    let (all, all_table) = finished(paths.concat());
    let lists: Vec<_> = lists.into_iter().map(finished).collect();
    let mut answers = [NONE; PATHS_MAX];
    let _ = eon::lookup(&sheet, &table, &all, &all_table, &mut answers);
    assert!(!answers.contains(&NONE), "every path reaches a value");
    Some(Box::new(move || {
        for (paths, paths_table) in &lists {
            let sheet = black_box(&sheet);
            let _ = black_box(eon::lookup(sheet, &table, paths, paths_table, &mut answers));
        }
    }))
}

/// A text with its table.
fn finished(text: String) -> (Vec<u8>, Vec<u32>) {
    let mut table = vec![0; eon::table_words(text.len())];
    let _ = eon::read(text.as_bytes(), &mut table);
    (text.into_bytes(), table)
}

/// The original's calls, alike for its two builds, whose types differ.
macro_rules! original {
    ($module:ident, $crate_name:ident) => {
        mod $module {
            use super::{Call, checked};
            use std::hint::black_box;
            use $crate_name::{FormatOptions, TokenTree};

            pub fn call<'a>(name: &str, text: &'a str) -> Option<Call<'a>> {
                let options = FormatOptions::default();
                match name {
                    "read" => Some(Box::new(move || {
                        let _ = black_box(checked(text).map(TokenTree::parse_str));
                    })),
                    "format" => {
                        let tree = TokenTree::parse_str(text).ok();
                        Some(Box::new(move || {
                            black_box(black_box(&tree).as_ref().map(|tree| tree.format(&options)));
                        }))
                    }
                    "reformat" => Some(Box::new(move || {
                        let text = checked(text);
                        let _ = black_box(text.map(|text| $crate_name::reformat(text, &options)));
                    })),
                    "unquote" => Some(Box::new(move || {
                        let _ = black_box(checked(text).map($crate_name::unescape_and_unquote));
                    })),
                    "utf8" => Some(Box::new(move || {
                        black_box(checked(text));
                    })),
                    _ => None,
                }
            }
        }
    };
}

original!(original, eon_syntax_compiled);
original!(general, eon_syntax_general);

/// The original takes text that is checked already; the check is counted with it.
fn checked(text: &str) -> Option<&str> {
    std::str::from_utf8(black_box(text.as_bytes())).ok()
}

//! The header, the crate, docs/REFUSALS.md and the proved library's own lists say the same: names,
//! numbers and words of refusals, token and record kinds, memory that suffices, lookups, stacks, the
//! version.

use eon::{RefusalKind, TokenKind, stack};

const HEADER: &str = include_str!("../../../include/eon.h");
const REFUSALS: &str = include_str!("../../../docs/REFUSALS.md");
const TYPES: &str = include_str!("../../../crates/eon_spec/src/lib.rt");
const REASONS: &str = include_str!("../../../crates/eon_spec/src/refusal.rt");
const TOKEN_KINDS: &str = include_str!("../../../crates/eon_spec/src/token_kind.rt");
const RECORD_KINDS: &str = include_str!("../../../crates/eon_spec/src/record_kind.rt");
const RECORD_KIND_DEFINITIONS: &str =
    include_str!("../../../crates/eon_spec/specs/RecordKind.antt");

/// The cases of an enum of the header, in their order, which is that of their numbers from 1 on.
fn header_cases(name: &str) -> Vec<&'static str> {
    let start = HEADER.find(&format!("enum {name} {{")).expect("an enum");
    let body = &HEADER[start..];
    let lines = body[..body.find("};").expect("its end")].lines().skip(1);
    lines
        .filter_map(|line| line.trim().split([',', ' ']).next())
        .filter(|case| case.starts_with("EON_"))
        .collect()
}

/// The same without what each begins with.
fn header_names(name: &str, prefix: &str) -> Vec<String> {
    let cases = header_cases(name).into_iter();
    cases
        .map(|case| case.strip_prefix(prefix).expect("its prefix").to_owned())
        .collect()
}

/// The cases of an enum of the library, in their order, as the header spells them.
fn library_cases(source: &str, name: &str) -> Vec<String> {
    let start = source
        .find(&format!("pub enum {name} {{"))
        .expect("an enum");
    let body = &source[start..];
    let lines = body[..body.find("\n}").expect("its end")].lines().skip(1);
    lines
        .filter_map(|line| line.strip_prefix("    "))
        .filter(|line| line.starts_with(char::is_uppercase))
        .map(|line| screaming(line.split([',', ' ']).next().expect("a case")))
        .collect()
}

/// `NoScalarValue` as `NO_SCALAR_VALUE`.
fn screaming(name: &str) -> String {
    let mut out = String::new();
    for letter in name.chars() {
        if letter.is_uppercase() && !out.is_empty() {
            out.push('_');
        }
        out.push(letter.to_ascii_uppercase());
    }
    out
}

#[test]
fn refusals() {
    let cases = header_cases("eon_refusal");
    for (number, case) in (1..).zip(&cases) {
        let kind = RefusalKind::of_number(number);
        let name = format!("{kind:?}");
        assert_eq!(kind.number(), number);
        assert_eq!(*case, format!("EON_{}", screaming(&name)));
        let word = kind.to_string().replace('\\', "\\\\");
        assert!(
            HEADER.contains(&format!("case {case}: return \"{word}\";")),
            "{case}"
        );
        let row = format!("| {number} | `{}`, `{name}` |", screaming(&name));
        assert!(REFUSALS.contains(&row), "{row}");
    }
    let behind = cases.len() as u32 + 1;
    assert_eq!(RefusalKind::of_number(behind), RefusalKind::Other(behind));
    assert!(!REFUSALS.contains(&format!("| {behind} | `")));
}

#[test]
fn refusal_list() {
    let names = header_names("eon_refusal", "EON_");
    assert_eq!(library_cases(REASONS, "Reason"), names);
    // A case with fields may stand on several lines, its number on the last.
    let mut name = String::new();
    let mut numbered = Vec::new();
    for line in REASONS.lines() {
        if let Some(case) = line.trim().strip_prefix("Reason::") {
            name = screaming(case.split(' ').next().expect("a case"));
        }
        if let Some((_, number)) = line.split_once(" => ") {
            numbered.push(format!("{name} {number}"));
        }
    }
    numbered.truncate(names.len());
    let wanted = (1..)
        .zip(&names)
        .map(|(number, name)| format!("{name} {number},"));
    assert_eq!(numbered, wanted.collect::<Vec<_>>());
}

#[test]
fn record_kinds() {
    let names = header_names("eon_record_kind", "EON_RECORD_");
    assert_eq!(library_cases(RECORD_KINDS, "RecordKind"), names);
    assert!(RECORD_KINDS.contains("    Identifier = 1,\n"));
    for (number, name) in (1..).zip(&names) {
        let definition = format!("\n{name} = {number}\n");
        assert!(RECORD_KIND_DEFINITIONS.contains(&definition), "{name}");
    }
}

#[test]
fn token_kinds() {
    let cases = header_cases("eon_token_kind");
    for (number, case) in (1..).zip(&cases) {
        let kind = TokenKind::of_number(number);
        assert_eq!(kind.number(), number);
        assert_eq!(
            *case,
            format!("EON_TOKEN_{}", screaming(&format!("{kind:?}")))
        );
    }
    let behind = cases.len() as u32 + 1;
    assert_eq!(TokenKind::of_number(behind), TokenKind::Other(behind));
    let mut names = vec!["INVALID".to_owned()];
    names.extend(header_names("eon_token_kind", "EON_TOKEN_"));
    assert_eq!(library_cases(TOKEN_KINDS, "TokenKind"), names);
}

/// The header defines the name so.
fn defines(name: &str, meaning: &str) {
    let line = format!("#define {name} {meaning}");
    let is_it = |found: &str| found == line || found.starts_with(&format!("{line} "));
    assert!(HEADER.lines().any(is_it), "{line}");
}

#[test]
fn sizes() {
    let version = env!("CARGO_PKG_VERSION");
    let parts = version.split('.').map(|part| part.parse::<u32>().unwrap());
    let number = parts.fold(0, |number, part| 100 * number + part);
    defines("EON_VERSION", &format!("{version:?}"));
    defines("EON_VERSION_NUMBER", &number.to_string());
    defines("EON_RECORD_WORDS", &eon::RECORD_WORDS.to_string());
    assert_eq!(eon::table_words(9), eon::RECORD_WORDS * (9 + 1));
    let line = eon::layout_bytes(0);
    defines("EON_LAYOUT_BYTES(n)", &format!("({line} * ((n) + 1))"));
    assert_eq!(eon::layout_bytes(9), line * (9 + 1));
    defines("EON_HITS(n)", "((n) + 1)");
    assert_eq!(eon::hits(9), 9 + 1);
}

#[test]
fn lookups() {
    let (paths, keys, none) = (eon::PATHS_MAX, eon::KEYS_MAX, eon::NONE);
    defines("EON_PATHS_MAX", &paths.to_string());
    defines("EON_KEYS_MAX", &keys.to_string());
    defines("EON_NONE", "UINT32_MAX");
    assert_eq!(none, u32::MAX);
    for line in [
        format!("pub const PATHS_MAX: usize = {paths};"),
        format!("pub const KEYS_MAX: usize = {keys};"),
        format!("pub const NONE: u32 = {none};"),
    ] {
        assert!(TYPES.lines().any(|found| found == line), "{line}");
    }
}

#[test]
fn stacks() {
    let (small, medium) = (2047, 16383);
    defines("EON_SMALL_TEXT", &small.to_string());
    defines("EON_MEDIUM_TEXT", &medium.to_string());
    for (name, bytes) in [
        ("READ", stack::READ),
        ("FORMAT", stack::FORMAT),
        ("COMPARE", stack::COMPARE),
        ("RECORD_AT", stack::RECORD_AT),
        ("RECORDS_IN", stack::RECORDS_IN),
        ("LOOKUP", stack::LOOKUP),
        ("OTHERS", stack::OTHERS),
        ("REFORMAT_SMALL", stack::reformat(0)),
        ("REFORMAT_SMALL", stack::reformat(small)),
        ("REFORMAT_MEDIUM", stack::reformat(small + 1)),
        ("REFORMAT_MEDIUM", stack::reformat(medium)),
        ("REFORMAT", stack::reformat(medium + 1)),
    ] {
        defines(
            &format!("EON_STACK_{name}"),
            &format!("({} * 1024)", bytes / 1024),
        );
    }
}

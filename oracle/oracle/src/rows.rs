//! Cases and the original's answers as rows that a proof checker computes.

use crate::calls::Options;
use crate::generate::{Kind, generate};
use crate::protocol::{Answer, Case};

/// Longer texts would take a checker long.
const LONGEST: usize = 80;

/// A module of `count` rows.
pub fn rows(count: usize, seed: u64) -> String {
    let mut out = format!(
        "-- Answers of the original as rows, printed by `oracle rows {count} {seed}`: cases of all kinds by their shares, of at most {LONGEST} bytes.\n{HEAD}"
    );
    let cases = generate(Kind::All, usize::MAX, seed).filter(is_row);
    for (number, case) in cases.take(count).enumerate() {
        let answer = answer(&case.answer());
        let (question, unfolded) = question(&case);
        out += &format!(
            "\nrow{number} : {question} ≡ {answer}\nunfolding {unfolded} bytes\nrow{number} = refl\n"
        );
    }
    out
}

const HEAD: &str = "use mathlib.Core.Path.{◌≡◌, refl}
use mathlib.Core.Bool.{true, false}
use mathlib.Core.List.{[], ◌∷◌}
use Rattle.eon_rows.proofs.Computing.{reads, writes_by, settings, shows, tokens_of, ident, compares, bytes}
";

fn is_row(case: &Case) -> bool {
    match case {
        Case::Read(text) | Case::Unquote(text) | Case::Identifier(text) | Case::Tokens(text) => {
            text.len() <= LONGEST
        }
        Case::Compare(a, b) => a.len() + b.len() <= LONGEST,
        // The rows name the texts of settings that are not refused.
        Case::Format(text, options) => text.len() <= LONGEST && good(options),
    }
}

fn good(options: &Options) -> bool {
    texts(options)
        .iter()
        .all(|text| text.len() <= 16 && std::str::from_utf8(text).is_ok())
}

fn texts(options: &Options) -> [&[u8]; 4] {
    [
        &options.indentation,
        &options.newline,
        &options.space,
        &options.separator,
    ]
}

/// The call, and the name that unfolds it.
fn question(case: &Case) -> (String, &'static str) {
    match case {
        Case::Read(text) => (format!("reads {}", bytes(text)), "reads"),
        Case::Format(text, options) => {
            let [indentation, newline, space, separator] = texts(options).map(bytes);
            let braces = options.braces;
            let settings =
                format!("(settings {indentation} {newline} {space} {separator} {braces})");
            (format!("writes_by {settings} {}", bytes(text)), "writes_by")
        }
        Case::Unquote(text) => (format!("shows {}", bytes(text)), "shows"),
        Case::Identifier(text) => (format!("ident {}", bytes(text)), "ident"),
        Case::Tokens(text) => (format!("tokens_of {}", bytes(text)), "tokens_of"),
        Case::Compare(a, b) => (format!("compares {} {}", bytes(a), bytes(b)), "compares"),
    }
}

/// 0 and the answer, or the five numbers of a refusal.
fn answer(answer: &Answer) -> String {
    match answer {
        Answer::Words(words) => format!("0 ∷ {}", list(words.iter().copied())),
        Answer::Bytes(text) => format!("0 ∷ {}", bytes(text)),
        Answer::Truth(truth) => format!("0 ∷ {}", list([u32::from(*truth)])),
        Answer::Refused(r) => list(r.numbers()),
    }
}

/// A text in quotes where each of its characters can stand there, otherwise a list.
fn bytes(text: &[u8]) -> String {
    let plain = |byte: &u8| matches!(byte, b'\n' | b'\t' | b' '..=b'~');
    if text.iter().all(plain) {
        let quoted: String = text.escape_ascii().map(char::from).collect();
        format!("(bytes \"{}\")", quoted.replace("\\'", "'"))
    } else {
        format!("({})", list(text.iter().copied().map(u32::from)))
    }
}

fn list(numbers: impl IntoIterator<Item = u32>) -> String {
    let mut out = String::new();
    for number in numbers {
        out += &format!("{number} ∷ ");
    }
    out + "[]"
}

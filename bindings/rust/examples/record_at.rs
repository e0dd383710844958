//! `record_at PATH OFFSET` prints the record at a byte offset of the file, its number, kind, span and
//! text; or says why the file is refused, where, and ends with 1.

use std::error::Error;
use std::io::Write as _;
use std::path::Path;
use std::process::ExitCode;

const KINDS: [&str; 9] = [
    "identifier",
    "number",
    "string",
    "list",
    "map",
    "variant",
    "prefix comment",
    "suffix comment",
    "closing comment",
];

fn main() -> ExitCode {
    let mut arguments = std::env::args_os().skip(1);
    let path = arguments.next();
    let offset = arguments
        .next()
        .and_then(|word| word.to_str()?.parse().ok());
    let (Some(path), Some(offset)) = (path, offset) else {
        eprintln!("usage: record_at PATH OFFSET");
        return ExitCode::FAILURE;
    };
    match record_at(path.as_ref(), offset) {
        Ok(()) => ExitCode::SUCCESS,
        Err(error) => {
            eprintln!("{}: {error}", path.display());
            ExitCode::FAILURE
        }
    }
}

fn record_at(path: &Path, offset: usize) -> Result<(), Box<dyn Error>> {
    let text = std::fs::read(path)?;
    let mut table = vec![0; eon::table_words(text.len())];
    let number = eon::read(&text, &mut table)
        .and_then(|_| eon::record_at(&text, &table, offset))
        .map_err(|refusal| located(refusal, &text))?;
    let record = &table[number * eon::RECORD_WORDS..];
    let [kind, start, text_end, end] = [0, 1, 2, 3].map(|word| record[word] as usize);
    let mut out = std::io::stdout();
    write!(out, "{number} {} {start}..{end}: ", KINDS[kind - 1])?;
    out.write_all(&text[start..text_end])?;
    writeln!(out)?;
    Ok(())
}

/// The refusal in words, behind its line and column if it has a place.
fn located(refusal: eon::Refusal, text: &[u8]) -> String {
    match refusal.line_column(text) {
        Some(place) => format!("{place}: {refusal}"),
        None => refusal.to_string(),
    }
}

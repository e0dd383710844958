//! `reformat_file PATH` prints the file laid out, or says why it is refused, where, and ends with 1.

use std::error::Error;
use std::io::Write as _;
use std::path::Path;
use std::process::ExitCode;

fn main() -> ExitCode {
    let Some(path) = std::env::args_os().nth(1) else {
        eprintln!("usage: reformat_file PATH");
        return ExitCode::FAILURE;
    };
    match reformat(path.as_ref()) {
        Ok(()) => ExitCode::SUCCESS,
        Err(error) => {
            eprintln!("{}: {error}", path.display());
            ExitCode::FAILURE
        }
    }
}

fn reformat(path: &Path) -> Result<(), Box<dyn Error>> {
    let text = std::fs::read(path)?;
    let mut table = vec![0; eon::table_words(text.len())];
    let mut out = vec![0; eon::layout_bytes(text.len())];
    let len = eon::reformat(&text, &mut table, &eon::Settings::default(), &mut out)
        .map_err(|refusal| located(refusal, &text))?;
    std::io::stdout().write_all(&out[..len])?;
    Ok(())
}

/// The refusal in words, behind its line and column if it has a place.
fn located(refusal: eon::Refusal, text: &[u8]) -> String {
    match refusal.line_column(text) {
        Some(place) => format!("{place}: {refusal}"),
        None => refusal.to_string(),
    }
}

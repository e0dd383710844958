//! `lookup EVENT PATHS` looks the paths of the second file up in the first, and prints for each the text
//! of a value that it reaches, or `none`, and then the steps; or says why a file is refused, where, and
//! ends with 1.

use std::error::Error;
use std::io::Write as _;
use std::path::Path;
use std::process::ExitCode;

/// The kind of a list's record.
const LIST: u32 = 4;

fn main() -> ExitCode {
    let mut arguments = std::env::args_os().skip(1);
    let (Some(event), Some(paths)) = (arguments.next(), arguments.next()) else {
        eprintln!("usage: lookup EVENT PATHS");
        return ExitCode::FAILURE;
    };
    match lookup(event.as_ref(), paths.as_ref()) {
        Ok(()) => ExitCode::SUCCESS,
        Err(error) => {
            eprintln!("{error}");
            ExitCode::FAILURE
        }
    }
}

fn lookup(event: &Path, paths: &Path) -> Result<(), Box<dyn Error>> {
    let event = File::load(event)?;
    let paths = File::load(paths)?;
    let mut answers = [0; eon::PATHS_MAX];
    // Both tables are finished, so that only the form of the paths can be refused.
    let steps = eon::lookup(
        &event.text,
        &event.table,
        &paths.text,
        &paths.table,
        &mut answers,
    )
    .map_err(|refusal| paths.said(refusal))?;
    // Of a list of paths each list but the first is a path.
    let lists = paths.records().filter(|record| record[0] == LIST);
    let mut out = std::io::stdout();
    for (number, _) in answers.into_iter().zip(lists.skip(1)) {
        out.write_all(event.value(number))?;
        writeln!(out)?;
    }
    writeln!(out, "steps: {steps}")?;
    Ok(())
}

/// A file's text with its table.
struct File<'a> {
    path: &'a Path,
    text: Vec<u8>,
    table: Vec<u32>,
}

impl<'a> File<'a> {
    fn load(path: &'a Path) -> Result<Self, Box<dyn Error>> {
        let text = std::fs::read(path).map_err(|error| format!("{}: {error}", path.display()))?;
        let table = vec![0; eon::table_words(text.len())];
        let mut file = Self { path, text, table };
        let count = eon::read(&file.text, &mut file.table).map_err(|refusal| file.said(refusal))?;
        file.table.truncate(count * eon::RECORD_WORDS);
        Ok(file)
    }

    fn records(&self) -> impl Iterator<Item = &[u32]> {
        self.table.chunks(eon::RECORD_WORDS)
    }

    fn value(&self, number: u32) -> &[u8] {
        if number == eon::NONE {
            return b"none";
        }
        let record = &self.table[number as usize * eon::RECORD_WORDS..];
        &self.text[record[1] as usize..record[3] as usize]
    }

    /// The refusal in words, behind the file's name, and its line and column if it has a place.
    fn said(&self, refusal: eon::Refusal) -> String {
        let path = self.path.display();
        match refusal.line_column(&self.text) {
            Some(place) => format!("{path}: {place}: {refusal}"),
            None => format!("{path}: {refusal}"),
        }
    }
}

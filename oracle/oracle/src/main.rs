//! `oracle answer`, `oracle generate`, `oracle rows` and `oracle agree`: see README.md.

use oracle::generate::{Kind, generate};
use std::fs;
use std::io::{self, BufRead, BufReader, BufWriter, Read, Write};
use std::panic;
use std::process::ExitCode;

const USAGE: &str = "usage: oracle answer < CASES
       oracle generate KIND COUNT SEED
       oracle rows COUNT SEED
       oracle agree FILE..";

const BUFFER: usize = 1 << 16;

fn main() -> ExitCode {
    let arguments: Vec<String> = std::env::args_os()
        .skip(1)
        .map(|argument| argument.to_string_lossy().into_owned())
        .collect();
    let arguments: Vec<&str> = arguments.iter().map(String::as_str).collect();
    let result = match arguments[..] {
        ["answer"] => answer_lines(io::stdin().lock(), io::stdout().lock()),
        ["generate", kind, count, seed] => match generate_arguments(kind, count, seed) {
            Ok((kind, count, seed)) => print_cases(kind, count, seed, io::stdout().lock()),
            Err(message) => return usage(&message),
        },
        ["rows", count, seed] => match generate_arguments("all", count, seed) {
            Ok((_, count, seed)) => io::stdout().write_all(oracle::rows(count, seed).as_bytes()),
            Err(message) => return usage(&message),
        },
        ["agree", ref files @ ..] if !files.is_empty() => match agree_files(files) {
            Ok(true) => Ok(()),
            Ok(false) => return ExitCode::FAILURE,
            Err(error) => Err(error),
        },
        _ => return usage("unknown arguments"),
    };
    match result {
        Ok(()) => ExitCode::SUCCESS,
        // Whoever reads has had enough.
        Err(error) if error.kind() == io::ErrorKind::BrokenPipe => ExitCode::SUCCESS,
        Err(error) => {
            eprintln!("oracle: {error}");
            ExitCode::FAILURE
        }
    }
}

fn usage(message: &str) -> ExitCode {
    let kinds: Vec<&str> = Kind::ALL.iter().map(|kind| kind.name()).collect();
    eprintln!("oracle: {message}\n{USAGE}\nkinds: {}", kinds.join(" "));
    ExitCode::FAILURE
}

fn generate_arguments(kind: &str, count: &str, seed: &str) -> Result<(Kind, usize, u64), String> {
    let kind = Kind::named(kind).ok_or_else(|| format!("unknown kind {kind}"))?;
    let count = count
        .parse()
        .map_err(|error| format!("COUNT {count}: {error}"))?;
    let seed = seed
        .parse()
        .map_err(|error| format!("SEED {seed}: {error}"))?;
    Ok((kind, count, seed))
}

fn print_cases(kind: Kind, count: usize, seed: u64, out: impl Write) -> io::Result<()> {
    let mut out = BufWriter::with_capacity(BUFFER, out);
    let mut line = Vec::new();
    for case in generate(kind, count, seed) {
        line.clear();
        case.write(&mut line);
        line.push(b'\n');
        out.write_all(&line)?;
    }
    out.flush()
}

/// Prints how the rows of each file stand to the original: whether none differs.
fn agree_files(files: &[&str]) -> io::Result<bool> {
    let mut agree = true;
    for name in files {
        let file = fs::read_to_string(name)
            .map_err(|error| io::Error::new(error.kind(), format!("{name}: {error}")))?;
        let agreement = oracle::agree(&file);
        agree &= agreement.differing.is_empty();
        writeln!(io::stdout(), "{name}: {agreement}")?;
    }
    Ok(agree)
}

fn answer_lines(input: impl Read, out: impl Write) -> io::Result<()> {
    let mut input = BufReader::with_capacity(BUFFER, input);
    let mut out = BufWriter::with_capacity(BUFFER, out);
    let mut line = Vec::new();
    let mut answer = Vec::new();
    loop {
        // Whoever waits for answers before asking on gets them.
        if input.buffer().is_empty() {
            out.flush()?;
        }
        line.clear();
        if input.read_until(b'\n', &mut line)? == 0 {
            return out.flush();
        }
        if line.last() == Some(&b'\n') {
            line.pop();
        }
        answer.clear();
        answer_line(&line, &mut answer);
        answer.push(b'\n');
        out.write_all(&answer)?;
    }
}

fn answer_line(line: &[u8], out: &mut Vec<u8>) {
    // A panic, such as an unmapped error, is one bad answer and not the end of the others.
    let result = panic::catch_unwind(|| oracle::answer(line));
    match result {
        Ok(Ok(answer)) => answer.write(out),
        Ok(Err(message)) => out.extend(format!("error: {message}").bytes()),
        Err(_) => out.extend(b"error: the original panicked, see standard error"),
    }
}

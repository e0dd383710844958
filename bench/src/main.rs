//! `bench times` prints times; `bench SIDE CALL SHAPE BYTES REPEATS` makes one call so often, for
//! callgrind; `bench list` prints the rows, each with the sides that have the call. See
//! docs/BENCHMARKS.md.

mod calls;
mod texts;

use calls::Call;
use std::process::ExitCode;
use std::time::{Duration, Instant};
use texts::Shape;

const USAGE: &str = "usage: bench times
       bench list
       bench ours|original|general CALL SHAPE BYTES REPEATS";

/// The largest is a multiple of 8, so that marks in a row come out even as in the others.
const SIZES: [usize; 3] = [1024, 8192, 65528];

/// The best of so many batches is taken, since others use the machine too.
const ROUNDS: usize = 20;

/// A batch takes at least so long.
const BATCH: Duration = Duration::from_millis(2);

fn main() -> ExitCode {
    let arguments: Vec<String> = std::env::args().skip(1).collect();
    let arguments: Vec<&str> = arguments.iter().map(String::as_str).collect();
    match arguments[..] {
        ["times"] => each_row(print_times),
        ["list"] => each_row(print_sides),
        [side, call, shape, bytes, repeats] => {
            if repeat(side, call, shape, bytes, repeats).is_none() {
                return usage();
            }
        }
        _ => return usage(),
    }
    ExitCode::SUCCESS
}

fn usage() -> ExitCode {
    eprintln!("{USAGE}");
    ExitCode::FAILURE
}

fn each_row(mut row: impl FnMut(&str, &str, usize)) {
    for call in ["read", "format", "reformat"] {
        for shape in &texts::USUAL {
            each_size(|bytes| row(call, shape.name, bytes));
        }
    }
    for shape in ["escapes", "no escapes"] {
        each_size(|bytes| row("unquote", shape, bytes));
    }
    for shape in &texts::HARD {
        each_size(|bytes| row("read", shape.name, bytes));
    }
    for shape in ["ascii letters", "accents"] {
        each_size(|bytes| row("utf8", shape, bytes));
    }
    for call in ["compare", "record_at", "records_in", "records_in, a line"] {
        for shape in ["event", "map", "deep"] {
            each_size(|bytes| row(call, shape, bytes));
        }
    }
    for call in ["lookup", "lookup, a path a call"] {
        each_size(|bytes| row(call, texts::SHEET.name, bytes));
    }
}

fn each_size(row: impl FnMut(usize)) {
    SIZES.into_iter().for_each(row);
}

fn text(shape: &str, bytes: usize) -> Option<String> {
    match shape {
        "escapes" => Some(texts::quoted(bytes, true)),
        "no escapes" => Some(texts::quoted(bytes, false)),
        _ => Shape::named(shape).map(|shape| shape.text(bytes)),
    }
}

fn repeat(side: &str, call: &str, shape: &str, bytes: &str, repeats: &str) -> Option<()> {
    let text = text(shape, bytes.parse().ok()?)?;
    let mut call = calls::call(side, call, &text)?;
    for _ in 0..repeats.parse().ok()? {
        call();
    }
    Some(())
}

fn print_sides(call: &str, shape: &str, bytes: usize) {
    let Some(text) = text(shape, bytes) else {
        return;
    };
    let has_call = |side: &&str| calls::call(side, call, &text).is_some();
    let sides: Vec<&str> = calls::SIDES.into_iter().filter(has_call).collect();
    println!("{call}\t{shape}\t{bytes}\t{}", sides.join(" "));
}

/// Microseconds a call. The sides take turns, so that what slows the machine slows them all.
fn print_times(call: &str, shape: &str, bytes: usize) {
    let Some(text) = text(shape, bytes) else {
        return;
    };
    let sides = calls::SIDES.into_iter();
    let mut timed: Vec<Timed> = sides
        .filter_map(|side| calls::call(side, call, &text))
        .map(Timed::new)
        .collect();
    for _ in 0..ROUNDS {
        timed.iter_mut().for_each(Timed::run);
    }
    print!("{call}\t{shape}\t{bytes}");
    for side in timed {
        print!("\t{:.2}", side.best * 1e6);
    }
    println!();
}

struct Timed<'a> {
    call: Call<'a>,
    /// Calls in a batch.
    batch: u32,
    /// Seconds a call in the best batch.
    best: f64,
}

impl<'a> Timed<'a> {
    fn new(call: Call<'a>) -> Self {
        let mut timed = Self {
            call,
            batch: 1,
            best: f64::INFINITY,
        };
        while timed.batch_time() < BATCH {
            timed.batch *= 2;
        }
        timed
    }

    fn run(&mut self) {
        let time = self.batch_time().as_secs_f64() / f64::from(self.batch);
        self.best = self.best.min(time);
    }

    fn batch_time(&mut self) -> Duration {
        let start = Instant::now();
        for _ in 0..self.batch {
            (self.call)();
        }
        start.elapsed()
    }
}

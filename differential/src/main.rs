//! `differential COUNT SEED KIND [exact]`: see README.md.

use differential::caught;
use differential::check::{Checker, Number};
use differential::counts::Counts;
use differential::lent::Behind;
use differential::shrink::shrink;
use oracle::Case;
use oracle::generate::{Kind, generate};
use oracle::models::{Part, Parts};
use std::process::ExitCode;

const USAGE: &str = "usage: differential COUNT SEED KIND [exact]";

fn main() -> ExitCode {
    let arguments: Vec<String> = std::env::args_os()
        .skip(1)
        .map(|argument| argument.to_string_lossy().into_owned())
        .collect();
    let parsed = match &arguments[..] {
        [count, seed, kind] => parse(count, seed, kind, Behind::Guard),
        [count, seed, kind, exact] if exact == "exact" => parse(count, seed, kind, Behind::Nothing),
        _ => None,
    };
    let Some(plan) = parsed else {
        let kinds: Vec<&str> = Kind::ALL.iter().map(|kind| kind.name()).collect();
        eprintln!("{USAGE}\nkinds: {}", kinds.join(" "));
        return ExitCode::from(2);
    };
    match run(&plan) {
        Ok(total) => {
            println!("{total} cases, no difference");
            ExitCode::SUCCESS
        }
        Err(message) => {
            println!("{message}");
            ExitCode::FAILURE
        }
    }
}

/// What to ask.
struct Plan {
    count: usize,
    seed: u64,
    kind: Kind,
    behind: Behind,
}

fn parse(count: &str, seed: &str, kind: &str, behind: Behind) -> Option<Plan> {
    Some(Plan {
        count: count.parse().ok()?,
        seed: seed.parse().ok()?,
        kind: Kind::named(kind)?,
        behind,
    })
}

fn run(plan: &Plan) -> Result<usize, String> {
    let mut checker = Checker::new(plan.behind);
    let mut total = 0;
    for (kind, count) in portions(plan.count, plan.kind) {
        let cases = generate(kind, count, plan.seed).map(|case| laid(case, plan.behind));
        total += run_kind(&mut checker, kind, cases)?;
    }
    Ok(total)
}

/// A text's allocation ends where memory behind it is to be nothing.
fn laid(mut case: Case, behind: Behind) -> Case {
    if behind == Behind::Nothing {
        for text in texts(&mut case) {
            text.shrink_to_fit();
        }
    }
    case
}

/// `all` is each kind by its share. The short texts are few, so the others share what is left.
fn portions(count: usize, kind: Kind) -> Vec<(Kind, usize)> {
    if kind != Kind::All {
        return vec![(kind, count)];
    }
    let whole = Kind::All.share();
    let short = (count * Kind::Short.share() / whole).min(generate(Kind::Short, count, 0).count());
    let mut portions = vec![(Kind::Short, short)];
    let others = Kind::ALL
        .into_iter()
        .filter(|kind| ![Kind::All, Kind::Short].contains(kind));
    portions.extend(others.map(|kind| {
        let count = (count - short) * kind.share() / (whole - Kind::Short.share());
        (kind, count)
    }));
    let missing = count - portions.iter().map(|(_, count)| count).sum::<usize>();
    if let Some((_, last)) = portions.last_mut() {
        *last += missing;
    }
    portions
}

fn run_kind(
    checker: &mut Checker,
    kind: Kind,
    cases: impl Iterator<Item = Case>,
) -> Result<usize, String> {
    let mut counts = Counts::default();
    for case in cases {
        match ask(checker, &case) {
            Ok(number) => counts.add(number),
            Err(_) => return Err(report(checker, case)),
        }
    }
    println!("{:10} {counts}", kind.name());
    Ok(counts.total())
}

fn ask(checker: &mut Checker, case: &Case) -> Result<Number, String> {
    caught(|| checker.check(case))
}

/// The texts of a case, settings too.
fn texts(case: &mut Case) -> Vec<&mut Vec<u8>> {
    let parts = case.parts().into_iter();
    let texts = parts.filter_map(|part| match part {
        Part::Bytes(text) => Some(text),
        _ => None,
    });
    texts.collect()
}

fn report(checker: &mut Checker, case: Case) -> String {
    let mut smallest = shrink(case, |case| ask(checker, case).is_err());
    let difference = ask(checker, &smallest).unwrap_err();
    let mut line = Vec::new();
    smallest.write(&mut line);
    let line = String::from_utf8_lossy(&line);
    let fields: Vec<String> = texts(&mut smallest)
        .iter()
        .map(|bytes| format!("\"{}\"", bytes.escape_ascii()))
        .collect();
    format!(
        "difference in {difference}\ncase: {line}\ntexts: {}",
        fields.join(" ")
    )
}

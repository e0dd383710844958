//! `requests COUNT SEED [NAME [exact]]`: see README.md.

use differential::lent::Behind;
use differential::requests::{Plan, REQUESTS, Request};
use std::process::ExitCode;

const USAGE: &str = "usage: requests COUNT SEED [NAME [exact]]";

/// Stands for every name.
const ALL: &str = "all";

fn main() -> ExitCode {
    let arguments: Vec<String> = std::env::args_os()
        .skip(1)
        .map(|argument| argument.to_string_lossy().into_owned())
        .collect();
    let arguments: Vec<&str> = arguments.iter().map(String::as_str).collect();
    let parsed = match arguments[..] {
        [count, seed] => parse(count, seed, ALL, Behind::Guard),
        [count, seed, name] => parse(count, seed, name, Behind::Guard),
        [count, seed, name, "exact"] => parse(count, seed, name, Behind::Nothing),
        _ => None,
    };
    let Some((plan, requests)) = parsed else {
        let names: Vec<&str> = REQUESTS.iter().map(|request| request.name).collect();
        eprintln!("{USAGE}\nnames: {ALL} {}", names.join(" "));
        return ExitCode::from(2);
    };
    run(&plan, &requests)
}

/// Runs each, whether or not one before it differs.
fn run(plan: &Plan, requests: &[Request]) -> ExitCode {
    let (mut total, mut differs) = (0, false);
    for request in requests {
        match (request.run)(plan) {
            Ok(counts) => {
                println!("{:10} {counts}", request.name);
                total += counts.total();
            }
            Err(difference) => {
                println!("{difference}");
                differs = true;
            }
        }
    }
    if differs {
        return ExitCode::FAILURE;
    }
    println!("{total} cases, no difference");
    ExitCode::SUCCESS
}

fn parse(count: &str, seed: &str, name: &str, behind: Behind) -> Option<(Plan, Vec<Request>)> {
    let plan = Plan {
        count: count.parse().ok()?,
        seed: seed.parse().ok()?,
        behind,
    };
    let mut requests = Vec::from(REQUESTS);
    requests.retain(|request| name == ALL || request.name == name);
    (!requests.is_empty()).then_some((plan, requests))
}

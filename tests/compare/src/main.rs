//! Compares the archive with the reference, its runs with its single calls, and its rings
//! with its first board: every answer and every byte.
//!
//!     compare [--seed N] [--calls N] [--seconds N]   many cases, some of them runs
//!     compare --seed N --case N                      one of them again
//!     compare --replay 'CASE'                        a case as it was printed

mod beside;
mod call;
mod case;
mod crash;
mod damage;
mod distances;
mod guarded;
mod input;
mod make;
mod make_run;
mod ring;
mod rng;
mod run;
mod shrink;
mod shrink_run;
mod tables;
mod tally;
mod tally_run;

use input::Input;
use std::process::ExitCode;
use std::time::{Duration, Instant};
use tally::Tally;

struct Options {
    seed: u64,
    calls: u64,
    seconds: u64,
    case: Option<u64>,
    replay: Option<Input>,
}

fn main() -> ExitCode {
    let options = match options(std::env::args().skip(1)) {
        Ok(options) => options,
        Err(error) => {
            eprintln!("compare: {error}");
            return ExitCode::from(2);
        }
    };
    if let Some(input) = &options.replay {
        return compare_one(input);
    }
    if let Some(number) = options.case {
        return compare_one(&Input::of_number(options.seed, number));
    }
    compare_many(&options)
}

fn options(mut arguments: impl Iterator<Item = String>) -> Result<Options, String> {
    let mut options =
        Options { seed: 1, calls: 4_000_000, seconds: u64::MAX, case: None, replay: None };
    while let Some(name) = arguments.next() {
        let value = arguments.next().ok_or(format!("{name}: a value is missing"))?;
        let number = || value.parse::<u64>().map_err(|error| format!("{name} {value}: {error}"));
        match name.as_str() {
            "--seed" => options.seed = number()?,
            "--calls" => options.calls = number()?,
            "--seconds" => {
                options.seconds = number()?;
                options.calls = u64::MAX;
            }
            "--case" => options.case = Some(number()?),
            "--replay" => options.replay = Some(value.parse()?),
            _ => return Err(format!("no option {name}")),
        }
    }
    Ok(options)
}

/// Runs cases 0, 1, 2 and so on until there are enough calls or no time left.
fn compare_many(options: &Options) -> ExitCode {
    let begun = Instant::now();
    let mut tally = Tally::default();
    let mut number = 0;
    crash::watch(options.seed);
    while tally.calls < options.calls && begun.elapsed() < Duration::from_secs(options.seconds) {
        crash::now_at(number);
        let input = Input::of_number(options.seed, number);
        if input.differs(&mut tally) {
            explain(options.seed, number, input);
            println!("compare: {}, 1 difference", compared(&tally));
            return ExitCode::FAILURE;
        }
        number += 1;
    }
    print!("{tally}");
    println!("seed {}, {number} cases, {:.1} s", options.seed, begun.elapsed().as_secs_f64());
    judge(&tally)
}

/// No case differed; but a reply that never occurred was never compared.
fn judge(tally: &Tally) -> ExitCode {
    let missing = tally.missing();
    missing.iter().for_each(|missing| println!("{missing}"));
    let compared = compared(tally);
    if missing.is_empty() {
        println!("compare: {compared}, 0 differences");
        ExitCode::SUCCESS
    } else {
        println!("compare: {compared}, 0 differences, {} never occurred", missing.len());
        ExitCode::FAILURE
    }
}

fn compared(tally: &Tally) -> String {
    let Tally { calls, runs, .. } = tally;
    format!("{calls} calls, {} runs of {} steps", runs.runs, runs.steps)
}

fn explain(seed: u64, number: u64, input: Input) {
    println!("case {number} of seed {seed} differs");
    println!("again: compare --seed {seed} --case {number}");
    let input = input.shrunk();
    input.explain();
    if let Some(smaller) = smaller_after(seed, number, &input) {
        smaller.explain();
    }
}

fn compare_one(input: &Input) -> ExitCode {
    let mut tally = Tally::default();
    if input.differs(&mut tally) {
        input.clone().shrunk().explain();
        println!("compare: {}, 1 difference", compared(&tally));
        ExitCode::FAILURE
    } else {
        println!("compare: {}, 0 differences", compared(&tally));
        ExitCode::SUCCESS
    }
}

/// A smaller input among those after this one. A board that is wrong in one case
/// is usually wrong in more, and one of those may be simpler.
fn smaller_after(seed: u64, number: u64, input: &Input) -> Option<Input> {
    let begun = Instant::now();
    let mut smallest: Option<Input> = None;
    for later in number + 1.. {
        if begun.elapsed() > Duration::from_secs(2) {
            break;
        }
        crash::now_at(later);
        let other = Input::of_number(seed, later);
        if other.differs(&mut Tally::default()) {
            let other = other.shrunk();
            if other.size() < smallest.as_ref().unwrap_or(input).size() {
                smallest = Some(other);
            }
        }
    }
    smallest
}

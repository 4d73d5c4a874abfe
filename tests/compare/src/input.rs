//! What is compared: a case, whose calls are made one after the other, or a run.

use crate::case::{hex, Case};
use crate::run::{call_of, Run, CODE, NAME};
use crate::tally::Tally;
use crate::{make, make_run, shrink, shrink_run};
use std::fmt;
use std::str::FromStr;

#[derive(Clone)]
pub enum Input {
    Case(Case),
    Run(Run),
}

impl Input {
    /// The input of this number under this seed. One in sixteen is a run.
    pub fn of_number(seed: u64, number: u64) -> Input {
        match number % 16 {
            15 => Input::Run(make_run::run(seed, number)),
            _ => Input::Case(make::case(seed, number)),
        }
    }

    /// Compares it and counts it.
    pub fn differs(&self, tally: &mut Tally) -> bool {
        match self {
            Input::Case(case) => case.run(|compared| tally.count(&compared)).is_some(),
            Input::Run(run) => {
                let (reference, difference) = run.compare();
                tally.runs.count(run, reference.answer);
                difference.is_some()
            }
        }
    }

    /// The smallest input that still differs.
    pub fn shrunk(self) -> Input {
        match self {
            Input::Case(case) => Input::Case(shrink::shrink(case)),
            Input::Run(run) => Input::Run(shrink_run::shrink(run)),
        }
    }

    pub fn size(&self) -> (usize, usize, u64) {
        match self {
            Input::Case(case) => shrink::size(case),
            Input::Run(run) => shrink_run::size(run),
        }
    }

    /// An input that differs, the answers to its calls, and how to run it again.
    pub fn explain(&self) {
        match self {
            Input::Case(case) => explain_case(case),
            Input::Run(run) => explain_run(run),
        }
        println!("replay: compare --replay '{self}'");
    }
}

fn explain_case(case: &Case) {
    let (calls, bytes) = (case.calls.len(), case.table.len());
    println!("smallest case so far: {calls} calls, a table of {bytes} bytes");
    println!("table:{}", hex(&case.table));
    let mut answers = Vec::new();
    let difference = case.run(|compared| answers.push(compared.answer));
    for (call, &answer) in case.calls.iter().zip(&answers) {
        println!("  {call}: {}", reply(answer));
    }
    if let Some(difference) = difference {
        let expected = difference.expected_by;
        println!(
            "  {expected} {}, archive {}",
            reply(difference.expected),
            reply(difference.archive)
        );
        if let Some((at, byte, archive)) = difference.byte {
            println!("  byte {at}: {expected} {byte:02X}, archive {archive:02X}");
        }
    }
}

fn explain_run(run: &Run) {
    let (steps, bytes) = (run.steps.len(), run.table.len());
    println!("smallest case so far: a run of {steps} steps, a table of {bytes} bytes");
    println!("table:{}", hex(&run.table));
    println!("replies before the run:{}", hex(&run.replies));
    let (mut reference, difference) = run.compare();
    for (at, &step) in run.steps.iter().enumerate() {
        let step = call_of(step).map_or(format!("code {}", step[CODE]), |call| call.to_string());
        match reference.answer {
            0 => println!("  {step}: {}", reply(reference.reply(at))),
            _ => println!("  {step}"),
        }
    }
    if !run.rest.is_empty() {
        println!("  left over:{}", hex(&run.rest));
    }
    if let Some(difference) = difference {
        let expected = difference.expected_by;
        println!(
            "  {expected} {}, archive {}",
            reply(difference.expected),
            reply(difference.archive)
        );
        if let Some((table, (at, byte, archive))) = difference.byte {
            println!("  byte {at} of the {table}: {expected} {byte:02X}, archive {archive:02X}");
        }
    }
}

fn reply(answer: u32) -> String {
    format!("{} {}", answer >> 16, answer & 0xFFFF)
}

impl fmt::Display for Input {
    fn fmt(&self, out: &mut fmt::Formatter) -> fmt::Result {
        match self {
            Input::Case(case) => write!(out, "{case}"),
            Input::Run(run) => write!(out, "{run}"),
        }
    }
}

impl FromStr for Input {
    type Err = String;

    fn from_str(text: &str) -> Result<Input, String> {
        match text.trim_start().starts_with(NAME) {
            true => text.parse().map(Input::Run),
            false => text.parse().map(Input::Case),
        }
    }
}

//! Which runs were compared: by their answer and by what they were lent, and the steps of
//! the accepted ones.

use crate::call::Room;
use crate::case::Compared;
use crate::run::{call_of, Run, CODE};
use crate::tally::{print_row, Counts};
use reference::{is_sound, Limits};
use std::fmt;

/// The reply numbers of a run.
const ANSWERS: [u16; 3] = [0, 4, 5];

/// What a run was lent.
struct Shape {
    name: &'static str,
    is: fn(&Run) -> bool,
    /// It must occur with these answers.
    with: &'static [u16],
}

const SHAPES: [Shape; 11] = [
    Shape { name: "all", is: |_| true, with: &[0, 4, 5] },
    Shape { name: "no step", is: |run| run.steps.is_empty(), with: &[0, 5] },
    Shape { name: "100 steps", is: |run| run.steps.len() >= 100, with: &[0, 4] },
    Shape { name: "words left", is: |run| run.rest.len() >= 2, with: &[0, 4, 5] },
    Shape { name: "odd steps", is: |run| run.rest.len() % 2 == 1, with: &[0, 4, 5] },
    Shape { name: "exact room", is: |run| run.replies.len() == enough(run), with: &[0, 5] },
    Shape { name: "more room", is: |run| run.replies.len() > enough(run) + 1, with: &[0, 5] },
    Shape { name: "byte short", is: |run| run.replies.len() + 1 == enough(run), with: &[4] },
    Shape { name: "a word each", is: |run| run.replies.len() == enough(run) / 2, with: &[4] },
    Shape { name: "odd room", is: |run| run.replies.len() % 2 == 1, with: &[0, 4, 5] },
    Shape { name: "unsound", is: |run| !is_sound(Limits::HALL, &run.table), with: &[4, 5] },
];

/// The bytes of the replies.
fn enough(run: &Run) -> usize {
    4 * run.steps.len()
}

/// Codes that are none of a step; each must occur in an accepted run.
const OTHER_CODES: [(&str, fn(u16) -> bool); 5] = [
    ("0", |code| code == 0),
    ("6", |code| code == 6),
    ("shorthand", |code| (9..=13).contains(&code)),
    ("65535", |code| code == 65_535),
    ("low byte", |code| (1..=5).contains(&(code & 255))),
];

#[derive(Default)]
pub struct RunTally {
    by_answer: [[u64; SHAPES.len()]; ANSWERS.len()],
    of_steps: Counts,
    of_other_codes: [u64; OTHER_CODES.len()],
    pub runs: u64,
    pub steps: u64,
}

impl RunTally {
    /// Counts a run, which the reference answered so.
    pub fn count(&mut self, run: &Run, answer: u32) {
        self.runs += 1;
        self.steps += run.steps.len() as u64;
        let row = ANSWERS.iter().position(|&number| u32::from(number) == answer >> 16);
        let by_shape = &mut self.by_answer[row.expect("a reply number of a run")];
        for (count, shape) in by_shape.iter_mut().zip(&SHAPES) {
            *count += u64::from((shape.is)(run));
        }
        if answer == 0 {
            self.count_steps(run);
        }
    }

    fn count_steps(&mut self, run: &Run) {
        let mut table = run.table.clone();
        for &step in &run.steps {
            match call_of(step) {
                Some(call) => self.of_steps.count(&Compared::of_call(call, &mut table)),
                None => {
                    let counts = self.of_other_codes.iter_mut().zip(OTHER_CODES);
                    counts.for_each(|(count, (_, is))| *count += u64::from(is(step[CODE])));
                }
            }
        }
    }

    /// What must occur, but never did. 5 is no reply of a step in a run.
    pub fn missing(&self) -> Vec<String> {
        let mut missing = self.of_steps.missing("run: ", Room::Hall, |number| number != 5);
        missing.retain(|missing| !missing.starts_with("run: open "));
        for (answer, by_shape) in ANSWERS.iter().zip(&self.by_answer) {
            let never = SHAPES.iter().zip(by_shape).filter(|(_, &count)| count == 0);
            let never = never.filter(|(shape, _)| shape.with.contains(answer));
            missing.extend(never.map(|(shape, _)| {
                format!("board_run never answered {answer} with: {}", shape.name)
            }));
        }
        let never = OTHER_CODES.iter().zip(self.of_other_codes).filter(|(_, count)| *count == 0);
        missing.extend(never.map(|((name, _), _)| format!("run: no step with code: {name}")));
        missing
    }
}

impl fmt::Display for RunTally {
    fn fmt(&self, out: &mut fmt::Formatter) -> fmt::Result {
        write!(out, "{:<16}", "board_run")?;
        ANSWERS.iter().try_for_each(|answer| write!(out, "{answer:>9}"))?;
        writeln!(out)?;
        for (at, shape) in SHAPES.iter().enumerate() {
            print_row(out, shape.name, &self.by_answer.map(|by_shape| by_shape[at]))?;
        }
        for ((name, _), &count) in OTHER_CODES.iter().zip(&self.of_other_codes) {
            print_row(out, &format!("code {name}"), &[count])?;
        }
        writeln!(out)?;
        self.of_steps.print(out, "steps of runs")
    }
}

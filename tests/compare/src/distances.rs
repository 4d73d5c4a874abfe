//! A case whose calls have distances in place of message numbers: how far each number is
//! from the one that is due, so 0 for the right one. Where no number is due, the distance
//! is the number.
//!
//! If a call is left out, or the table is changed, the calls after it keep their
//! distances. Most would be refused with 23 if they kept their numbers.

use crate::case::Case;
use crate::run::{call_of, Run, DESK, MESSAGE};
use reference::{next_message, List};

pub fn with_distances(case: &Case) -> Case {
    renumbered(case, to_distance)
}

/// The case that has these distances.
pub fn with_numbers(case: &Case) -> Case {
    renumbered(case, to_number)
}

/// The same of a run. A step with another code has the distance to its desk's number too.
pub fn run_with_distances(run: &Run) -> Run {
    renumbered_run(run, to_distance)
}

pub fn run_with_numbers(run: &Run) -> Run {
    renumbered_run(run, to_number)
}

/// From a message number, or a distance, and the number that is due: the number with
/// which the reference gets the call, and what the call then has.
type Renumber = fn(u16, u16) -> (u16, u16);

fn to_distance(message: u16, due: u16) -> (u16, u16) {
    (message, message.wrapping_sub(due))
}

fn to_number(distance: u16, due: u16) -> (u16, u16) {
    let message = due.wrapping_add(distance);
    (message, message)
}

fn renumbered(case: &Case, new: Renumber) -> Case {
    let mut renumbered = case.clone();
    let mut table = case.table.clone();
    for call in &mut renumbered.calls {
        if call.function.is_step() {
            let (sent, kept) = new(call.message, call.due_message(&table).unwrap_or(0));
            call.message = sent;
            call.to_reference(&mut table);
            call.message = kept;
        } else {
            call.to_reference(&mut table);
        }
    }
    renumbered
}

fn renumbered_run(run: &Run, new: Renumber) -> Run {
    let mut renumbered = run.clone();
    let mut table = run.table.clone();
    for step in &mut renumbered.steps {
        let due = next_message(List::Straight, &table, step[DESK]).unwrap_or(0);
        let (sent, kept) = new(step[MESSAGE], due);
        step[MESSAGE] = sent;
        if let Some(call) = call_of(*step) {
            call.to_reference(&mut table);
        }
        step[MESSAGE] = kept;
    }
    renumbered
}

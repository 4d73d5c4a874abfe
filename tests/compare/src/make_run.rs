//! Runs: the steps of a case in the hall, with other codes between them, any words where
//! a code lacks some, left-over words, and reply tables of every length.

use crate::call::{Function, Room};
use crate::case::Case;
use crate::distances::{with_distances, with_numbers};
use crate::make::case_for_run;
use crate::rng::Rng;
use crate::run::{call_of, step_of, Run, Step, CODE};
use crate::tables::any_bytes;

/// The run of this number under this seed.
pub fn run(seed: u64, number: u64) -> Run {
    let mut rng = Rng::of_case(seed, number);
    let rng = &mut rng;
    let case = in_hall(case_for_run(rng));
    let mut steps = Vec::new();
    for call in case.calls {
        let step = step_of(call, any_step(rng));
        if rng.one_in(16) {
            // The step after it has its message number, which must still be due.
            steps.push(with_other_code(rng, step));
        }
        steps.push(step);
    }
    if rng.one_in(16) {
        steps.truncate(rng.below(3));
    }
    let rest = rest(rng, &mut steps);
    let length = reply_bytes(rng, 4 * steps.len());
    let replies = any_bytes(rng, length);
    let aligns = [(); 3].map(|()| rng.below(8));
    Run { aligns, steps, rest, replies, table: case.table }
}

/// The case without its opening, from the table that this leaves, and without the calls
/// of the training room.
fn in_hall(case: Case) -> Case {
    let mut case = with_distances(&case);
    if let Some(opening) = case.calls.first().filter(|call| call.function == Function::Open) {
        opening.to_reference(&mut case.table);
    }
    case.calls.retain(|call| call.room == Room::Hall && call.function.is_step());
    with_numbers(&case)
}

/// What the words of a step may be if its code lacks them: also numbers within a hall.
fn any_step(rng: &mut Rng) -> Step {
    [(); 6].map(|()| match rng.below(4) {
        0 => 0,
        1 => rng.within(1, 4) as u16,
        2 => 65_535,
        _ => rng.word(),
    })
}

/// The same step with a code that is not 1 to 5; some have the low byte of one.
fn with_other_code(rng: &mut Rng, mut step: Step) -> Step {
    let any = rng.word();
    let other = [0, 0, 6, 6, 7, step[CODE] + 8, step[CODE] + 256, step[CODE] << 8, 65_535, any];
    step[CODE] = rng.pick(&other);
    if call_of(step).is_some() {
        step[CODE] = 0;
    }
    step
}

/// Half of the runs end in the first bytes of their last step, which then is none.
fn rest(rng: &mut Rng, steps: &mut Vec<Step>) -> Vec<u8> {
    let last = if rng.one_in(2) { steps.pop() } else { None };
    let mut rest: Vec<u8> = last.iter().flatten().flat_map(|word| word.to_le_bytes()).collect();
    rest.truncate(rng.below(12));
    rest
}

/// The length of a reply table: enough, more, or too few.
fn reply_bytes(rng: &mut Rng, enough: usize) -> usize {
    match rng.below(8) {
        0 => enough.saturating_sub(rng.within(1, 4)),
        1 => rng.pick(&[0, enough / 2, enough / 2 + 2]).min(enough),
        2..=4 => enough + rng.within(1, 20),
        _ => enough,
    }
}

//! The smallest run that still differs: fewest steps, then the smallest tables, then the
//! smallest numbers. As in shrink.rs, the steps have distances in place of message numbers.

use crate::call::hall_of;
use crate::case::Case;
use crate::distances::{run_with_distances, run_with_numbers};
use crate::run::{call_of, step_of, Run};
use crate::shrink::{halls_within, moved};
use reference::{set_word, word, Hall};

/// Tries smaller and smaller runs until none of them differs.
pub fn shrink(run: Run) -> Run {
    run_with_numbers(&shrunk(run_with_distances(&run)))
}

fn shrunk(run: Run) -> Run {
    let mut smallest = run;
    loop {
        let before = size(&smallest);
        fewer_steps(&mut smallest);
        smaller_hall(&mut smallest);
        for bytes in TABLES {
            shorter(&mut smallest, bytes);
            clearer(&mut smallest, bytes);
        }
        smaller_numbers(&mut smallest);
        if size(&smallest) == before {
            return smallest;
        }
    }
}

/// The bytes of a run besides its steps.
const TABLES: [fn(&mut Run) -> &mut Vec<u8>; 3] =
    [|run| &mut run.rest, |run| &mut run.replies, |run| &mut run.table];

/// Steps first, then the lengths of the tables, then their content.
pub fn size(run: &Run) -> (usize, usize, u64) {
    let tables = [&run.rest, &run.replies, &run.table];
    let bytes = tables.into_iter().flatten().map(|&byte| u64::from(byte));
    let numbers = run.steps.iter().flatten().map(|&number| u64::from(number));
    let aligns = run.aligns.iter().map(|&align| align as u64);
    (
        run.steps.len(),
        tables.into_iter().map(Vec::len).sum(),
        bytes.chain(numbers).chain(aligns).sum(),
    )
}

/// Takes the other run if it is smaller and still differs.
fn try_other(smallest: &mut Run, other: Run) -> bool {
    let better = size(&other) < size(smallest) && run_with_numbers(&other).differs();
    if better {
        *smallest = other;
    }
    better
}

/// Leaves out steps, many at once first, each with the room for its reply.
fn fewer_steps(smallest: &mut Run) {
    let mut length = smallest.steps.len();
    while length > 0 {
        let mut start = 0;
        while start + length <= smallest.steps.len() {
            let mut other = smallest.clone();
            other.steps.drain(start..start + length);
            let replies = other.replies.len().saturating_sub(4 * length);
            other.replies.truncate(replies);
            if !try_other(smallest, other) {
                start += length;
            }
        }
        length /= 2;
    }
}

/// As in shrink.rs.
fn smaller_hall(smallest: &mut Run) {
    let Some(hall) = hall_of(&smallest.table) else { return };
    let mut halls = halls_within(&hall);
    halls.sort_by_key(Hall::need);
    for to in halls {
        for skipped in [0, hall.desks - to.desks] {
            if try_other(smallest, moved_run(smallest, &hall, &to, skipped)) {
                return;
            }
        }
    }
}

fn moved_run(run: &Run, from: &Hall, to: &Hall, skipped: u16) -> Run {
    let calls = run.steps.iter().filter_map(|&step| call_of(step)).collect();
    let case = moved(&Case { align: 0, table: run.table.clone(), calls }, from, to, skipped);
    let mut other = Run { table: case.table, ..run.clone() };
    let with_call = other.steps.iter_mut().filter(|step| call_of(**step).is_some());
    for (step, call) in with_call.zip(case.calls) {
        *step = step_of(call, *step);
    }
    other
}

fn shorter(smallest: &mut Run, bytes: fn(&mut Run) -> &mut Vec<u8>) {
    let mut cut = bytes(smallest).len();
    while cut > 0 {
        let mut other = smallest.clone();
        let table = bytes(&mut other);
        table.truncate(table.len().saturating_sub(cut));
        if !try_other(smallest, other) {
            cut /= 2;
        }
    }
}

/// Zeros in place of bytes, many at once first.
fn clearer(smallest: &mut Run, bytes: fn(&mut Run) -> &mut Vec<u8>) {
    let mut length = bytes(smallest).len();
    while length > 0 {
        for start in (0..bytes(smallest).len()).step_by(length) {
            let mut other = smallest.clone();
            bytes(&mut other)[start..].iter_mut().take(length).for_each(|byte| *byte = 0);
            try_other(smallest, other);
        }
        length /= 2;
    }
}

/// Every number of the steps and the table: none, half, or one less.
fn smaller_numbers(smallest: &mut Run) {
    let other = Run { aligns: [0; 3], ..smallest.clone() };
    try_other(smallest, other);
    for at in 0..smallest.table.len() / 2 {
        let set = |run: &mut Run, value| set_word(&mut run.table, at, value);
        lower(smallest, |run| word(&run.table, at), set);
    }
    for index in 0..smallest.steps.len() {
        for field in 0..6 {
            let set = |run: &mut Run, value| run.steps[index][field] = value;
            lower(smallest, |run| run.steps[index][field], set);
        }
    }
}

fn lower(smallest: &mut Run, get: impl Fn(&Run) -> u16, set: impl Fn(&mut Run, u16)) {
    let value = get(smallest);
    for smaller in [0, 1, value / 2, value.saturating_sub(1)] {
        if smaller < get(smallest) {
            let mut other = smallest.clone();
            set(&mut other, smaller);
            try_other(smallest, other);
        }
    }
}

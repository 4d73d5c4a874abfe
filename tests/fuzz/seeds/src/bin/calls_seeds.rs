//! Writes cases and runs of tests/compare as inputs of fuzz_calls, one file each:
//!
//!     calls_seeds FOLDER COUNT
//!
//! One in four is a run.

#[path = "../../../../compare/src/beside.rs"]
#[allow(dead_code)]
mod beside;
#[path = "../../../../compare/src/call.rs"]
#[allow(dead_code)]
mod call;
#[path = "../../../../compare/src/case.rs"]
#[allow(dead_code)]
mod case;
#[path = "../../../../compare/src/damage.rs"]
mod damage;
#[path = "../../../../compare/src/distances.rs"]
#[allow(dead_code)]
mod distances;
#[path = "../../../../compare/src/guarded.rs"]
#[allow(dead_code)]
mod guarded;
#[path = "../../../../compare/src/make.rs"]
mod make;
#[path = "../../../../compare/src/make_run.rs"]
mod make_run;
#[path = "../../../../compare/src/ring.rs"]
#[allow(dead_code)]
mod ring;
#[path = "../../../../compare/src/rng.rs"]
mod rng;
#[path = "../../../../compare/src/run.rs"]
#[allow(dead_code)]
mod run;
#[path = "../../../../compare/src/tables.rs"]
mod tables;

use call::{FUNCTIONS, ROOMS};
use case::Case;
use distances::{run_with_distances, with_distances};
use run::{Run, CODE, DESK, MESSAGE};
use std::path::Path;
use std::{env, fs};

fn main() {
    let arguments: Vec<String> = env::args().collect();
    let [_, folder, count] = &arguments[..] else { panic!("calls_seeds FOLDER COUNT") };
    let count: u64 = count.parse().expect("a count");
    for number in 0..count {
        let file = Path::new(folder).join(format!("case-{number:05}"));
        let input = match number % 4 {
            3 => run_input(&make_run::run(1, number)),
            _ => input(&make::case(1, number)),
        };
        fs::write(file, input).expect("a file in the folder");
    }
}

/// In the format at the head of fuzz_calls.c.
fn input(case: &Case) -> Vec<u8> {
    let mut input = table(case.align, &case.table);
    for call in with_distances(case).calls {
        let function = call.room as u8 * FUNCTIONS.len() as u8 + call.function as u8;
        input.extend(numbers(function, &[], call.message, &call.numbers));
    }
    input
}

fn run_input(run: &Run) -> Vec<u8> {
    let [steps, replies, _] = run.aligns.map(place);
    let mut input = table(run.aligns[2], &run.table);
    input.push((ROOMS.len() * FUNCTIONS.len()) as u8);
    let length = run.steps.len().min(255);
    let room = run.replies.len() as i64 - 4 * length as i64;
    let room = room.clamp(-128, 127) as i8;
    input.extend([steps + PLACES * replies, length as u8, run.rest.len() as u8, room as u8]);
    for step in &run_with_distances(run).steps[..length] {
        let (message, fields) = (step[MESSAGE], &step[DESK..]);
        input.extend(match step[CODE] {
            code @ 0..0x3F => numbers(code as u8, &[], message, fields),
            code => numbers(0x3F, &code.to_le_bytes(), message, fields),
        });
    }
    input.extend(&run.rest);
    input
}

/// Places 0 and 1 of guarded_memory.h are next to the inaccessible pages.
fn place(align: usize) -> u8 {
    align as u8 + 2
}

const PLACES: u8 = 10;

fn table(align: usize, table: &[u8]) -> Vec<u8> {
    let mut input = vec![place(align)];
    let length = (table.len() as u16).to_le_bytes();
    // Zeros at the end are left to the fill byte.
    let given = table.iter().rposition(|&byte| byte != 0).map_or(0, |last| last + 1);
    input.extend(length);
    input.extend((given as u16).to_le_bytes());
    input.push(0);
    input.extend(&table[..given]);
    input
}

/// The first byte of a call or a step, what comes next, and its numbers: first the
/// distance of its message number, if it is not 0.
fn numbers(first: u8, next: &[u8], distance: u16, numbers: &[u16]) -> Vec<u8> {
    let is_narrow = i8::try_from(distance as i16).is_ok();
    let is_wide = !is_narrow || numbers.iter().any(|&number| number > 255);
    let flags = if is_wide { 0x80 } else { 0 } | if distance != 0 { 0x40 } else { 0 };
    let mut bytes = vec![first | flags];
    bytes.extend(next);
    for number in Some(distance).filter(|&distance| distance != 0).iter().chain(numbers) {
        bytes.extend(&number.to_le_bytes()[..if is_wide { 2 } else { 1 }]);
    }
    bytes
}

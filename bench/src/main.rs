//! Times the six calls of the archive, of the board in Rust and of the one in
//! C: the same questions, over the same bytes, in the same run. Prints
//! nanoseconds per call; with the argument `runs`, nanoseconds per step in runs
//! of steps; with `rings`, nanoseconds per call of the archive's first board and of
//! its board with rings; with `instructions`, the instructions of the archive's calls.

mod boards;
mod halls;
mod instructions;
mod rings;
mod shift;
mod timing;
mod unchecked;

use boards::BOARDS;
use halls::{tasks, Task, HALLS};
use instructions::{make_one_call, print_instructions, ONE_CALL};
use reference::{Hall, Limits};
use rings::{print_ring_times, print_rings};
use shift::print_runs;
use std::array::from_fn;
use std::env;
use std::process::Command;
use timing::{median, Clock, Entry, BATCH_BYTES, PASSES, PLACES, REPETITIONS};

const NAMES: [&str; 3] = ["ours", "Rust", "C"];

/// The median of a call of 4 ns differs by up to 1 ns from process to process, also where they
/// are laid out alike: so the calls are timed in several.
const PROCESSES: usize = 5;
/// The arguments that make a process one of these.
const TIMES_ONLY: &str = "times-only";
const RING_TIMES_ONLY: &str = "ring-times-only";
/// The argument that asks for instructions.
const INSTRUCTIONS: &str = "instructions";
/// The argument that asks for runs of steps.
const RUNS: &str = "runs";
/// The argument that asks for the board with rings.
const RINGS: &str = "rings";

fn main() {
    let largest = || halls().last().expect("some halls");
    match env::args().nth(1).as_deref() {
        None => {
            print_calls();
            print_places(&mut Clock::new());
        }
        Some(TIMES_ONLY) => print_times(),
        Some(RING_TIMES_ONLY) => print_ring_times(),
        Some(RINGS) => print_rings(),
        Some(RUNS) => print_runs(&largest()),
        Some(INSTRUCTIONS) => print_instructions(&largest()),
        Some(ONE_CALL) => make_one_call(&largest()),
        Some(other) => panic!("unknown argument '{other}'"),
    }
}

/// The times of every row, a line each.
fn print_times() {
    let mut clock = Clock::new();
    for hall in halls() {
        for marks in [false, true] {
            for task in tasks(&hall, marks).unwrap_or_default() {
                agree(&task);
                print_row_of_times(&clock.time(&entries(&task)));
            }
        }
    }
}

/// All boards with the same task.
fn entries(task: &Task) -> [Entry<'_>; BOARDS.len()] {
    BOARDS.map(|board| (board, task))
}

fn print_row_of_times(times: &[f64]) {
    println!("{}", times.iter().map(f64::to_string).collect::<Vec<_>>().join(" "));
}

/// The times of every row, as a process of its own sees them.
fn times_of_a_process<const N: usize>(times_only: &str) -> Vec<[f64; N]> {
    let program = env::current_exe().expect("a program has a path");
    let output = Command::new(program).arg(times_only).output().expect("a program starts again");
    assert!(output.status.success(), "{}", String::from_utf8_lossy(&output.stderr));
    let printed = String::from_utf8(output.stdout).expect("numbers are printed");
    let row = |line: &str| {
        let times: Vec<f64> = line.split(' ').map(|time| time.parse().expect("a time")).collect();
        times.try_into().expect("a time of each board")
    };
    printed.lines().map(row).collect()
}

/// The same, as the median of the processes.
fn medians_of_processes<const N: usize>(times_only: &str) -> Vec<[f64; N]> {
    let processes: Vec<_> = (0..PROCESSES).map(|_| times_of_a_process::<N>(times_only)).collect();
    let times = |row: usize, board: usize| processes.iter().map(|rows| rows[row][board]).collect();
    let medians = |row: usize| from_fn(|board| median(times(row, board)));
    (0..processes[0].len()).map(medians).collect()
}

/// How the calls are timed.
fn print_method() {
    println!("nanoseconds per call, median of {PROCESSES} processes, of each the median of {REPETITIONS} batches,");
    println!(
        "the boards in turn; the tables are written anew just before each batch, uncounted, at"
    );
    println!(
        "another place of a page each time; all tables of a batch fit into {} KB; openings",
        BATCH_BYTES / 1024
    );
    println!("and refused calls go over them {PASSES} times");
}

fn print_calls() {
    print_method();
    let [ours, rust, c] = NAMES;
    let mut rows = medians_of_processes(TIMES_ONLY).into_iter();
    for hall in halls() {
        for marks in [false, true] {
            let Some(tasks) = tasks(&hall, marks) else { continue };
            println!();
            let tables = Clock::tables(2 * hall.need());
            println!("{}, batches of {tables} calls", title(&hall, marks));
            println!("{:<38}{ours:>8}{rust:>8}{c:>8}{:>11}{:>8}", "call", "ours/Rust", "ours/C");
            for task in tasks {
                let [ours, rust, c] = rows.next().expect("a row for each task");
                println!(
                    "{:<38}{ours:>8.1}{rust:>8.1}{c:>8.1}{:>11.2}{:>8.2}",
                    task.name,
                    ours / rust,
                    ours / c
                );
            }
        }
    }
}

/// How much the time of a call depends on where its table stands.
fn print_places(clock: &mut Clock) {
    println!();
    println!("nanoseconds per call with the table at {PLACES} places of a page, each on its own cache line");
    println!(
        "and aligned in its own way: the least, the median and the most of the places' medians"
    );
    for hall in halls() {
        println!();
        let tables = Clock::tables_at_a_place(2 * hall.need());
        println!("{}, batches of {tables} calls", title(&hall, false));
        println!("{:<38}{}", "call", NAMES.map(|name| format!("{:^23}", name)).concat());
        for task in tasks(&hall, false).expect("every hall has tables without marks") {
            if task.number == 0 || task.number == 6 {
                let places = clock.time_at_places(&entries(&task));
                println!("{:<38}{}", task.name, of_boards(&places).concat());
            }
        }
    }
}

/// The least, the median and the most of each board.
fn of_boards(places: &[[f64; BOARDS.len()]]) -> Vec<String> {
    let spread = |board: usize| {
        let times: Vec<f64> = places.iter().map(|times| times[board]).collect();
        let least = times.iter().copied().fold(f64::INFINITY, f64::min);
        let most = times.iter().copied().fold(0.0, f64::max);
        format!("{least:>8.1}{:>7.1}{most:>7.1} ", median(times))
    };
    (0..BOARDS.len()).map(spread).collect()
}

fn halls() -> impl Iterator<Item = Hall> {
    let hall = |(desks, screens, positions)| Hall::new(Limits::HALL, desks, screens, positions);
    HALLS.into_iter().map(move |numbers| hall(numbers).expect("a hall within the limits"))
}

fn title(hall: &Hall, marks: bool) -> String {
    let Hall { desks, screens, positions, .. } = hall;
    let bytes = 2 * hall.need();
    let with = if marks { "with marks on every desk" } else { "without marks" };
    format!("hall {desks} {screens} {positions}, {with}: {bytes} bytes")
}

/// All boards give the answer that is to be timed, and the same bytes.
fn agree(task: &Task) {
    let mut first = task.table.clone();
    let reply = boards::to_reference(task.call, task.message, &mut first);
    assert_eq!(reply >> 16, task.number, "{}: another reply than planned", task.name);
    for (board, name) in BOARDS.iter().zip(NAMES) {
        let mut table = task.table.clone();
        let answer = board(task.call, task.message, &mut table);
        assert_eq!(answer, reply, "{}: {name} answers else", task.name);
        assert!(first == table, "{}: {name} leaves another table", task.name);
    }
}

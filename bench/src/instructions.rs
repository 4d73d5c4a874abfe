//! Counts the instructions that the archive executes for each call at the largest hall, with
//! valgrind's callgrind: unlike times, the counts are the same in every run.

use crate::boards::{Call, BOARDS};
use crate::halls::{tasks, Task};
use crate::title;
use reference::Hall;
use std::env;
use std::process::Command;

/// The argument that makes a process one that makes one call; two numbers follow it.
pub const ONE_CALL: &str = "one-call";

pub fn print_instructions(hall: &Hall) {
    println!("instructions per call of the archive, counted by callgrind");
    for marks in [false, true] {
        println!();
        println!("{}", title(hall, marks));
        for (index, task) in tasks(hall, marks).unwrap_or_default().iter().enumerate() {
            println!("{:<38}{:>8}", task.name, instructions(task, marks, index));
        }
    }
}

/// Makes the call whose numbers are the arguments; its answer must be the one that is planned.
pub fn make_one_call(hall: &Hall) {
    let numbers: Vec<usize> = env::args().filter_map(|argument| argument.parse().ok()).collect();
    let [marks, index] = numbers[..] else { panic!("{ONE_CALL} MARKS INDEX") };
    let Task { call, message, mut table, number, .. } =
        tasks(hall, marks == 1).expect("a hall with marks").remove(index);
    let [ours, ..] = BOARDS;
    assert_eq!(ours(call, message, &mut table) >> 16, number);
}

/// Callgrind's count for a process that makes this call. All else in the process, the preparation
/// of the table included, calls no function of the archive.
fn instructions(task: &Task, marks: bool, index: usize) -> u64 {
    let output = Command::new("valgrind")
        .args(["--tool=callgrind", "--callgrind-out-file=/dev/null"])
        .arg(format!("--toggle-collect={}", c_name(task.call)))
        .arg(env::current_exe().expect("a program has a path"))
        .args([ONE_CALL, &u8::from(marks).to_string(), &index.to_string()])
        .output()
        .expect("valgrind is installed");
    let printed = String::from_utf8_lossy(&output.stderr);
    assert!(output.status.success(), "{printed}");
    let counted = printed.lines().find_map(|line| line.split_once("Collected : "));
    counted.and_then(|(_, count)| count.trim().parse().ok()).expect("callgrind's count")
}

fn c_name(call: Call) -> &'static str {
    match call {
        Call::Open(..) => "board_open",
        Call::Take(..) => "board_take",
        Call::Drop(..) => "board_drop",
        Call::Swap(..) => "board_swap",
        Call::Retire(..) => "board_retire",
        Call::Collect(..) => "board_collect",
    }
}

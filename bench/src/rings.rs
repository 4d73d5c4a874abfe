//! Times the archive's board with rings against its first board: the same call, on a table and on
//! the ring that reads as it, in the same run. The ring is timed twice: with every list at its first
//! place, and with every list around the end; where the lists are spread, with beginnings spread too.

use crate::boards::{to_archive, to_ring};
use crate::halls::{hand_backs, part_of, spread, tasks, Task};
use crate::timing::Clock;
use crate::{
    halls, medians_of_processes, print_method, print_row_of_times, title, RING_TIMES_ONLY,
};
use reference::{first_board, place, Hall, Limits};

/// A part of the printed tables.
struct Part {
    title: String,
    hall: Hall,
    tasks: Vec<Task>,
    /// Where the list of a desk begins, in the second column.
    around: fn(&Hall, u16) -> usize,
}

/// Hand-backs of every hall, then steps on lists that are spread, then every call without marks and
/// with them.
fn parts() -> Vec<Part> {
    let mut parts = Vec::new();
    for hall in halls() {
        let Hall { desks, screens, positions, .. } = hall;
        let titled = |what| format!("hall {desks} {screens} {positions}, {what}");
        let (tasks_back, tasks_spread) = (hand_backs(&hall), spread(&hall));
        parts.push(Part {
            title: titled("hand-backs alone"),
            hall,
            tasks: tasks_back,
            around: end,
        });
        parts.push(Part {
            title: titled("lists spread"),
            hall,
            tasks: tasks_spread,
            around: along,
        });
        for marks in [false, true] {
            if let Some(tasks) = tasks(&hall, marks) {
                parts.push(Part { title: title(&hall, marks), hall, tasks, around: end });
            }
        }
    }
    parts
}

/// The times of every row, a line each.
pub fn print_ring_times() {
    let mut clock = Clock::new();
    for Part { hall, tasks, around, .. } in parts() {
        for task in tasks {
            let (at_first, around) =
                (ring_task(&hall, &task, |_, _| 0), ring_task(&hall, &task, around));
            agree(&task, &at_first);
            agree(&task, &around);
            // In pairs, so that each board follows the other: a third one would find the code of
            // one of them warm.
            let pairs = [&at_first, &around]
                .map(|ring| clock.time(&[(to_archive, &task), (to_ring, ring)]));
            print_row_of_times(pairs.as_flattened());
        }
    }
}

pub fn print_rings() {
    print_method();
    println!(
        "ring: the board with rings, every list at its first place; around: every list begins at"
    );
    println!(
        "its last place, or, where the lists are spread, each at another place; each is timed in"
    );
    println!("turn with the first board");
    let mut rows = medians_of_processes(RING_TIMES_ONLY).into_iter();
    for Part { title, tasks, .. } in parts() {
        println!();
        println!("{title}");
        let columns = ["first", "ring", "ratio", "first", "around", "ratio"];
        println!("{:<38}{}", "call", columns.map(|column| format!("{column:>8}")).concat());
        for task in tasks {
            let [first, ring, again, around] = rows.next().expect("a row for each task");
            println!(
                "{:<38}{first:>8.1}{ring:>8.1}{:>8.2}{again:>8.1}{around:>8.1}{:>8.2}",
                task.name,
                ring / first,
                around / again
            );
        }
    }
}

/// The last place of a list: all but one session are around the end.
fn end(hall: &Hall, _desk: u16) -> usize {
    hall.places() - 1
}

/// Another place for each desk.
fn along(hall: &Hall, desk: u16) -> usize {
    part_of(hall, desk, hall.places())
}

/// The same call on the ring that reads as the task's table. A table that is short of its need by
/// some bytes is a ring that is as much too short.
fn ring_task(hall: &Hall, task: &Task, beginning: fn(&Hall, u16) -> usize) -> Task {
    let short = (2 * hall.need()).saturating_sub(task.table.len());
    let mut whole = task.table.clone();
    whole.resize(2 * hall.need(), 0);
    let mut table = ring_of(hall, &whole, beginning);
    table.truncate(table.len() - short);
    Task { table, ..*task }
}

/// The table with a beginning behind each record, and each list turned. It need not be sound.
fn ring_of(hall: &Hall, table: &[u8], beginning: fn(&Hall, u16) -> usize) -> Vec<u8> {
    let mut ring = table[..2 * hall.record(1).start].to_vec();
    for desk in 1..=hall.desks {
        let (record, beginning) = (hall.record(desk), beginning(hall, desk));
        let mut record = table[2 * record.start..2 * record.end].to_vec();
        record[2 * place::LIST..][..2 * hall.places()].rotate_right(2 * beginning);
        ring.extend(record);
        ring.extend((beginning as u16).to_le_bytes());
    }
    let Hall { desks, screens, positions, .. } = *hall;
    let need = Hall::new(Limits::RING, desks, screens, positions).map_or(0, |hall| hall.need());
    assert_eq!(ring.len(), 2 * need, "the words of a ring");
    ring
}

/// Both boards give the answer that is to be timed, and an accepted call leaves a ring that reads
/// as the first board's table.
fn agree(task: &Task, ring: &Task) {
    let (mut of_first, mut of_ring) = (task.table.clone(), ring.table.clone());
    let answer = to_archive(task.call, task.message, &mut of_first);
    assert_eq!(answer >> 16, task.number, "{}: another reply than planned", task.name);
    let of_call = to_ring(ring.call, ring.message, &mut of_ring);
    assert_eq!(of_call, answer, "{}: the ring answers else", task.name);
    if task.number == 0 {
        assert!(
            first_board(&of_ring) == Some(of_first),
            "{}: it reads as another table",
            task.name
        );
    }
}

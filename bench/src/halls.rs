//! The halls that are timed, and a busy table for each call.

use crate::boards::{to_reference, Call};
use reference::{next_message, place, set_word, Hall, List};

/// The smallest, the one in use so far, one with many screens, the largest.
pub const HALLS: [(u16, u16, u16); 4] = [(1, 1, 1), (6, 1, 12), (4, 4, 64), (16, 4, 64)];

/// Stands at the last position, and on no list.
const SESSION: u16 = 300;
/// The first of the sessions on the lists.
const LISTED: u16 = 1000;

/// A call on a table prepared for it, and the reply number it must get.
pub struct Task {
    pub name: &'static str,
    pub call: Call,
    pub message: u16,
    pub table: Vec<u8>,
    pub number: u32,
}

/// The message number that is due from a call's desk, or any if there is no such desk.
fn due_message(call: Call, table: &[u8]) -> u16 {
    next_message(List::Straight, table, call.desk()).unwrap_or(0)
}

/// Every call on a hall where every screen but the last desk's last shows a
/// session and every desk has S sessions on its list, all waiting; or, with
/// marks, all tested, the reading half done and half of it marked. The last
/// desk does the work. `None` where the hall is too small for marks.
pub fn tasks(hall: &Hall, marks: bool) -> Option<Vec<Task>> {
    let busy = if marks { marked_table(hall)? } else { waiting_table(hall) };
    let (desk, screen, position) = (hall.desks, hall.screens, hall.positions);
    let all = hall.all_screens();
    let after = |calls: &[Call]| {
        let mut table = busy.clone();
        calls.iter().for_each(|&call| play(call, &mut table));
        table
    };
    let with_word = |at: usize, value: u16| {
        let mut table = busy.clone();
        set_word(&mut table, at, value);
        table
    };
    let with_list = |which: usize, used: usize, owed: u16| {
        let mut table = busy.clone();
        set_list(hall, &mut table, desk, which, used);
        set_word(&mut table, hall.record(desk).start + place::OWED, owed);
        table
    };
    let open = Call::Open(desk, screen, position);
    let take = Call::Take(desk, screen, position);
    let drop = Call::Drop(desk, screen);
    let swap = Call::Swap(desk, position, 7);
    let repeat = Call::Swap(desk, position, SESSION);
    let collect = Call::Collect(desk);
    let left = collects_left(hall, marks);

    let mut tasks = Vec::new();
    let mut add = |name, call, table: Vec<u8>, number| {
        let due = due_message(call, &table);
        let message = if number == 23 { due + 1 } else { due };
        tasks.push(Task { name, call, message, table, number });
    };
    add("open", open, busy.clone(), 0);
    add("take", take, busy.clone(), 0);
    add("drop", drop, after(&[take]), 0);
    add("swap", swap, busy.clone(), 0);
    add("swap onto an empty position", swap, with_word(hall.position(position), 0), 0);
    add("swap that repeats", repeat, busy.clone(), 0);
    add("retire", Call::Retire(desk), after(&[swap]), 0);
    if left > 1 {
        add("collect that reads two screens", collect, busy.clone(), 0);
    }
    add("collect that settles and hands back", collect, after(&vec![collect; left - 1]), 0);
    add("collect that hands back", collect, with_list(place::READY, all, 0), 0);
    add("collect with an empty list", collect, with_list(place::READY, 0, 0), 0);
    let short = busy[..busy.len() - 1].to_vec();
    add("open refused, 4: table short", open, short, 4);
    add("take refused, 5: 17 desks", take, with_word(0, 17), 5);
    add("take refused, 5: last place wrong", take, with_word(hall.need() - 2, 9), 5);
    add("take refused, 6: no such desk", Call::Take(desk + 1, 1, 1), busy.clone(), 6);
    add("take refused, 23: another message", take, busy.clone(), 23);
    add("take refused, 9: screen full", take, after(&[take]), 9);
    add("drop refused, 11: screen empty", drop, busy.clone(), 11);
    add("swap refused, 12: owing", swap, after(&[swap]), 12);
    add("retire refused, 13: owes nothing", Call::Retire(desk), busy.clone(), 13);
    let full = with_list(place::WAITING, 2 * all, 9);
    add("retire refused, 14: no room", Call::Retire(desk), full, 14);
    Some(tasks)
}

/// Collects that hand back and do nothing else, with one session on the desk's list, with
/// as many as there are screens, and with a full list.
pub fn hand_backs(hall: &Hall) -> Vec<Task> {
    let all = hall.all_screens();
    let names = ["1 on the list", "S on the list", "2S on the list"];
    let lengths = [1, all, 2 * all];
    let task = |(name, used)| {
        let mut table = waiting_table(hall);
        set_list(hall, &mut table, hall.desks, place::READY, used);
        Task { name, call: Call::Collect(hall.desks), message: 0, table, number: 0 }
    };
    names.into_iter().zip(lengths).map(task).collect()
}

/// Steps where every desk has another number of sessions on its list, spread from 0 to 2S, all
/// ready: as in a room at work.
pub fn spread(hall: &Hall) -> Vec<Task> {
    let (desk, screen, position) = (hall.desks, hall.screens, hall.positions);
    let mut table = waiting_table(hall);
    for each in 1..=desk {
        let used = part_of(hall, each, hall.places() + 1);
        set_list(hall, &mut table, each, place::READY, used);
    }
    let take = Call::Take(desk, screen, position);
    let swap = Call::Swap(desk, position, 7);
    let mut owing = table.clone();
    play(swap, &mut owing);
    let task = |name, call, table: &Vec<u8>| Task {
        name,
        call,
        message: due_message(call, table),
        table: table.clone(),
        number: 0,
    };
    vec![
        task("take", take, &table),
        task("swap", swap, &table),
        task("retire", Call::Retire(desk), &owing),
        task("collect that hands back", Call::Collect(desk), &table),
    ]
}

/// So much of a number as belongs to a desk, where the desks share it in order.
pub fn part_of(hall: &Hall, desk: u16, number: usize) -> usize {
    number * desk as usize / (hall.desks as usize + 1)
}

/// The collects that read the hall: two screens each.
fn collects(hall: &Hall) -> usize {
    hall.all_screens().div_ceil(2)
}

/// Those still to come on a busy table, the last of which settles.
fn collects_left(hall: &Hall, marks: bool) -> usize {
    collects(hall) - if marks { collects(hall) / 2 } else { 0 }
}

fn waiting_table(hall: &Hall) -> Vec<u8> {
    let mut table = vec![0; 2 * hall.need()];
    play(Call::Open(hall.desks, hall.screens, hall.positions), &mut table);
    for desk in 1..=hall.desks {
        set_list(hall, &mut table, desk, place::WAITING, hall.all_screens());
    }
    set_word(&mut table, hall.position(hall.positions), SESSION);
    let screens = hall.screens_of_hall();
    for at in screens.start..screens.end - 1 {
        set_word(&mut table, at, SESSION);
    }
    table
}

/// Every second screen shows a session that is on every list.
fn marked_table(hall: &Hall) -> Option<Vec<u8>> {
    if hall.all_screens() < 3 {
        return None;
    }
    let mut table = waiting_table(hall);
    for (index, at) in hall.screens_of_hall().enumerate().step_by(2) {
        set_word(&mut table, at, LISTED + index as u16);
    }
    for desk in 1..=hall.desks {
        for _ in 0..collects(hall) / 2 {
            play(Call::Collect(desk), &mut table);
        }
        let marks = hall.record(desk).start + place::MARKS;
        assert!(reference::word(&table, marks) != 0, "a desk has no marks");
    }
    Some(table)
}

/// So many sessions on a desk's list, all ready or all waiting; nothing else.
fn set_list(hall: &Hall, table: &mut [u8], desk: u16, which: usize, used: usize) {
    let record = hall.record(desk);
    table[2 * record.start..2 * record.end].fill(0);
    set_word(table, record.start + which, used as u16);
    for slot in 0..used {
        set_word(table, record.start + place::LIST + slot, LISTED + slot as u16);
    }
}

/// Sends a call that must be accepted.
fn play(call: Call, table: &mut [u8]) {
    let answer = to_reference(call, due_message(call, table), table);
    assert!(answer >> 16 == 0, "a call of the preparation was refused with {}", answer >> 16);
}

//! What was compared: the calls of each room and function (the board with rings counts as
//! a room), and the steps of runs, and
//! among the swaps the repeats, by reply number and by what else they showed.

use crate::call::{Function, Room, FUNCTIONS, ROOMS};
use crate::case::Compared;
use crate::tally_run::RunTally;
use std::fmt;

/// The reply numbers of calls. Those between are replies to sheets.
const NUMBERS: [u16; 17] = [0, 1, 2, 3, 4, 5, 6, 7, 8, 9, 10, 11, 12, 13, 14, 22, 23];

/// A column for each function, and two for repeats: a swap to the session
/// already there, and one of 0 onto an empty position.
const REPEAT: usize = FUNCTIONS.len();
const REPEAT_OF_NONE: usize = REPEAT + 1;
const COLUMNS: usize = REPEAT_OF_NONE + 1;

fn name(column: usize) -> &'static str {
    match column {
        REPEAT => "repeat",
        REPEAT_OF_NONE => "repeat 0",
        function => FUNCTIONS[function].name(),
    }
}

/// The reply numbers that must occur in a column. A repeat never gets 8, because a
/// position that the hall does not have holds nothing to repeat; and 0 is never over
/// a limit.
fn replies(room: Room, column: usize) -> &'static [u16] {
    match (column, room) {
        (REPEAT, Room::Training) => &[0, 5, 6, 23, 22, 12],
        (REPEAT | REPEAT_OF_NONE, _) => &[0, 5, 6, 23, 12],
        (function, _) => FUNCTIONS[function].replies(room),
    }
}

/// Does every call of the column read the table? Repeats are swaps.
fn is_step(column: usize) -> bool {
    column >= REPEAT || FUNCTIONS[column].is_step()
}

/// What a call may show besides its reply number.
struct Note {
    name: &'static str,
    shown_by: fn(&Compared) -> bool,
    /// Must a call of this column show it?
    is_due: fn(Room, usize) -> bool,
}

const NOTES: [Note; 11] = [
    Note { name: "with session", shown_by: |of| of.session() != 0, is_due: |_, _| false },
    // The host put it into the table: no swap of the room does.
    Note {
        name: "over limit",
        shown_by: |of| of.session() > of.call.room.limits().sessions,
        is_due: |room, column| room == Room::Training && is_step(column) && column < REPEAT,
    },
    // The table is sound in the hall.
    Note {
        name: "table too large",
        shown_by: |of| of.found_too_large,
        is_due: |room, column| room == Room::Training && is_step(column),
    },
    Note {
        name: "65535 accepted",
        shown_by: |of| of.number() == 0 && of.due_message == Some(65_535),
        is_due: |_, column| is_step(column),
    },
    // The number of the message before, accepted already.
    Note {
        name: "23 sent twice",
        shown_by: |of| of.number() == 23 && of.due_message == Some(of.call.message.wrapping_add(1)),
        is_due: |_, column| is_step(column),
    },
    Note {
        name: "23 other desk's",
        shown_by: |of| of.of_another_desk,
        is_due: |_, column| is_step(column),
    },
    Note {
        name: "23 low byte due",
        shown_by: |of| {
            let low_byte_is_due = |due: u16| due & 255 == of.call.message & 255;
            of.number() == 23 && of.due_message.is_some_and(low_byte_is_due)
        },
        is_due: |_, column| is_step(column),
    },
    // The first board got the call too.
    Note { name: "beside board_", shown_by: |of| of.beside, is_due: |room, _| room == Room::Ring },
    Note {
        name: "0 around the end",
        shown_by: |of| of.number() == 0 && of.found.is_around_the_end,
        is_due: |room, column| room == Room::Ring && is_step(column),
    },
    // It left the list, which then begins at its first place.
    Note {
        name: "back from last",
        shown_by: |of| {
            let has_handed_back = of.call.function == Function::Collect && of.answer != 0;
            has_handed_back && of.number() == 0 && of.found.begins_at_the_last
        },
        is_due: |room, column| room == Room::Ring && column == Function::Collect as usize,
    },
    Note {
        name: "5 beginning",
        shown_by: |of| of.number() == 5 && of.found.has_wrong_beginning,
        is_due: |room, column| room == Room::Ring && is_step(column),
    },
];

/// The calls of a room, or the steps of runs, in columns.
#[derive(Default)]
pub struct Counts {
    by_number: [[u64; COLUMNS]; NUMBERS.len()],
    by_note: [[u64; COLUMNS]; NOTES.len()],
}

#[derive(Default)]
pub struct Tally {
    of_room: [Counts; ROOMS.len()],
    pub calls: u64,
    pub runs: RunTally,
}

impl Tally {
    pub fn count(&mut self, compared: &Compared) {
        self.of_room[compared.call.room as usize].count(compared);
        self.calls += 1;
    }

    /// What must occur, but never did.
    pub fn missing(&self) -> Vec<String> {
        let of_rooms = ROOMS.iter().zip(&self.of_room).flat_map(|(&room, counts)| {
            let prefix = format!("{}_", room.prefix());
            counts.missing(&prefix, room, |_| true)
        });
        of_rooms.chain(self.runs.missing()).collect()
    }
}

impl Counts {
    /// Counts an answer of the reference. A repeat is counted as a swap too.
    pub fn count(&mut self, compared: &Compared) {
        let call = compared.call;
        self.count_in(call.function as usize, compared);
        if compared.repeats {
            let of_none = call.numbers[2] == 0;
            self.count_in(if of_none { REPEAT_OF_NONE } else { REPEAT }, compared);
        }
    }

    fn count_in(&mut self, column: usize, compared: &Compared) {
        let row = NUMBERS.iter().position(|&number| number == compared.number());
        self.by_number[row.expect("a reply number of a call")][column] += 1;
        for (note, by_column) in NOTES.iter().zip(&mut self.by_note) {
            by_column[column] += u64::from((note.shown_by)(compared));
        }
    }

    /// What must occur in the room, but never did; of the reply numbers, those that are
    /// due.
    pub fn missing(&self, prefix: &str, room: Room, is_due: fn(u16) -> bool) -> Vec<String> {
        let mut missing = Vec::new();
        for column in 0..COLUMNS {
            let call = format!("{prefix}{}", name(column));
            for (number, by_column) in NUMBERS.iter().zip(&self.by_number) {
                let replies = replies(room, column);
                if replies.contains(number) && is_due(*number) && by_column[column] == 0 {
                    missing.push(format!("{call} never answered {number}"));
                }
            }
            for (note, by_column) in NOTES.iter().zip(&self.by_note) {
                if (note.is_due)(room, column) && by_column[column] == 0 {
                    missing.push(format!("{call} never showed: {}", note.name));
                }
            }
        }
        missing
    }

    /// A row for each reply number, all calls, and a row for each note.
    fn rows(&self) -> impl Iterator<Item = (String, [u64; COLUMNS])> + '_ {
        let by_number = NUMBERS.iter().zip(self.by_number);
        let by_number = by_number.map(|(number, calls)| (number.to_string(), calls));
        let mut all = [0; COLUMNS];
        for (column, sum) in all.iter_mut().enumerate() {
            *sum = self.by_number.iter().map(|calls| calls[column]).sum();
        }
        let by_note = NOTES.iter().zip(self.by_note);
        let by_note = by_note.map(|(note, calls)| (note.name.to_string(), calls));
        by_number.chain([("calls".to_string(), all)]).chain(by_note)
    }
}

/// A table for each room, and those of the runs.
impl fmt::Display for Tally {
    fn fmt(&self, out: &mut fmt::Formatter) -> fmt::Result {
        for (room, counts) in ROOMS.iter().zip(&self.of_room) {
            counts.print(out, &format!("{}_", room.prefix()))?;
        }
        write!(out, "{}", self.runs)
    }
}

impl Counts {
    pub fn print(&self, out: &mut fmt::Formatter, title: &str) -> fmt::Result {
        write!(out, "{title:<16}")?;
        (0..COLUMNS).try_for_each(|column| write!(out, "{:>9}", name(column)))?;
        writeln!(out)?;
        for (name, calls) in self.rows() {
            print_row(out, &name, &calls)?;
        }
        writeln!(out)
    }
}

pub fn print_row(out: &mut fmt::Formatter, name: &str, counts: &[u64]) -> fmt::Result {
    write!(out, "{name:<16}")?;
    for count in counts {
        match count {
            0 => write!(out, "{:>9}", "-")?,
            count => write!(out, "{count:>9}")?,
        }
    }
    writeln!(out)
}

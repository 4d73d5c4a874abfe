//! Cases: openings, histories, and tables that are sound, damaged, truncated, too long
//! or of another layout. A case has a room, and most of its calls are of that room;
//! most calls carry the message number that is due.

use crate::call::{held, Call, Function, Function::*, Room, ROOMS};
use crate::case::Case;
use crate::damage::damage;
use crate::rng::Rng;
use crate::tables::{any_bytes, any_hall, any_message, any_words, sound_table, Sessions};
use reference::{next_message, set_word, Hall, Limits, List};

/// The case of this number under this seed.
pub fn case(seed: u64, number: u64) -> Case {
    let mut rng = Rng::of_case(seed, number);
    let rng = &mut rng;
    let room = rng.pick(&ROOMS);
    match rng.below(32) {
        0..=3 => openings(rng, room),
        4..=6 => history(rng, room),
        7..=15 => from_sound_table(rng, room),
        16..=26 => from_damaged_table(rng, room),
        27..=30 => from_cut_or_long_table(rng, room),
        _ => from_any_bytes(rng, room),
    }
}

/// A case whose steps become those of a run. Most of its tables are sound: a run does
/// nothing on others.
pub fn case_for_run(rng: &mut Rng) -> Case {
    let room = Room::Hall;
    match rng.below(16) {
        0..=3 => history(rng, room),
        4..=10 => {
            let calls = on_sound_table(rng, room);
            let most = rng.pick(&[4, 24, 60]);
            steps(rng, calls, most)
        }
        11 | 12 => from_damaged_table(rng, room),
        13 | 14 => from_cut_or_long_table(rng, room),
        _ => from_any_bytes(rng, room),
    }
}

/// The room of one call of a case.
fn mostly(rng: &mut Rng, room: Room) -> Room {
    if rng.one_in(16) {
        rng.pick(&room.others())
    } else {
        room
    }
}

/// The limits of a table: mostly those of the room, else one desk and one screen
/// more, or those of the hall.
fn any_limits(rng: &mut Rng, room: Room) -> Limits {
    let limits = room.limits();
    let more = |number: u16, most: u16| most.min(number + 1);
    match rng.below(12) {
        0 => room.largest(),
        1 => Limits {
            desks: more(limits.desks, Limits::HALL.desks),
            screens: more(limits.screens, Limits::HALL.screens),
            ..limits
        },
        _ => limits,
    }
}

fn case_of(rng: &mut Rng, table: Vec<u8>, calls: Vec<Call>) -> Case {
    Case { align: rng.below(8), table, calls }
}

/// Openings of all kinds, on tables with any content.
fn openings(rng: &mut Rng, room: Room) -> Case {
    let opening = |rng: &mut Rng| {
        let limits = rng.pick(&[room.limits(), Limits::HALL]);
        let most = [limits.desks, limits.screens, limits.positions];
        let numbers = most.map(|most| limited(rng, most));
        Call::new(mostly(rng, room), Open, 0, &numbers)
    };
    let calls: Vec<Call> = (0..rng.within(1, 3)).map(|_| opening(rng)).collect();
    let [desks, screens, positions] = calls[0].numbers;
    let hall = Hall::new(room.largest(), desks, screens, positions);
    let need = hall.map_or(21, |hall| hall.need());
    let length = around(rng, 2 * need);
    let table = any_bytes(rng, length);
    case_of(rng, table, calls)
}

/// A hall's number, often at its limits and sometimes past them.
fn limited(rng: &mut Rng, most: u16) -> u16 {
    match rng.below(8) {
        0 => 1,
        1 => most,
        2 => wild(rng, 1, most),
        _ => rng.within(1, usize::from(most)) as u16,
    }
}

/// A length in bytes: near a need, near 0, or any.
fn around(rng: &mut Rng, need: usize) -> usize {
    match rng.below(8) {
        0 => rng.below(6),
        1 => rng.below(5000),
        _ => need + 4 - rng.below(8),
    }
}

/// A history that fills the lists to their bound: a few desks retire and collect, all
/// of them take and drop, and there are few sessions. It begins with an opening, or
/// with the table of one whose message numbers are about to run on from 65,535 to 0 and
/// whose rings begin anywhere.
fn history(rng: &mut Rng, room: Room) -> Case {
    let hall = any_hall(rng, room.limits());
    let desks: Vec<u16> = (0..rng.within(1, 3)).map(|_| one_of(rng, hall.desks)).collect();
    let takes = rng.pick(&[1, 4, 10]);
    let drops = rng.pick(&[0, 1, 4]);
    let retires = rng.pick(&[2, 5, 10]);
    let collects = rng.pick(&[0, 1, 4, 12]);
    let repeats = rng.pick(&[0, 1, 4]);
    let most = 20 + 10 * hall.all_screens();
    let steps = rng.within(1, most);
    let length = 2 * hall.need() + rng.below(4);
    let mut table = any_bytes(rng, length);

    let sessions = Sessions::any(rng, room.limits());
    let mut calls = Calls::new(room, hall, sessions, table.clone());
    calls.send(Call::new(room, Open, 0, &[hall.desks, hall.screens, hall.positions]));
    if rng.one_in(2) {
        for desk in 1..=hall.desks {
            set_word(&mut calls.table, hall.message(desk), 65_535 - rng.below(steps) as u16);
            if let Some(at) = hall.beginning(desk) {
                set_word(&mut calls.table, at, rng.below(hall.places()) as u16);
            }
        }
        table.clone_from(&calls.table);
        calls.made.clear();
    }
    while calls.made.len() < steps {
        let desk = rng.pick(&desks);
        match turn(rng, &[takes, drops, retires, collects, repeats, 1]) {
            0 => calls.step(rng, Take),
            1 => calls.step(rng, Drop),
            2 => calls.replace_and_retire(rng, desk),
            3 => calls.push(rng, Collect, &[desk]),
            4 => {
                let position = one_of(rng, hall.positions);
                calls.repeat(rng, desk, position);
            }
            _ if rng.one_in(8) => {
                let burst = rng.within(1, hall.all_screens() + 2);
                (0..burst).for_each(|_| calls.push(rng, Collect, &[desk]));
            }
            _ => calls.any_step(rng),
        }
    }
    case_of(rng, table, calls.made)
}

/// Which of the turns is next, each with its share.
fn turn(rng: &mut Rng, shares: &[usize]) -> usize {
    let mut left = rng.below(shares.iter().sum());
    for (turn, &share) in shares.iter().enumerate() {
        if left < share {
            return turn;
        }
        left -= share;
    }
    unreachable!("less than the sum of the shares is left")
}

/// Steps on a sound table, which need not be reachable from an opening.
fn from_sound_table(rng: &mut Rng, room: Room) -> Case {
    let calls = on_sound_table(rng, room);
    steps(rng, calls, 24)
}

/// Steps on a sound table with something broken in it.
fn from_damaged_table(rng: &mut Rng, room: Room) -> Case {
    let mut calls = on_sound_table(rng, room);
    damage(rng, &calls.hall, &mut calls.table);
    steps(rng, calls, 6)
}

/// Steps on a sound table that is truncated, or followed by garbage; sometimes its
/// records lack their last words.
fn from_cut_or_long_table(rng: &mut Rng, room: Room) -> Case {
    let mut calls = on_sound_table(rng, room);
    let table = &mut calls.table;
    if rng.one_in(8) {
        without_last_words(&calls.hall, table);
    }
    if rng.one_in(2) {
        let most = rng.pick(&[1, 2, 3, 40]);
        let length = rng.within(1, most);
        table.extend(any_words(rng, length));
    } else {
        let cut = match rng.below(4) {
            0 => table.len() - rng.below(6),
            1 => rng.within(1, table.len()),
            _ => rng.within(1, 4),
        };
        table.truncate(table.len() - cut);
    }
    steps(rng, calls, 6)
}

/// The table of another layout: without the message numbers, or a ring's without the
/// beginnings, so almost the first board's.
fn without_last_words(hall: &Hall, table: &mut Vec<u8>) {
    for desk in (1..=hall.desks).rev() {
        let past = 2 * hall.record(desk).end;
        table.drain(past - 2..past);
    }
}

fn from_any_bytes(rng: &mut Rng, room: Room) -> Case {
    let limits = any_limits(rng, room);
    let hall = any_hall(rng, limits);
    let length = around(rng, 2 * hall.need());
    let mut table = any_bytes(rng, length);
    if rng.one_in(2) {
        // With a header within the limits, the board reads the rest.
        let header = [hall.desks as u8, 0, hall.screens as u8, 0, hall.positions as u8, 0];
        for (byte, with) in table.iter_mut().zip(header) {
            *byte = with;
        }
    }
    let sessions = Sessions::any(rng, room.limits());
    steps(rng, Calls::new(room, hall, sessions, table), 6)
}

/// No calls yet, on a sound table of exactly the need.
fn on_sound_table(rng: &mut Rng, room: Room) -> Calls {
    let limits = any_limits(rng, room);
    let hall = any_hall(rng, limits);
    let sessions = Sessions::any(rng, room.limits());
    let table = sound_table(rng, &hall, &sessions);
    Calls::new(room, hall, sessions, table)
}

/// One to `most` steps.
fn steps(rng: &mut Rng, mut calls: Calls, most: usize) -> Case {
    let table = calls.table.clone();
    (0..rng.within(1, most)).for_each(|_| calls.any_step(rng));
    case_of(rng, table, calls.made)
}

/// The calls of a case so far, and the table as the reference leaves it after
/// them: what stands at a position can be swapped for itself, or for another.
struct Calls {
    room: Room,
    hall: Hall,
    sessions: Sessions,
    table: Vec<u8>,
    made: Vec<Call>,
}

impl Calls {
    fn new(room: Room, hall: Hall, sessions: Sessions, table: Vec<u8>) -> Calls {
        Calls { room, hall, sessions, table, made: Vec::new() }
    }

    fn send(&mut self, call: Call) {
        call.to_reference(&mut self.table);
        self.made.push(call);
    }

    /// A step, mostly in the room of the case, sometimes in the other. Sometimes the
    /// link delivers it twice.
    fn push(&mut self, rng: &mut Rng, function: Function, numbers: &[u16]) {
        let room = mostly(rng, self.room);
        let message = self.message(rng, room.limits().list, numbers[0]);
        let call = Call::new(room, function, message, numbers);
        self.send(call);
        if rng.one_in(32) {
            self.send(call);
        }
    }

    /// The message number that is due from a desk, with few exceptions.
    fn message(&self, rng: &mut Rng, list: List, desk: u16) -> u16 {
        let due = next_message(list, &self.table, desk).unwrap_or_else(|| any_message(rng));
        if rng.one_in(24) {
            self.wrong_message(rng, list, due)
        } else {
            due
        }
    }

    /// A number near the one that is due, one that shares a byte with it, that of
    /// another desk, or any.
    fn wrong_message(&self, rng: &mut Rng, list: List, due: u16) -> u16 {
        match rng.below(8) {
            0 => due.wrapping_sub(1),
            1 => due.wrapping_add(1),
            2 => due ^ 1 << rng.below(16),
            3 => due.wrapping_add(256 * rng.within(1, 255) as u16),
            4 => due & 0xFF00 | rng.word() & 0xFF,
            5 => next_message(list, &self.table, one_of(rng, self.hall.desks)).unwrap_or(0),
            _ => any_message(rng),
        }
    }

    /// What stands at a position; 0 if the table does not have it.
    fn held(&self, position: u16) -> u16 {
        held(&self.table, position).unwrap_or(0)
    }

    fn any_step(&mut self, rng: &mut Rng) {
        let function = rng.pick(&[Take, Drop, Swap, Retire, Collect, Collect]);
        self.step(rng, function);
    }

    fn step(&mut self, rng: &mut Rng, function: Function) {
        let Hall { desks, screens, positions, .. } = self.hall;
        let desk = number(rng, desks);
        match function {
            Open => unreachable!("an opening is no step"),
            Take => {
                let screen = number(rng, screens);
                let position = number(rng, positions);
                self.push(rng, Take, &[desk, screen, position]);
            }
            Drop => {
                let screen = number(rng, screens);
                self.push(rng, Drop, &[desk, screen]);
            }
            Swap => {
                let position = number(rng, positions);
                let any = self.sessions.pick(rng);
                let session = if rng.one_in(3) { self.held(position) } else { any };
                self.push(rng, Swap, &[desk, position, session]);
            }
            Retire | Collect => self.push(rng, function, &[desk]),
        }
    }

    /// Puts another session at a position, or none, and retires what is owed.
    /// Sometimes there is a repeat in between, while the desk owes.
    fn replace_and_retire(&mut self, rng: &mut Rng, desk: u16) {
        let position = one_of(rng, self.hall.positions);
        let (held, any) = (self.held(position), self.sessions.pick(rng));
        let session = match any {
            0 if held == 0 => self.sessions.pick_some(rng),
            any if any == held => 0,
            any => any,
        };
        self.push(rng, Swap, &[desk, position, session]);
        if rng.one_in(8) {
            self.repeat(rng, desk, position);
        }
        self.push(rng, Retire, &[desk]);
    }

    /// A swap to what stands at the position, by this desk or by another.
    fn repeat(&mut self, rng: &mut Rng, desk: u16, position: u16) {
        let desk = if rng.one_in(2) { desk } else { one_of(rng, self.hall.desks) };
        self.push(rng, Swap, &[desk, position, self.held(position)]);
    }
}

fn one_of(rng: &mut Rng, most: u16) -> u16 {
    rng.within(1, usize::from(most)) as u16
}

/// Usually 1 to most; sometimes outside.
fn number(rng: &mut Rng, most: u16) -> u16 {
    if rng.one_in(16) {
        let within = one_of(rng, most);
        wild(rng, within, most)
    } else {
        one_of(rng, most)
    }
}

/// A number out of range, perhaps only because of its high byte.
fn wild(rng: &mut Rng, within: u16, most: u16) -> u16 {
    match rng.below(6) {
        0 | 1 => 0,
        2 => most + 1,
        3 => 65_535,
        4 => within + 256,
        _ => rng.word(),
    }
}

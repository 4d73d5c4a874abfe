//! Tables to start from: any bytes, and sound ones built word by word.

use crate::rng::Rng;
use reference::{place, set_word, Hall, Limits, List};

/// The few sessions of a case, so that screens and lists often agree.
pub struct Sessions(Vec<u16>);

impl Sessions {
    /// Around the room's limit and far from it. Some are over it: a swap refuses
    /// them, but a table may have them.
    pub fn any(rng: &mut Rng, limits: Limits) -> Sessions {
        let most = limits.sessions;
        let more = most.saturating_add(1);
        // Some share a byte: a board that compares bytes would confuse them.
        let sets: [&[u16]; 7] = [
            &[5],
            &[5, 6],
            &[1, 2, 3, most],
            &[0x0103, 0x0003, 0x0300, 0x0301],
            &[256, 255, 1, 0x8000, 0x7FFF],
            &[most - 1, most, more],
            &[5, more, 65_535],
        ];
        match rng.below(8) {
            7 => Sessions((0..8).map(|_| rng.word().max(1)).collect()),
            set => Sessions(sets[set].to_vec()),
        }
    }

    /// One of them, sometimes none.
    pub fn pick(&self, rng: &mut Rng) -> u16 {
        if rng.one_in(8) {
            0
        } else {
            self.pick_some(rng)
        }
    }

    pub fn pick_some(&self, rng: &mut Rng) -> u16 {
        rng.pick(&self.0)
    }
}

/// Halls of all sizes within the limits, including the smallest and the largest.
pub fn any_hall(rng: &mut Rng, limits: Limits) -> Hall {
    let largest = [limits.desks, limits.screens, limits.positions];
    let (least, most) = match rng.below(16) {
        0 => ([1, 1, 1], [1, 1, 1]),
        1 => (largest, largest),
        2 | 3 => ([1, 1, 1], largest),
        4..=6 => ([1, 1, 1], [8, 3, 12]),
        _ => ([1, 1, 1], [4, 2, 3]),
    };
    let mut number = |which: usize| {
        let most = most[which].min(largest[which]);
        rng.within(usize::from(least[which]), usize::from(most)) as u16
    };
    Hall::new(limits, number(0), number(1), number(2)).expect("a hall within the limits")
}

pub fn any_bytes(rng: &mut Rng, length: usize) -> Vec<u8> {
    match rng.below(4) {
        0 => vec![0x00; length],
        1 => vec![0xFF; length],
        _ => any_words(rng, length),
    }
}

pub fn any_words(rng: &mut Rng, length: usize) -> Vec<u8> {
    (0..length).map(|_| rng.word() as u8).collect()
}

/// A sound table of exactly the need, otherwise arbitrary.
pub fn sound_table(rng: &mut Rng, hall: &Hall, sessions: &Sessions) -> Vec<u8> {
    let mut table = vec![0; 2 * hall.need()];
    set_word(&mut table, 0, hall.desks);
    set_word(&mut table, 1, hall.screens);
    set_word(&mut table, 2, hall.positions);
    for at in 3..hall.screens_of_hall().end {
        set_word(&mut table, at, sessions.pick(rng));
    }
    for desk in 1..=hall.desks {
        let record = hall.record(desk);
        let lengths = any_lengths(rng, hall.all_screens());
        sound_record(rng, hall, sessions, lengths, &mut table[2 * record.start..2 * record.end]);
    }
    table
}

/// How many are ready, tested and waiting.
type Lengths = [usize; 3];

/// None, all or any number of places used, divided in any way.
fn any_lengths(rng: &mut Rng, all_screens: usize) -> Lengths {
    let places = 2 * all_screens;
    let used = match rng.below(4) {
        0 => 0,
        1 => places,
        _ => rng.within(0, places),
    };
    let (one, other) = (rng.within(0, used), rng.within(0, used));
    let (first, second) = (one.min(other), one.max(other));
    match rng.below(4) {
        // With one or two screens nothing stays tested between steps.
        _ if all_screens < 3 => [first, 0, used - first],
        0 => [first, 0, used - first],
        1 => [0, used, 0],
        _ => [first, second - first, used - second],
    }
}

/// A desk's next message number: often about to run on from 65,535 to 0.
pub fn any_message(rng: &mut Rng) -> u16 {
    match rng.below(4) {
        0 => rng.pick(&[0, 1, 2]),
        1 => rng.pick(&[65_533, 65_534, 65_535]),
        2 => rng.pick(&[254, 255, 256, 0x7FFF, 0x8000, 0xFF00]),
        _ => rng.word(),
    }
}

fn sound_record(
    rng: &mut Rng,
    hall: &Hall,
    sessions: &Sessions,
    [ready, tested, waiting]: Lengths,
    record: &mut [u8],
) {
    set_word(record, place::OWED, sessions.pick(rng));
    set_word(record, place::READY, ready as u16);
    set_word(record, place::TESTED, tested as u16);
    set_word(record, place::WAITING, waiting as u16);
    for at in 0..ready + tested + waiting {
        set_word(record, place::LIST + at, sessions.pick_some(rng));
    }
    set_word(record, place::LIST + hall.places(), any_message(rng));
    if tested > 0 {
        let scanned = 2 * rng.within(1, (hall.all_screens() - 1) / 2);
        set_word(record, place::SCANNED, scanned as u16);
        let most = scanned.min(tested);
        let some = rng.within(0, most);
        let marked = rng.pick(&[0, most, some]);
        let marks = any_marks(rng, tested, marked);
        set_marks(record, marks);
    }
    if hall.list == List::Ring {
        let beginning = rng.below(hall.places());
        turn(hall, record, beginning);
    }
}

/// The list of a ring that began at its first place begins at another.
fn turn(hall: &Hall, record: &mut [u8], beginning: usize) {
    record[2 * place::LIST..][..2 * hall.places()].rotate_right(2 * beginning);
    let last = record.len() / 2 - 1;
    set_word(record, last, beginning as u16);
}

/// This many marks among the first places.
pub fn any_marks(rng: &mut Rng, places: usize, marked: usize) -> u128 {
    let mut marks = 0;
    let mut left = marked;
    for place in 0..places {
        if rng.below(places - place) < left {
            marks |= 1 << place;
            left -= 1;
        }
    }
    marks
}

pub fn set_marks(record: &mut [u8], marks: u128) {
    record[2 * place::MARKS..2 * place::LIST].copy_from_slice(&marks.to_le_bytes());
}

/// A record during a reading, for the damages that need one; `None` where the
/// hall is too small for it.
pub fn reading_record(rng: &mut Rng, hall: &Hall, record: &mut [u8]) -> Option<(usize, usize)> {
    let all_screens = hall.all_screens();
    if all_screens < 3 {
        return None;
    }
    let scanned = 2 * rng.within(1, (all_screens - 1) / 2);
    let tested = rng.within(scanned + 1, 2 * all_screens - 1);
    record.fill(0);
    let sessions = Sessions::any(rng, Limits::HALL);
    let waiting = rng.below(2);
    sound_record(rng, hall, &sessions, [0, tested, waiting], record);
    set_word(record, place::SCANNED, scanned as u16);
    set_marks(record, 0);
    Some((scanned, tested))
}

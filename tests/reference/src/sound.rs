//! Soundness, clause by clause as in document 01, and nothing more: it asks nothing
//! of a desk's next message number.

use super::record::{list, marks, place};
use super::words::{bytes, count, word};
use super::{Hall, Limits};

/// Document 01, for Job 5: "in a training room soundness asks its limits for P and
/// c too." It asks nothing of the sessions in a table but where 0 must be.
pub fn is_sound(limits: Limits, table: &[u8]) -> bool {
    sound_hall(limits, table).is_some()
}

/// The hall of a sound table.
pub fn sound_hall(limits: Limits, table: &[u8]) -> Option<Hall> {
    let hall = header(limits, table)?;
    let long_enough = count(table) >= hall.need();
    let sound = long_enough
        && (1..=hall.desks).all(|desk| sound_record(&hall, &table[bytes(hall.record(desk))]));
    sound.then_some(hall)
}

/// The ranges are checked first: the need is defined only within them.
pub fn header(limits: Limits, table: &[u8]) -> Option<Hall> {
    if count(table) < 3 {
        return None;
    }
    Hall::new(limits, word(table, 0), word(table, 1), word(table, 2)).ok()
}

/// Document 02, Job 9: of a ring, "its soundness (5) asks also that the beginning is less
/// than 2S."
fn sound_record(hall: &Hall, record: &[u8]) -> bool {
    let all_screens = hall.all_screens();
    let number = |at| usize::from(word(record, at));
    let tested = number(place::TESTED);
    // The sum is one of numbers, not of 16-bit words: it cannot wrap.
    let used = number(place::READY) + tested + number(place::WAITING);
    used <= 2 * all_screens
        && list(hall.list, record).is_some_and(|list| sound_list(list, used))
        && sound_marks(marks(record), tested)
        && sound_reading(number(place::SCANNED), tested, all_screens)
        && marks(record).count_ones() as usize <= number(place::SCANNED)
}

/// Used places are not 0, unused ones are, in the order of the list.
fn sound_list([first, rest]: [&[u8]; 2], used: usize) -> bool {
    let of_first = used.min(count(first));
    sound_places(first, of_first) && sound_places(rest, used - of_first)
}

/// Neither loop exits early, so the compiler can vectorise them.
fn sound_places(places: &[u8], used: usize) -> bool {
    let (used, unused) = places.split_at(2 * used);
    let none_is_zero = used.chunks_exact(2).fold(true, |none, place| none & (word(place, 0) != 0));
    let all_are_zero = unused.iter().fold(0, |seen, byte| seen | byte) == 0;
    none_is_zero && all_are_zero
}

/// Marks lie only on tested places, of which there are at most 128.
fn sound_marks(marks: u128, tested: usize) -> bool {
    marks.checked_shr(tested as u32).unwrap_or(0) == 0
}

fn sound_reading(scanned: usize, tested: usize, all_screens: usize) -> bool {
    if tested == 0 {
        scanned == 0
    } else {
        scanned % 2 == 0 && scanned >= 2 && scanned < all_screens
    }
}

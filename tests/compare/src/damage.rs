//! Damage to a sound table: each clause of soundness broken alone, at its
//! boundary where it has one, and words changed at random.

use crate::rng::Rng;
use crate::tables::{any_marks, reading_record, set_marks};
use reference::{place, set_word, word, Hall, List};

pub fn damage(rng: &mut Rng, hall: &Hall, table: &mut [u8]) {
    let desk = rng.within(1, usize::from(hall.desks)) as u16;
    let words = hall.record(desk);
    let record = &mut table[2 * words.start..2 * words.end];
    if hall.list == List::Ring && rng.one_in(4) {
        return another_beginning(rng, hall, record);
    }
    match rng.below(14) {
        0 => header_out_of_range(rng, table),
        1 => header_of_another_hall(rng, table),
        2 => one_too_many(rng, hall, record),
        3 => sum_that_wraps(rng, record),
        4 => zero_among_used(rng, hall, record),
        5 => session_among_unused(rng, hall, record),
        6 => mark_past_tested(rng, hall, record),
        7 => read_so_far(rng, hall, record),
        8 => too_many_marks(rng, hall, record),
        9 => read_with_nothing_tested(rng, record),
        10 => next_to(rng, table),
        11 => one_bit(rng, table),
        12 => any_word(rng, table),
        _ => (0..rng.within(2, 4)).for_each(|_| any_word(rng, table)),
    }
}

fn header_out_of_range(rng: &mut Rng, table: &mut [u8]) {
    let at = rng.below(3);
    let most = [16, 4, 64][at];
    let within = word(table, at);
    let value = rng.pick(&[0, most + 1, 65_535, within + 256, within << 8]);
    set_word(table, at, value);
}

/// The header is changed: the words are elsewhere, or too few.
fn header_of_another_hall(rng: &mut Rng, table: &mut [u8]) {
    let at = rng.below(3);
    let most = [16, 4, 64][at];
    set_word(table, at, rng.within(1, most) as u16);
}

const COUNTS: [usize; 3] = [place::READY, place::TESTED, place::WAITING];

fn used(record: &[u8]) -> usize {
    COUNTS.iter().map(|&at| usize::from(word(record, at))).sum()
}

/// The word of the list that has this index in the list's order.
fn listed(hall: &Hall, record: &[u8], index: usize) -> usize {
    let beginning = match hall.list {
        List::Straight => 0,
        List::Ring => usize::from(word(record, record.len() / 2 - 1)),
    };
    place::LIST + (beginning + index) % hall.places()
}

/// A beginning that is no place of the list, or another one than the list has.
fn another_beginning(rng: &mut Rng, hall: &Hall, record: &mut [u8]) {
    let (last, places) = (record.len() / 2 - 1, hall.places() as u16);
    let (beginning, message) = (word(record, last), word(record, last - 1));
    let (around, any) = ((beginning + 1) % places, rng.below(hall.places()) as u16);
    let most = [places, places, places + 1, 255, 256, 65_535, beginning + 256, beginning << 8];
    let other = rng.pick(&[around, any, message]);
    let value = if rng.one_in(3) { other } else { rng.pick(&most) };
    set_word(record, last, value);
    if value == message {
        set_word(record, last - 1, beginning); // the two words exchanged
    }
}

/// Every place is used, and the counts sum to one more than there are places.
fn one_too_many(rng: &mut Rng, hall: &Hall, record: &mut [u8]) {
    let missing = hall.places() + 1 - used(record);
    let more = rng.pick(&[missing, missing, missing + 255, missing - 1]);
    let at = match word(record, place::TESTED) {
        0 => rng.pick(&[place::READY, place::WAITING]),
        _ => rng.pick(&COUNTS),
    };
    set_word(record, at, word(record, at) + more as u16);
    for at in place::LIST..place::LIST + hall.places() {
        if word(record, at) == 0 {
            set_word(record, at, 5);
        }
    }
}

/// Two counts are changed so that their sum in 16 bits stays the same.
fn sum_that_wraps(rng: &mut Rng, record: &mut [u8]) {
    let first = rng.below(3);
    let (up, down) = (COUNTS[first], COUNTS[(first + rng.within(1, 2)) % 3]);
    let any = rng.word();
    let by = rng.pick(&[1, 256, 0x8000, 0xFF00, 0xFFFF, any]);
    set_word(record, up, word(record, up).wrapping_add(by));
    set_word(record, down, word(record, down).wrapping_sub(by));
}

fn zero_among_used(rng: &mut Rng, hall: &Hall, record: &mut [u8]) {
    let used = used(record);
    if used > 0 {
        let any = rng.below(used);
        let at = listed(hall, record, rng.pick(&[0, used - 1, any]));
        set_word(record, at, 0);
    }
}

fn session_among_unused(rng: &mut Rng, hall: &Hall, record: &mut [u8]) {
    let (used, places) = (used(record), hall.places());
    if used < places {
        let any = rng.within(used, places - 1);
        let at = listed(hall, record, rng.pick(&[used, places - 1, any]));
        set_word(record, at, rng.pick(&[1, 256, 65_535]));
    }
}

/// One mark, on the first place that is not tested, the last bit, or between.
fn mark_past_tested(rng: &mut Rng, hall: &Hall, record: &mut [u8]) {
    let tested = match rng.one_in(4) {
        true => usize::from(word(record, place::TESTED)),
        false => reading_record(rng, hall, record).map_or(0, |(_, tested)| tested),
    };
    if tested < 128 {
        let any = rng.within(tested, 127);
        let at = rng.pick(&[tested, tested, 127, any]);
        set_marks(record, 1 << at);
    }
}

/// A number of screens read that is odd, 0, or S and more.
fn read_so_far(rng: &mut Rng, hall: &Hall, record: &mut [u8]) {
    let all = hall.all_screens() as u16;
    if let Some((scanned, _)) = reading_record(rng, hall, record) {
        let scanned = scanned as u16;
        let even = all + all % 2;
        let wrong = [0, 1, scanned - 1, scanned + 1, all, even, all - 1, scanned + 256, 65_534];
        set_word(record, place::SCANNED, rng.pick(&wrong));
    }
}

fn too_many_marks(rng: &mut Rng, hall: &Hall, record: &mut [u8]) {
    if let Some((scanned, tested)) = reading_record(rng, hall, record) {
        let more = rng.pick(&[scanned + 1, scanned + 1, scanned, tested]);
        let marks = any_marks(rng, tested, more);
        set_marks(record, marks);
    }
}

/// The tested sessions become waiting, but k is not 0.
fn read_with_nothing_tested(rng: &mut Rng, record: &mut [u8]) {
    let waiting = word(record, place::WAITING) + word(record, place::TESTED);
    set_word(record, place::WAITING, waiting);
    set_word(record, place::TESTED, 0);
    set_marks(record, 0);
    set_word(record, place::SCANNED, rng.pick(&[2, 2, 1, 256]));
}

fn next_to(rng: &mut Rng, table: &mut [u8]) {
    let at = rng.below(table.len() / 2);
    let by = rng.pick(&[1, 65_535]);
    set_word(table, at, word(table, at).wrapping_add(by));
}

fn one_bit(rng: &mut Rng, table: &mut [u8]) {
    let at = rng.below(table.len());
    table[at] ^= 1 << rng.below(8);
}

fn any_word(rng: &mut Rng, table: &mut [u8]) {
    let at = rng.below(table.len() / 2);
    let any = rng.word();
    let value = rng.pick(&[0, 1, 5, 65_535, any]);
    set_word(table, at, value);
}

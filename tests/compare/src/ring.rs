//! What a call of the board with rings finds in its table.

use crate::call::{Call, Room};
use reference::{is_sound, place, set_word, word, Hall, Limits};

/// Of a call on another board, nothing.
#[derive(Clone, Copy, Default)]
pub struct Found {
    /// Its desk's list runs on from the last place to the first.
    pub is_around_the_end: bool,
    /// Its desk's list begins at the last place.
    pub begins_at_the_last: bool,
    /// The table would be sound if every beginning were a place.
    pub has_wrong_beginning: bool,
}

impl Found {
    pub fn by(call: Call, table: &[u8]) -> Found {
        match ring_of(table) {
            Some(hall) if call.room == Room::Ring => {
                let [desk, ..] = call.numbers;
                let has_desk = (1..=hall.desks).contains(&desk);
                let mut found =
                    if has_desk { of_desk(&hall, table, desk) } else { Found::default() };
                found.has_wrong_beginning = has_wrong_beginning(&hall, table);
                found
            }
            _ => Found::default(),
        }
    }
}

/// The hall of a table that is long enough.
fn ring_of(table: &[u8]) -> Option<Hall> {
    if table.len() < 6 {
        return None;
    }
    let hall = Hall::new(Limits::RING, word(table, 0), word(table, 1), word(table, 2)).ok()?;
    (table.len() / 2 >= hall.need()).then_some(hall)
}

fn beginning(hall: &Hall, table: &[u8], desk: u16) -> usize {
    hall.beginning(desk).map_or(0, |at| usize::from(word(table, at)))
}

fn of_desk(hall: &Hall, table: &[u8], desk: u16) -> Found {
    let number = |at| usize::from(word(table, hall.record(desk).start + at));
    let used: usize = [place::READY, place::TESTED, place::WAITING].map(number).iter().sum();
    let (beginning, places) = (beginning(hall, table, desk), hall.places());
    Found {
        is_around_the_end: beginning < places && beginning + used > places,
        begins_at_the_last: beginning + 1 == places,
        has_wrong_beginning: false,
    }
}

fn has_wrong_beginning(hall: &Hall, table: &[u8]) -> bool {
    let is_wrong = |desk: &u16| beginning(hall, table, *desk) >= hall.places();
    let mut wrong = (1..=hall.desks).filter(is_wrong).peekable();
    if wrong.peek().is_none() {
        return false;
    }
    let mut other = table.to_vec();
    for at in wrong.filter_map(|desk| hall.beginning(desk)) {
        set_word(&mut other, at, word(table, at) % hall.places() as u16);
    }
    is_sound(Limits::RING, &other)
}

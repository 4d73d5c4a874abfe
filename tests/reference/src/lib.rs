//! The session board in plain Rust, written from documents 01 and 02 alone.
//!
//! The board is compared with it, so the two share no code. The table is a
//! slice of bytes, two to a word, low byte first; an odd last byte is not part
//! of it. Every call is told the limits of its room, the hall or the training room, and
//! whether the lists are rings, and every step its message number.

mod hall;
mod limits;
mod reading;
mod record;
mod run;
pub mod sheet;
mod sound;
mod words;

pub use self::hall::Hall;
pub use self::limits::{Limits, List};
pub use self::reading::first_board;
pub use self::record::place;
pub use self::run::run;
pub use self::sound::is_sound;
pub use self::words::{set_word, word};

use self::record::Record;
use self::sound::{header, sound_hall};

/// The "no" to each question, with its number.
#[derive(Clone, Copy, Debug, PartialEq, Eq)]
#[repr(u16)]
pub enum Refusal {
    BadDesks = 1,
    BadScreens = 2,
    BadPositions = 3,
    TableShort = 4,
    Unsound = 5,
    NoDesk = 6,
    NoScreen = 7,
    NoPosition = 8,
    ScreenFull = 9,
    PositionEmpty = 10,
    ScreenEmpty = 11,
    Owing = 12,
    OwesNothing = 13,
    NoRoom = 14,
    /// Of a step in a run: its code is not 1 to 5.
    BadCode = 17,
    /// A size or a session that the hall allows and this room does not.
    OverLimits = 22,
    /// Not the desk's next message number.
    OtherMessage = 23,
}

/// The session of an accepted call, or the refusal.
pub type Reply = Result<u16, Refusal>;

/// The answer to a host: the reply number times 65,536, plus the session.
pub fn answer(reply: Reply) -> u32 {
    match reply {
        Ok(session) => u32::from(session),
        Err(refusal) => (refusal as u32) << 16,
    }
}

/// Opening: the hall's numbers, then zeros up to the need.
pub fn open(limits: Limits, desks: u16, screens: u16, positions: u16, table: &mut [u8]) -> Reply {
    let hall = Hall::new(limits, desks, screens, positions)?;
    ask(words::count(table) >= hall.need(), Refusal::TableShort)?;
    table[..2 * hall.need()].fill(0);
    set_word(table, 0, desks);
    set_word(table, 1, screens);
    set_word(table, 2, positions);
    Ok(0)
}

/// The screen shows the position's session.
pub fn take(
    limits: Limits,
    message: u16,
    desk: u16,
    screen: u16,
    position: u16,
    table: &mut [u8],
) -> Reply {
    step(limits, message, desk, table, |hall, table| {
        ask_screen(hall, screen)?;
        ask_position(hall, position)?;
        let shown = hall.screen(desk, screen);
        let session = word(table, hall.position(position));
        ask(word(table, shown) == 0, Refusal::ScreenFull)?;
        ask(session != 0, Refusal::PositionEmpty)?;
        set_word(table, shown, session);
        Ok(session)
    })
}

/// The screen no longer shows anything.
pub fn drop(limits: Limits, message: u16, desk: u16, screen: u16, table: &mut [u8]) -> Reply {
    step(limits, message, desk, table, |hall, table| {
        ask_screen(hall, screen)?;
        let shown = hall.screen(desk, screen);
        let session = word(table, shown);
        ask(session != 0, Refusal::ScreenEmpty)?;
        set_word(table, shown, 0);
        Ok(session)
    })
}

/// The position holds another session; the desk owes the old one.
///
/// Document 02, Job 1: "a swap to the session already there, or of 0 onto an
/// empty position, replies with it, owes nothing and is no swap for linking. ..
/// 12 is still asked first, also for a repeat." Job 5, of a session over the
/// limit: "22 for one passed straight to swap, after 8."
pub fn swap(
    limits: Limits,
    message: u16,
    desk: u16,
    position: u16,
    session: u16,
    table: &mut [u8],
) -> Reply {
    step(limits, message, desk, table, |hall, table| {
        ask_position(hall, position)?;
        ask(session <= limits.sessions, Refusal::OverLimits)?;
        let owed = hall.record(desk).start + place::OWED;
        ask(word(table, owed) == 0, Refusal::Owing)?;
        let held = hall.position(position);
        let old = word(table, held);
        if session == old {
            return Ok(old);
        }
        set_word(table, held, session);
        if old != 0 {
            set_word(table, owed, old);
        }
        Ok(old)
    })
}

/// The owed session starts to wait.
pub fn retire(limits: Limits, message: u16, desk: u16, table: &mut [u8]) -> Reply {
    step(limits, message, desk, table, |hall, table| {
        let (_, mut record) = screens_and_record(hall, desk, table);
        ask(record.owed() != 0, Refusal::OwesNothing)?;
        ask(record.used() < 2 * hall.all_screens(), Refusal::NoRoom)?;
        Ok(record.retire())
    })
}

/// Reads the next screens of the hall, and hands back at most one session.
pub fn collect(limits: Limits, message: u16, desk: u16, table: &mut [u8]) -> Reply {
    step(limits, message, desk, table, |hall, table| {
        let (screens, mut record) = screens_and_record(hall, desk, table);
        Ok(record.collect(screens))
    })
}

/// A step: the questions that every step asks first, its own questions and what it
/// does, and the desk's next message number.
///
/// Document 02, Job 6: "Calls from the host carry the number; only an accepted call
/// moves it on, running on from 65,535 to 0 without a fuss. .. 23 for another
/// number, asked after 6 and before 7."
fn step(
    limits: Limits,
    message: u16,
    desk: u16,
    table: &mut [u8],
    of_step: impl FnOnce(&Hall, &mut [u8]) -> Reply,
) -> Reply {
    let hall = hall_with_desk(limits, table, desk)?;
    let next = hall.message(desk);
    ask(message == word(table, next), Refusal::OtherMessage)?;
    let session = of_step(&hall, table)?;
    set_word(table, next, message.wrapping_add(1));
    Ok(session)
}

/// The number that a desk's next message must carry, also where the table is not
/// sound; `None` if its hall does not have the desk, or it is too short for it.
pub fn next_message(list: List, table: &[u8], desk: u16) -> Option<u16> {
    let hall = header(Limits { list, ..Limits::HALL }, table)?;
    let has_desk = (1..=hall.desks).contains(&desk) && hall.message(desk) < words::count(table);
    has_desk.then(|| word(table, hall.message(desk)))
}

fn ask(yes: bool, refusal: Refusal) -> Result<(), Refusal> {
    if yes {
        Ok(())
    } else {
        Err(refusal)
    }
}

/// Asks 5 and 6.
fn hall_with_desk(limits: Limits, table: &[u8], desk: u16) -> Result<Hall, Refusal> {
    let hall = sound_hall(limits, table).ok_or(Refusal::Unsound)?;
    ask((1..=hall.desks).contains(&desk), Refusal::NoDesk)?;
    Ok(hall)
}

fn ask_screen(hall: &Hall, screen: u16) -> Result<(), Refusal> {
    ask((1..=hall.screens).contains(&screen), Refusal::NoScreen)
}

fn ask_position(hall: &Hall, position: u16) -> Result<(), Refusal> {
    ask((1..=hall.positions).contains(&position), Refusal::NoPosition)
}

/// The screens of the whole hall, to read, and the desk's record, to write.
fn screens_and_record<'a>(hall: &Hall, desk: u16, table: &'a mut [u8]) -> (&'a [u8], Record<'a>) {
    let screens = words::bytes(hall.screens_of_hall());
    let record = words::bytes(hall.record(desk));
    let (before, from_record) = table.split_at_mut(record.start);
    (&before[screens], Record::new(hall.list, &mut from_record[..record.len()]))
}

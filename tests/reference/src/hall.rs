//! The hall: its three numbers, and the location of each part in the table.

use super::{ask, Limits, List, Refusal};
use std::ops::Range;

/// Words before the first position: the hall's three numbers.
const HEADER: usize = 3;

#[derive(Clone, Copy, Debug, PartialEq, Eq)]
pub struct Hall {
    pub desks: u16,
    /// Of one desk.
    pub screens: u16,
    pub positions: u16,
    pub list: List,
}

impl Hall {
    /// The hall of these numbers, checked in the order of the opening: 1 to 3 ask
    /// the hall's limits in every room, and 22 those of this one.
    pub fn new(limits: Limits, desks: u16, screens: u16, positions: u16) -> Result<Hall, Refusal> {
        ask((1..=Limits::HALL.desks).contains(&desks), Refusal::BadDesks)?;
        ask((1..=Limits::HALL.screens).contains(&screens), Refusal::BadScreens)?;
        ask((1..=Limits::HALL.positions).contains(&positions), Refusal::BadPositions)?;
        let hall = Hall { desks, screens, positions, list: limits.list };
        ask(limits.allow(&hall), Refusal::OverLimits)?;
        Ok(hall)
    }

    /// S, the screens of the whole hall.
    pub fn all_screens(&self) -> usize {
        usize::from(self.desks) * usize::from(self.screens)
    }

    /// The words of the table that the board uses.
    pub fn need(&self) -> usize {
        self.records() + usize::from(self.desks) * self.record_length()
    }

    /// The word of a position.
    pub fn position(&self, position: u16) -> usize {
        HEADER + usize::from(position) - 1
    }

    /// The words of all screens, desk by desk.
    pub fn screens_of_hall(&self) -> Range<usize> {
        let first = HEADER + usize::from(self.positions);
        first..first + self.all_screens()
    }

    /// The word of a desk's screen.
    pub fn screen(&self, desk: u16, screen: u16) -> usize {
        let desks_before = usize::from(desk) - 1;
        let screens_before = desks_before * usize::from(self.screens) + usize::from(screen) - 1;
        self.screens_of_hall().start + screens_before
    }

    /// The words of a desk's record.
    pub fn record(&self, desk: u16) -> Range<usize> {
        let first = self.records() + (usize::from(desk) - 1) * self.record_length();
        first..first + self.record_length()
    }

    /// The word of a desk's next message number, behind its list. Document 01: "Job 6's
    /// word is the last of the desk's record; Job 9's comes after it."
    pub fn message(&self, desk: u16) -> usize {
        self.record(desk).start + super::place::LIST + self.places()
    }

    /// The word that says at which place a desk's list begins; only a ring has it.
    pub fn beginning(&self, desk: u16) -> Option<usize> {
        (self.list == List::Ring).then(|| self.message(desk) + 1)
    }

    /// The places of a list.
    pub fn places(&self) -> usize {
        2 * self.all_screens()
    }

    fn records(&self) -> usize {
        self.screens_of_hall().end
    }

    /// Up to the list, the list, and the words behind it.
    fn record_length(&self) -> usize {
        super::place::LIST + self.places() + self.list.words_behind()
    }
}

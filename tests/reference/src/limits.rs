//! What a board is told: the limits of its room, the hall or the training room, and how
//! it stores a desk's list.

use super::Hall;

/// How the list of a desk is stored.
#[derive(Clone, Copy, Debug, PartialEq, Eq)]
pub enum List {
    /// It begins at the first of its places.
    Straight,
    /// It begins at any place, and runs on from the last to the first. A word more says
    /// where it begins.
    Ring,
}

impl List {
    /// The words of a record behind its list: the next message number, and where a ring
    /// begins.
    pub fn words_behind(self) -> usize {
        match self {
            List::Straight => 1,
            List::Ring => 2,
        }
    }
}

/// The most desks, screens of a desk and positions, and the largest session; and the
/// form of the lists.
#[derive(Clone, Copy, Debug, PartialEq, Eq)]
pub struct Limits {
    pub desks: u16,
    /// Of one desk.
    pub screens: u16,
    pub positions: u16,
    pub sessions: u16,
    pub list: List,
}

impl Limits {
    /// Document 01: "A hall has P desks (1 to 16), c screens per desk (1 to 4) and
    /// L crane positions (1 to 64). .. Sessions are 1 to 65,535".
    pub const HALL: Limits =
        Limits { desks: 16, screens: 4, positions: 64, sessions: 65_535, list: List::Straight };

    /// Document 02, Job 5: "Trainees get a board of at most 4 desks with 1 screen
    /// each, and sessions up to 999." Positions are as in the hall.
    pub const TRAINING: Limits =
        Limits { desks: 4, screens: 1, positions: 64, sessions: 999, list: List::Straight };

    /// Document 02, Job 9: "Build a second board whose desk list is a ring". It is the
    /// hall's, with "the same numbers".
    pub const RING: Limits = Limits { list: List::Ring, ..Limits::HALL };

    /// Is a hall of this size within the limits?
    pub fn allow(self, hall: &Hall) -> bool {
        hall.desks <= self.desks && hall.screens <= self.screens && hall.positions <= self.positions
    }
}

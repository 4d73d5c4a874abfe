//! The first board beside one with rings (document 02, Job 9): the same steps get the same
//! replies from both, the ring reads as the first board's table after each, and a desk's
//! beginning moves by one place for each hand-back and for nothing else.

use crate::call::{Call, Function, Room};
use reference::{first_board, word, Hall, Limits};

/// The archive's first board, and where the ring's lists must begin.
pub struct Beside {
    hall: Hall,
    table: Vec<u8>,
    beginnings: Vec<u16>,
}

/// What is wrong with the archive's ring, and the answer of its first board.
pub struct Fault {
    pub what: &'static str,
    pub first: u32,
}

impl Beside {
    /// The first board that a ring reads as; `None` if the ring is not sound.
    pub fn of_ring(ring: &[u8]) -> Option<Beside> {
        let table = first_board(ring)?;
        let hall = hall_of_sound_ring(ring);
        Some(Beside { hall, table, beginnings: beginnings(&hall, ring) })
    }

    /// The first board after the same opening, which the ring has accepted.
    fn of_opening(opening: Call, ring: &[u8]) -> Beside {
        let hall = hall_of_sound_ring(ring);
        let [desks, screens, positions] = opening.numbers;
        let first = Hall::new(Limits::HALL, desks, screens, positions).expect("an accepted hall");
        let mut table = vec![0xA5; 2 * first.need()];
        table.extend(&ring[2 * hall.need()..]);
        Call { room: Room::Hall, ..opening }.to_archive(&mut table);
        Beside { hall, table, beginnings: vec![0; usize::from(desks)] }
    }

    /// What is beside the archive's ring once it got the call: another board's call may
    /// leave anything.
    pub fn after(
        beside: Option<Beside>,
        call: Call,
        answer: u32,
        ring: &[u8],
    ) -> (Option<Beside>, Option<Fault>) {
        let is_accepted = answer >> 16 == 0;
        match (beside, call.room, call.function) {
            (_, Room::Ring, Function::Open) if is_accepted => {
                let opened = Beside::of_opening(call, ring);
                let fault = opened.differs_from(ring, 0);
                (Some(opened), fault)
            }
            (Some(mut beside), Room::Ring, _) => {
                let fault = beside.follow(call, answer, ring);
                (Some(beside), fault)
            }
            _ => (None, None),
        }
    }

    /// The same call on the first board. A refused opening has changed nothing.
    fn follow(&mut self, call: Call, answer: u32, ring: &[u8]) -> Option<Fault> {
        if call.function == Function::Open {
            return self.differs_from(ring, answer);
        }
        let first = Call { room: Room::Hall, ..call }.to_archive(&mut self.table);
        if first != answer {
            return Some(Fault { what: "another answer than the first board's", first });
        }
        if call.function == Function::Collect && answer != 0 && answer >> 16 == 0 {
            let beginning = &mut self.beginnings[usize::from(call.numbers[0]) - 1];
            *beginning = (*beginning + 1) % self.hall.places() as u16;
        }
        self.differs_from(ring, first)
    }

    fn differs_from(&self, ring: &[u8], first: u32) -> Option<Fault> {
        let fault = |what| Some(Fault { what, first });
        if first_board(ring).as_ref() != Some(&self.table) {
            fault("it does not read as the first board's table")
        } else if beginnings(&self.hall, ring) != self.beginnings {
            fault("a beginning is not that of its hand-backs")
        } else {
            None
        }
    }
}

fn hall_of_sound_ring(ring: &[u8]) -> Hall {
    Hall::new(Limits::RING, word(ring, 0), word(ring, 1), word(ring, 2)).expect("a sound ring")
}

fn beginnings(hall: &Hall, ring: &[u8]) -> Vec<u16> {
    let words = (1..=hall.desks).filter_map(|desk| hall.beginning(desk));
    words.map(|at| word(ring, at)).collect()
}

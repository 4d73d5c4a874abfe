//! A board with its table, and small histories as the start of cases.

#![allow(dead_code)] // each test file uses its own part of this

use reference::{next_message, place, set_word, word, Hall, Limits, Reply};

pub struct Board {
    pub limits: Limits,
    pub hall: Hall,
    pub table: Vec<u8>,
}

/// A step and its numbers, but for the message number.
#[derive(Clone, Copy, Debug)]
pub enum Step {
    Take(u16, u16, u16),
    Drop(u16, u16),
    Swap(u16, u16, u16),
    Retire(u16),
    Collect(u16),
}

use Step::{Collect, Drop, Retire, Swap, Take};

impl Step {
    pub fn desk(self) -> u16 {
        match self {
            Take(desk, ..) | Drop(desk, _) | Swap(desk, ..) | Retire(desk) | Collect(desk) => desk,
        }
    }

    pub fn on(self, limits: Limits, message: u16, table: &mut [u8]) -> Reply {
        match self {
            Take(desk, screen, position) => {
                reference::take(limits, message, desk, screen, position, table)
            }
            Drop(desk, screen) => reference::drop(limits, message, desk, screen, table),
            Swap(desk, position, session) => {
                reference::swap(limits, message, desk, position, session, table)
            }
            Retire(desk) => reference::retire(limits, message, desk, table),
            Collect(desk) => reference::collect(limits, message, desk, table),
        }
    }
}

/// The counts and places of a desk's list.
#[derive(Debug, PartialEq, Eq)]
pub struct List {
    pub ready: u16,
    pub tested: u16,
    pub waiting: u16,
    pub sessions: Vec<u16>,
}

pub fn list(ready: u16, tested: u16, waiting: u16, sessions: &[u16]) -> List {
    List { ready, tested, waiting, sessions: sessions.to_vec() }
}

impl Board {
    /// A hall after its opening, in a table of exactly the need.
    pub fn open(desks: u16, screens: u16, positions: u16) -> Board {
        Board::open_in(Limits::HALL, desks, screens, positions)
    }

    /// The same in a room of these limits.
    pub fn open_in(limits: Limits, desks: u16, screens: u16, positions: u16) -> Board {
        let hall = Hall::new(limits, desks, screens, positions).expect("a hall within the limits");
        let mut table = vec![0xAA; 2 * hall.need()];
        assert_eq!(reference::open(limits, desks, screens, positions, &mut table), Ok(0));
        Board { limits, hall, table }
    }

    /// Three of them: in the hall, in the training room, and with rings for lists.
    pub fn open_every_kind(desks: u16, screens: u16, positions: u16) -> [Board; 3] {
        [Limits::HALL, Limits::TRAINING, Limits::RING]
            .map(|limits| Board::open_in(limits, desks, screens, positions))
    }

    pub fn take(&mut self, desk: u16, screen: u16, position: u16) -> Reply {
        self.step(Take(desk, screen, position))
    }

    pub fn drop(&mut self, desk: u16, screen: u16) -> Reply {
        self.step(Drop(desk, screen))
    }

    pub fn swap(&mut self, desk: u16, position: u16, session: u16) -> Reply {
        self.step(Swap(desk, position, session))
    }

    pub fn retire(&mut self, desk: u16) -> Reply {
        self.step(Retire(desk))
    }

    pub fn collect(&mut self, desk: u16) -> Reply {
        self.step(Collect(desk))
    }

    /// The step with the desk's next message number; any number if there is no such
    /// desk.
    pub fn step(&mut self, step: Step) -> Reply {
        self.send(self.next(step.desk()).unwrap_or(0), step)
    }

    /// The step with this message number. Every step leaves a sound table sound and
    /// moves its desk's number on, and no other desk's; a refusal leaves all unchanged.
    pub fn send(&mut self, message: u16, step: Step) -> Reply {
        let before = self.table.clone();
        let reply = step.on(self.limits, message, &mut self.table);
        match reply {
            Ok(_) => {
                assert!(reference::is_sound(self.limits, &self.table));
                for desk in 1..=self.hall.desks {
                    let moved_by = u16::from(desk == step.desk());
                    let old = next_message(self.hall.list, &before, desk).unwrap();
                    assert_eq!(self.next(desk), Some(old.wrapping_add(moved_by)));
                }
            }
            Err(_) => assert_eq!(self.table, before),
        }
        reply
    }

    /// An accepted step that leaves every byte, except for the desk's message number.
    pub fn changes_nothing(&mut self, step: Step, reply: u16) {
        let mut expected = self.table.clone();
        let message = self.next(step.desk()).expect("a desk of the hall");
        set_word(&mut expected, self.hall.message(step.desk()), message.wrapping_add(1));
        assert_eq!(self.send(message, step), Ok(reply));
        assert_eq!(self.table, expected);
    }

    /// A swap to what the position holds already, accepted: the reply is that.
    pub fn repeat(&mut self, desk: u16, position: u16) {
        let held = word(&self.table, self.hall.position(position));
        self.changes_nothing(Swap(desk, position, held), held);
    }

    /// The desk's next message number.
    pub fn next(&self, desk: u16) -> Option<u16> {
        next_message(self.hall.list, &self.table, desk)
    }

    pub fn set_next(&mut self, desk: u16, message: u16) {
        let at = self.hall.message(desk);
        set_word(&mut self.table, at, message);
    }

    /// The sessions of `times` collects, one after the other.
    pub fn collects(&mut self, desk: u16, times: usize) -> Vec<u16> {
        (0..times).map(|_| self.collect(desk).expect("an accepted collect")).collect()
    }

    /// Puts each session at position 1, swaps it for none and retires it.
    pub fn wait(&mut self, desk: u16, sessions: &[u16]) {
        for &session in sessions {
            assert_eq!(self.swap(desk, 1, session), Ok(0));
            assert_eq!(self.swap(desk, 1, 0), Ok(session));
            assert_eq!(self.retire(desk), Ok(session));
        }
    }

    /// The screen shows the session; it is at the hall's last position.
    pub fn show(&mut self, desk: u16, screen: u16, session: u16) {
        let last = self.hall.positions;
        assert!(last > 1, "position 1 is for wait");
        if word(&self.table, self.hall.position(last)) != session {
            assert_eq!(self.swap(desk, last, session), Ok(0));
        }
        assert_eq!(self.take(desk, screen, last), Ok(session));
    }

    /// In its order: from its beginning on, and around the end of a ring.
    pub fn list(&self, desk: u16) -> List {
        let (places, beginning) = (self.hall.places(), usize::from(self.beginning(desk)));
        let slots = (0..places).map(|at| place::LIST + (beginning + at) % places);
        let sessions = slots.map(|slot| self.record(desk, slot));
        List {
            ready: self.record(desk, place::READY),
            tested: self.record(desk, place::TESTED),
            waiting: self.record(desk, place::WAITING),
            sessions: sessions.take_while(|&session| session != 0).collect(),
        }
    }

    /// The place at which the desk's list begins.
    pub fn beginning(&self, desk: u16) -> u16 {
        self.hall.beginning(desk).map_or(0, |at| word(&self.table, at))
    }

    pub fn set_beginning(&mut self, desk: u16, beginning: u16) {
        let at = self.hall.beginning(desk).expect("a ring");
        set_word(&mut self.table, at, beginning);
    }

    pub fn record(&self, desk: u16, at: usize) -> u16 {
        word(&self.table, self.hall.record(desk).start + at)
    }

    pub fn set_record(&mut self, desk: u16, at: usize, value: u16) {
        let word = self.hall.record(desk).start + at;
        set_word(&mut self.table, word, value);
    }
}

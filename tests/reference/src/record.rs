//! A desk's record: what it owes, and its list with the current reading. Behind the
//! list is the desk's next message number, which only `step` reads and writes, and of a
//! ring where it begins.

use super::words::{set_word, word};
use super::List;

/// The words of a record.
pub mod place {
    pub const OWED: usize = 0;
    /// k, the screens read so far.
    pub const SCANNED: usize = 1;
    pub const READY: usize = 2;
    pub const TESTED: usize = 3;
    pub const WAITING: usize = 4;
    pub const MARKS: usize = 5;
    pub const LIST: usize = 13;
}

/// The most places that a list can have.
const MAX_LIST: usize = 128;

/// The eight mark words as one number: bit j is the mark of tested place j.
/// Low byte first and lowest bit first make this a plain reading of the bytes.
pub fn marks(record: &[u8]) -> u128 {
    let mut bytes = [0; 16];
    bytes.copy_from_slice(&record[2 * place::MARKS..2 * place::LIST]);
    u128::from_le_bytes(bytes)
}

/// How many places the list has: the words from there on but those behind it.
fn places(list: List, record: &[u8]) -> usize {
    record.len() / 2 - place::LIST - list.words_behind()
}

/// At which place the list begins.
fn beginning(list: List, record: &[u8]) -> usize {
    match list {
        List::Straight => 0,
        List::Ring => usize::from(word(record, record.len() / 2 - 1)),
    }
}

/// The places of the list in its order: those from its beginning on, then those before.
/// `None` if there is no such place.
pub fn list(list: List, record: &[u8]) -> Option<[&[u8]; 2]> {
    let (beginning, places) = (beginning(list, record), places(list, record));
    let all = &record[2 * place::LIST..][..2 * places];
    (beginning < places).then(|| [&all[2 * beginning..], &all[..2 * beginning]])
}

fn is_marked(marks: u128, tested_place: usize) -> bool {
    marks >> tested_place & 1 == 1
}

pub struct Record<'a> {
    list: List,
    bytes: &'a mut [u8],
}

impl<'a> Record<'a> {
    pub fn new(list: List, bytes: &'a mut [u8]) -> Self {
        Record { list, bytes }
    }

    pub fn owed(&self) -> u16 {
        word(self.bytes, place::OWED)
    }

    /// List places in use.
    pub fn used(&self) -> usize {
        self.ready() + self.tested() + self.waiting()
    }

    /// The owed session becomes the last of the waiting.
    pub fn retire(&mut self) -> u16 {
        let session = self.owed();
        self.set_listed(self.used(), session);
        self.set(place::WAITING, self.waiting() + 1);
        self.set(place::OWED, 0);
        session
    }

    pub fn collect(&mut self, screens: &[u8]) -> u16 {
        if self.tested() == 0 && self.waiting() > 0 {
            self.begin_reading();
        }
        if self.tested() > 0 {
            self.read_on(screens);
        }
        if self.scanned() == screens.len() / 2 {
            self.settle();
        }
        if self.ready() > 0 {
            self.hand_back()
        } else {
            0
        }
    }

    /// All waiting become tested. They are already behind the ready ones.
    fn begin_reading(&mut self) {
        self.set(place::TESTED, self.waiting());
        self.set(place::WAITING, 0);
    }

    /// The next two screens of the hall, or the last one alone.
    fn read_on(&mut self, screens: &[u8]) {
        let next = 2 * self.scanned();
        for screen in screens[next..].chunks_exact(2).take(2) {
            self.mark(word(screen, 0));
            self.set(place::SCANNED, self.scanned() + 1);
        }
    }

    /// Marks the first unmarked tested place with this session, if there is
    /// one. A screen that shows 0 marks none, because no used place is 0.
    fn mark(&mut self, session: u16) {
        let marks = marks(self.bytes);
        let ready = self.ready();
        let unmarked = |&j: &usize| self.listed(ready + j) == session && !is_marked(marks, j);
        if let Some(j) = (0..self.tested()).find(unmarked) {
            self.set_marks(marks | 1 << j);
        }
    }

    /// The reading is complete. Unmarked places become ready, marked ones wait
    /// again: once the unmarked are before the marked, only the counts change. A place that
    /// keeps its session is not written.
    fn settle(&mut self) {
        let marks = marks(self.bytes);
        let (ready, tested) = (self.ready(), self.tested());
        let mut before = [0; MAX_LIST];
        for (j, session) in before[..tested].iter_mut().enumerate() {
            *session = self.listed(ready + j);
        }
        let unmarked = (0..tested).filter(|&j| !is_marked(marks, j));
        let marked = (0..tested).filter(|&j| is_marked(marks, j));
        for (to, from) in unmarked.chain(marked).enumerate().filter(|(to, from)| to != from) {
            self.set_listed(ready + to, before[from]);
        }
        let kept = marks.count_ones() as usize;
        self.set(place::READY, ready + tested - kept);
        self.set(place::TESTED, 0);
        self.set(place::WAITING, kept + self.waiting());
        self.set(place::SCANNED, 0);
        self.set_marks(0);
    }

    /// The first ready session leaves the list.
    fn hand_back(&mut self) -> u16 {
        let session = self.listed(0);
        match self.list {
            List::Straight => self.move_up(),
            List::Ring => self.turn(),
        }
        self.set(place::READY, self.ready() - 1);
        session
    }

    /// The rest move up one place.
    fn move_up(&mut self) {
        let used = self.used();
        let list = &mut self.bytes[2 * place::LIST..];
        list.copy_within(2..2 * used, 0);
        self.set_listed(used - 1, 0);
    }

    /// Document 02, Job 9: "only a hand-back changes it, by one place around". The place
    /// that it leaves is unused, so 0.
    fn turn(&mut self) {
        self.set_listed(0, 0);
        let beginning = self.bytes.len() / 2 - 1;
        self.set(beginning, self.around(1));
    }

    fn scanned(&self) -> usize {
        self.number(place::SCANNED)
    }

    fn ready(&self) -> usize {
        self.number(place::READY)
    }

    fn tested(&self) -> usize {
        self.number(place::TESTED)
    }

    fn waiting(&self) -> usize {
        self.number(place::WAITING)
    }

    fn number(&self, at: usize) -> usize {
        usize::from(word(self.bytes, at))
    }

    /// All numbers of a sound record are at most 128.
    fn set(&mut self, at: usize, number: usize) {
        set_word(self.bytes, at, number as u16);
    }

    fn listed(&self, at: usize) -> u16 {
        word(self.bytes, place::LIST + self.around(at))
    }

    fn set_listed(&mut self, at: usize, session: u16) {
        let place = place::LIST + self.around(at);
        set_word(self.bytes, place, session);
    }

    /// The place that is so many after the beginning of the list.
    fn around(&self, by: usize) -> usize {
        let (place, places) =
            (beginning(self.list, self.bytes) + by, places(self.list, self.bytes));
        if place < places {
            place
        } else {
            place - places
        }
    }

    fn set_marks(&mut self, marks: u128) {
        self.bytes[2 * place::MARKS..2 * place::LIST].copy_from_slice(&marks.to_le_bytes());
    }
}

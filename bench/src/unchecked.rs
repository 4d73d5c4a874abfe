//! A run of steps with no question of soundness, the program that document 02
//! asks to be measured against. Written to be fast: the words are 16-bit
//! integers in place, marks are counted and parted by two 64-bit ones, and no
//! step checks an index, because a sound table leaves none out of range.

use std::ptr;

/// Code, message number, desk, screen, position, session.
pub type Step = [u16; 6];
/// Number, session.
pub type Reply = [u16; 2];

const OWED: usize = 0;
const SCANNED: usize = 1;
const READY: usize = 2;
const TESTED: usize = 3;
const WAITING: usize = 4;
const MARKS: usize = 5;
const LIST: usize = 13;

/// The numbers of a hall, read once for a run.
#[derive(Clone, Copy)]
struct Hall {
    desks: usize,
    screens: usize,
    positions: usize,
    all: usize,
    /// Where the screens and the records begin, and the words of a record.
    shown: usize,
    records: usize,
    width: usize,
}

/// Fills a reply for each step.
///
/// # Safety
/// The table is sound.
#[inline(never)]
pub unsafe fn run(steps: &[Step], replies: &mut [Reply], table: &mut [u16]) {
    let [desks, screens, positions] = [0, 1, 2].map(|at| table[at] as usize);
    let all = desks * screens;
    let shown = 3 + positions;
    let (records, width) = (shown + all, LIST + 2 * all + 1);
    let hall = Hall { desks, screens, positions, all, shown, records, width };
    let table = table.as_mut_ptr();
    for (step, reply) in steps.iter().zip(replies) {
        *reply = hall.step(step, table);
    }
}

const fn refused(number: u16) -> Reply {
    [number, 0]
}

const fn accepted(session: u16) -> Reply {
    [0, session]
}

/// Whether a number is 1 to `most`: 0 wraps round to the largest.
#[inline(always)]
fn in_range(number: u16, most: usize) -> bool {
    (number as usize).wrapping_sub(1) < most
}

impl Hall {
    #[inline(always)]
    unsafe fn step(&self, step: &Step, table: *mut u16) -> Reply {
        let [code, message, desk, screen, position, session] = *step;
        if !in_range(code, 5) {
            return refused(17);
        }
        if !in_range(desk, self.desks) {
            return refused(6);
        }
        let desk = desk as usize - 1;
        let record = table.add(self.records + desk * self.width);
        let next = record.add(self.width - 1);
        if *next != message {
            return refused(23);
        }
        let reply = match code {
            1 => self.take(desk, screen, position, table),
            2 => self.drop(desk, screen, table),
            3 => self.swap(record, position, session, table),
            4 => self.retire(record),
            _ => self.collect(record, table),
        };
        if reply[0] == 0 {
            *next = message.wrapping_add(1);
        }
        reply
    }

    #[inline(always)]
    unsafe fn screen(&self, desk: usize, screen: u16, table: *mut u16) -> *mut u16 {
        table.add(self.shown + desk * self.screens + screen as usize - 1)
    }

    #[inline(always)]
    unsafe fn take(&self, desk: usize, screen: u16, position: u16, table: *mut u16) -> Reply {
        if !in_range(screen, self.screens) {
            return refused(7);
        }
        if !in_range(position, self.positions) {
            return refused(8);
        }
        let shown = self.screen(desk, screen, table);
        if *shown != 0 {
            return refused(9);
        }
        let held = *table.add(2 + position as usize);
        if held == 0 {
            return refused(10);
        }
        *shown = held;
        accepted(held)
    }

    #[inline(always)]
    unsafe fn drop(&self, desk: usize, screen: u16, table: *mut u16) -> Reply {
        if !in_range(screen, self.screens) {
            return refused(7);
        }
        let shown = self.screen(desk, screen, table);
        let session = *shown;
        if session == 0 {
            return refused(11);
        }
        *shown = 0;
        accepted(session)
    }

    #[inline(always)]
    unsafe fn swap(&self, record: *mut u16, position: u16, new: u16, table: *mut u16) -> Reply {
        if !in_range(position, self.positions) {
            return refused(8);
        }
        if *record.add(OWED) != 0 {
            return refused(12);
        }
        let held = table.add(2 + position as usize);
        let old = *held;
        if old != new {
            *held = new;
            *record.add(OWED) = old;
        }
        accepted(old)
    }

    #[inline(always)]
    unsafe fn retire(&self, record: *mut u16) -> Reply {
        let owed = *record.add(OWED);
        if owed == 0 {
            return refused(13);
        }
        let used = used_slots(record);
        if used >= 2 * self.all {
            return refused(14);
        }
        *record.add(LIST + used) = owed;
        *record.add(WAITING) += 1;
        *record.add(OWED) = 0;
        accepted(owed)
    }

    #[inline(always)]
    unsafe fn collect(&self, record: *mut u16, table: *mut u16) -> Reply {
        if *record.add(TESTED) == 0 {
            *record.add(TESTED) = *record.add(WAITING);
            *record.add(WAITING) = 0;
        }
        if *record.add(TESTED) != 0 {
            let first = *record.add(SCANNED) as usize;
            let end = (first + 2).min(self.all);
            for screen in first..end {
                mark(record, *table.add(self.shown + screen));
            }
            if end == self.all {
                settle(record);
            } else {
                *record.add(SCANNED) = end as u16;
            }
        }
        accepted(hand_back(record))
    }
}

#[inline(always)]
unsafe fn used_slots(record: *const u16) -> usize {
    let [ready, tested, waiting] = [READY, TESTED, WAITING].map(|at| *record.add(at) as usize);
    ready + tested + waiting
}

/// Marks the first unmarked tested slot with this session, if there is one.
#[inline(always)]
unsafe fn mark(record: *mut u16, session: u16) {
    if session == 0 {
        return;
    }
    let first = record.add(LIST + *record.add(READY) as usize);
    let tested = std::slice::from_raw_parts(first, *record.add(TESTED) as usize);
    // No early exit, so that the compiler vectorises it: usually no slot holds the session.
    if !tested.iter().fold(false, |found, &listed| found | (listed == session)) {
        return;
    }
    for (slot, &listed) in tested.iter().enumerate() {
        let word = record.add(MARKS + slot / 16);
        let bit = 1 << (slot % 16);
        if listed == session && *word & bit == 0 {
            *word |= bit;
            return;
        }
    }
}

/// Unmarked tested sessions join ready, marked ones waiting.
#[inline(always)]
unsafe fn settle(record: *mut u16) {
    let (ready, tested) = (*record.add(READY) as usize, *record.add(TESTED) as usize);
    let marks: [u64; 2] = ptr::read_unaligned(record.add(MARKS).cast());
    let kept = (marks[0].count_ones() + marks[1].count_ones()) as usize;
    if kept != 0 {
        part(record.add(LIST + ready), tested, marks);
        ptr::write_unaligned(record.add(MARKS).cast(), [0u64; 2]);
    }
    *record.add(SCANNED) = 0;
    *record.add(READY) = (ready + tested - kept) as u16;
    *record.add(TESTED) = 0;
    *record.add(WAITING) += kept as u16;
}

/// Unmarked slots first, then marked ones, each group in its order.
#[inline(always)]
unsafe fn part(slots: *mut u16, count: usize, marks: [u64; 2]) {
    let mut kept = [0u16; 128];
    let (mut unmarked, mut marked) = (0, 0);
    for slot in 0..count {
        let session = *slots.add(slot);
        // Both are written, and one of them is kept: no branch to guess.
        *slots.add(unmarked) = session;
        *kept.get_unchecked_mut(marked) = session;
        let is_marked = (marks.get_unchecked(slot / 64) >> (slot % 64) & 1) as usize;
        marked += is_marked;
        unmarked += 1 - is_marked;
    }
    ptr::copy_nonoverlapping(kept.as_ptr(), slots.add(unmarked), marked);
}

/// The first ready session leaves the list, and the rest move up.
#[inline(always)]
unsafe fn hand_back(record: *mut u16) -> u16 {
    let ready = *record.add(READY);
    if ready == 0 {
        return 0;
    }
    let used = used_slots(record);
    let list = std::slice::from_raw_parts_mut(record.add(LIST), used);
    let session = *list.get_unchecked(0);
    list.copy_within(1.., 0);
    *list.get_unchecked_mut(used - 1) = 0;
    *record.add(READY) = ready - 1;
    session
}

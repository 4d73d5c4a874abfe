//! The smallest case that still differs: fewest calls, then the smallest hall
//! and table, then the smallest numbers. The cases here have distances in place of
//! message numbers.

use crate::call::{Call, Function};
use crate::case::Case;
use crate::distances::{with_distances, with_numbers};
use reference::{place, set_word, word, Hall, Limits, List};

/// Tries smaller and smaller cases until none of them differs.
pub fn shrink(case: Case) -> Case {
    with_numbers(&shrunk(with_distances(&case)))
}

fn shrunk(case: Case) -> Case {
    let mut smallest = case;
    cut_after_difference(&mut smallest);
    loop {
        let before = size(&smallest);
        fewer_calls(&mut smallest);
        later_start(&mut smallest);
        emptier_records(&mut smallest);
        smaller_hall(&mut smallest);
        shorter_table(&mut smallest);
        smaller_numbers(&mut smallest);
        if size(&smallest) == before {
            return smallest;
        }
    }
}

/// Calls first, then the table's length, then its content.
pub fn size(case: &Case) -> (usize, usize, u64) {
    let words = (0..case.table.len() / 2).map(|at| u64::from(word(&case.table, at)));
    let messages = case.calls.iter().map(|call| u64::from(call.message));
    let numbers = case.calls.iter().flat_map(|call| call.numbers).map(u64::from);
    let odd = if case.table.len() % 2 == 1 { case.table.last() } else { None };
    let odd = odd.map_or(0, |&byte| u64::from(byte));
    (
        case.calls.len(),
        case.table.len(),
        case.align as u64 + odd + words.chain(messages).chain(numbers).sum::<u64>(),
    )
}

/// Takes the other case if it is smaller and still differs.
fn try_other(smallest: &mut Case, other: Case) -> bool {
    let better = size(&other) < size(smallest) && with_numbers(&other).differs();
    if better {
        *smallest = other;
        cut_after_difference(smallest);
    }
    better
}

fn cut_after_difference(case: &mut Case) {
    if let Some(difference) = with_numbers(case).run(|_| ()) {
        case.calls.truncate(difference.call + 1);
    }
}

/// Leaves out calls, many at once first.
fn fewer_calls(smallest: &mut Case) {
    let mut length = smallest.calls.len() / 2;
    while length > 0 {
        let mut start = 0;
        while start + length <= smallest.calls.len() {
            let mut other = smallest.clone();
            other.calls.drain(start..start + length);
            if !try_other(smallest, other) {
                start += 1;
            }
        }
        length /= 2;
    }
}

fn has_opening(case: &Case) -> bool {
    case.calls.iter().any(|call| call.function == Function::Open)
}

/// Starts at the table that the first call leaves. A history from an opening
/// keeps its opening: it is easier to understand than a table without a history.
fn later_start(smallest: &mut Case) {
    while smallest.calls.len() > 1 && !has_opening(smallest) {
        let mut other = smallest.clone();
        with_numbers(smallest).calls[0].to_reference(&mut other.table);
        other.calls.remove(0);
        if !try_other(smallest, other) {
            return;
        }
    }
}

/// Clears whole records of the table, then single places of their lists.
fn emptier_records(smallest: &mut Case) {
    let Some(hall) = hall_of(smallest) else { return };
    if has_opening(smallest) || smallest.table.len() < 2 * hall.need() {
        return;
    }
    for desk in 1..=hall.desks {
        let words = hall.record(desk);
        let record = 2 * words.start..2 * words.end;
        let mut other = smallest.clone();
        other.table[record.clone()].fill(0);
        try_other(smallest, other);
        if hall.list == List::Ring {
            let mut other = smallest.clone();
            straighten(&hall, &mut other.table[record.clone()]);
            try_other(smallest, other);
        }
        for at in (0..2 * hall.all_screens()).rev() {
            for count in [place::READY, place::TESTED, place::WAITING] {
                let mut other = smallest.clone();
                leave_out(&hall, &mut other.table[record.clone()], at, count);
                try_other(smallest, other);
            }
        }
    }
}

/// The record of a ring with its list from the first place on.
fn straighten(hall: &Hall, record: &mut [u8]) {
    let last = record.len() / 2 - 1;
    let beginning = usize::from(word(record, last)) % hall.places();
    record[2 * place::LIST..][..2 * hall.places()].rotate_left(2 * beginning);
    set_word(record, last, 0);
}

/// The record without this list place, and with this count reduced by one.
fn leave_out(hall: &Hall, record: &mut [u8], at: usize, count: usize) {
    let list = &mut record[2 * place::LIST..][..2 * hall.places()];
    let end = list.len() - 2;
    list.copy_within(2 * at + 2.., 2 * at);
    list[end..].fill(0);
    set_word(record, count, word(record, count).saturating_sub(1));
}

/// Moves the case into a smaller hall, the smallest first. The desks left out
/// are the last ones, or else the first.
fn smaller_hall(smallest: &mut Case) {
    let Some(hall) = hall_of(smallest) else { return };
    let mut halls = halls_within(&hall);
    halls.sort_by_key(Hall::need);
    for to in halls {
        for skipped in [0, hall.desks - to.desks] {
            if try_other(smallest, moved(smallest, &hall, &to, skipped)) {
                return;
            }
        }
    }
}

pub fn halls_within(hall: &Hall) -> Vec<Hall> {
    let limits = Limits { list: hall.list, ..Limits::HALL };
    let mut halls = Vec::new();
    for desks in 1..=hall.desks {
        for screens in 1..=hall.screens {
            for positions in 1..=hall.positions {
                halls.extend(Hall::new(limits, desks, screens, positions));
            }
        }
    }
    halls
}

/// The hall of the first opening, or else of the table, with the lists of the first
/// call's room.
fn hall_of(case: &Case) -> Option<Hall> {
    let limits = case.calls.first()?.room.largest();
    let opening = case.calls.iter().find(|call| call.function == Function::Open);
    let [desks, screens, positions] = match opening {
        Some(call) => call.numbers,
        None if case.table.len() >= 6 => [0, 1, 2].map(|at| word(&case.table, at)),
        None => return None,
    };
    Hall::new(limits, desks, screens, positions).ok()
}

/// The same case in a smaller hall, as far as possible.
pub fn moved(case: &Case, from: &Hall, to: &Hall, skipped: u16) -> Case {
    let spare = case.table.len().saturating_sub(2 * from.need());
    let mut table = vec![0; 2 * to.need() + spare];
    if case.table.len() >= 2 * from.need() {
        let end = 2 * to.need();
        table[end..].copy_from_slice(&case.table[2 * from.need()..]);
        for (at, number) in [to.desks, to.screens, to.positions].into_iter().enumerate() {
            set_word(&mut table, at, number);
        }
        for (here, there) in pairs_of_words(from, to, skipped) {
            set_word(&mut table, there, word(&case.table, here));
        }
    }
    let calls = case.calls.iter().map(|call| moved_call(call, from, to, skipped)).collect();
    Case { align: case.align, table, calls }
}

/// The words of one hall, mapped to the words of the other.
fn pairs_of_words(from: &Hall, to: &Hall, skipped: u16) -> Vec<(usize, usize)> {
    let mut pairs: Vec<_> =
        (1..=to.positions).map(|p| (from.position(p), to.position(p))).collect();
    for desk in 1..=to.desks {
        let old = desk + skipped;
        pairs.extend((1..=to.screens).map(|s| (from.screen(old, s), to.screen(desk, s))));
        let (here, there) = (from.record(old).start, to.record(desk).start);
        pairs.extend((0..place::LIST + 2 * to.all_screens()).map(|at| (here + at, there + at)));
        pairs.push((from.message(old), to.message(desk)));
        pairs.extend(from.beginning(old).zip(to.beginning(desk)));
    }
    pairs
}

/// Numbers within the old hall are mapped into the new one.
fn moved_call(call: &Call, from: &Hall, to: &Hall, skipped: u16) -> Call {
    let fold = |number: u16, old: u16, new: u16| {
        if (1..=old).contains(&number) {
            (number - 1) % new + 1
        } else {
            number
        }
    };
    let unskipped = |number| if number > skipped { number - skipped } else { number };
    let desk = |number| match number > from.desks {
        true => number,
        false => fold(unskipped(number), from.desks, to.desks),
    };
    let screen = |number| fold(number, from.screens, to.screens);
    let position = |number| fold(number, from.positions, to.positions);
    let [a, b, c] = call.numbers;
    let numbers = match call.function {
        Function::Open if call.numbers == [from.desks, from.screens, from.positions] => {
            [to.desks, to.screens, to.positions]
        }
        Function::Open => call.numbers,
        Function::Take => [desk(a), screen(b), position(c)],
        Function::Drop => [desk(a), screen(b), c],
        Function::Swap => [desk(a), position(b), c],
        Function::Retire | Function::Collect => [desk(a), b, c],
    };
    Call { numbers, ..*call }
}

fn shorter_table(smallest: &mut Case) {
    let mut cut = smallest.table.len();
    while cut > 0 {
        let mut other = smallest.clone();
        other.table.truncate(other.table.len().saturating_sub(cut));
        if !try_other(smallest, other) {
            cut /= 2;
        }
    }
}

/// Every number of the calls and the table: none, half, or one less.
fn smaller_numbers(smallest: &mut Case) {
    let mut other = smallest.clone();
    other.align = 0;
    try_other(smallest, other);
    let mut other = smallest.clone();
    other.table.fill(0);
    try_other(smallest, other);
    for at in 0..smallest.table.len() / 2 {
        lower(
            smallest,
            |case| word(&case.table, at),
            |case, value| set_word(&mut case.table, at, value),
        );
    }
    let mut index = 0;
    while index < smallest.calls.len() {
        lower(
            smallest,
            |case| case.calls[index].message,
            |case, value| case.calls[index].message = value,
        );
        for field in 0..3 {
            if index < smallest.calls.len() {
                lower(
                    smallest,
                    |case| case.calls[index].numbers[field],
                    |case, value| case.calls[index].numbers[field] = value,
                );
            }
        }
        index += 1;
    }
}

fn lower(smallest: &mut Case, get: impl Fn(&Case) -> u16, set: impl Fn(&mut Case, u16)) {
    let mut value = get(smallest);
    for smaller in [0, 1, value / 2, value.saturating_sub(1)] {
        if smaller < value {
            let mut other = smallest.clone();
            set(&mut other, smaller);
            let calls = other.calls.len();
            if try_other(smallest, other) {
                if smallest.calls.len() < calls {
                    return;
                }
                value = smaller;
            }
        }
    }
}

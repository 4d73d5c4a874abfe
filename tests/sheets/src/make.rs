//! Random sheets: histories that lead to all refusals; the same with padded
//! numbers, truncated or damaged, wrong about edition 2, or with sessions over the
//! limit of the training room; and random bytes.

use crate::bytes::MAX_IN_THREE;
use crate::damage::{cut, damage};
use crate::numbers::{in_format, in_groups, leave_desk_out, shortest, Numbers, TO_SHORTHAND};
use crate::rng::Rng;
use reference::sheet::Format;
use reference::Limits;

#[derive(Clone, Copy)]
enum Kind {
    History,
    Cut,
    Damaged,
    NumberTooLarge,
    CodeOutOfRange,
    AnyHeader,
    AnyBytes,
    SmallBytes,
    DeskWrittenOut,
    ShorthandAtFirst,
    OtherFirstNumbers,
    SessionOverLimit,
}

/// The kinds of sheets, and how many of 32 are of each.
const KINDS: [(Kind, usize); 8] = [
    (Kind::History, 15),
    (Kind::Cut, 4),
    (Kind::Damaged, 5),
    (Kind::NumberTooLarge, 2),
    (Kind::CodeOutOfRange, 2),
    (Kind::AnyHeader, 2),
    (Kind::AnyBytes, 1),
    (Kind::SmallBytes, 1),
];

/// How many sheets there are beside these 32 in edition 2.
const KINDS_OF_EDITION_2: [(Kind, usize); 3] =
    [(Kind::DeskWrittenOut, 3), (Kind::ShorthandAtFirst, 3), (Kind::OtherFirstNumbers, 2)];

/// The same in the training room.
const KINDS_OF_TRAINING: [(Kind, usize); 1] = [(Kind::SessionOverLimit, 3)];

/// The sheet of this number under this seed, for a program that reads this format in
/// a room of these limits.
pub fn sheet(format: Format, limits: Limits, seed: u64, number: u64) -> Vec<u8> {
    let rng = &mut Rng::of_case(seed, number);
    match any_kind(rng, format, limits) {
        Kind::AnyBytes => (0..rng.below(40)).map(|_| rng.word() as u8).collect(),
        Kind::SmallBytes => (0..rng.below(60)).map(|_| rng.below(8) as u8).collect(),
        kind => {
            let numbers = any_numbers(rng, format, limits, kind);
            let sheet = encoded(rng, format, &numbers);
            match kind {
                Kind::Cut => cut(rng, sheet),
                Kind::Damaged => damage(rng, sheet),
                _ => sheet,
            }
        }
    }
}

fn any_kind(rng: &mut Rng, format: Format, limits: Limits) -> Kind {
    let mut kinds = KINDS.to_vec();
    if format.has_shorthand() {
        kinds.extend(KINDS_OF_EDITION_2);
    }
    if limits == Limits::TRAINING {
        kinds.extend(KINDS_OF_TRAINING);
    }
    let kinds: Vec<Kind> = kinds.iter().flat_map(|&(kind, share)| vec![kind; share]).collect();
    rng.pick(&kinds)
}

/// The numbers of a sheet, with what its kind has in place of a history.
fn any_numbers(rng: &mut Rng, format: Format, limits: Limits, kind: Kind) -> Numbers {
    let history = history(rng, limits);
    let numbers = match kind {
        Kind::NumberTooLarge => with_a_number_too_large(rng, history),
        Kind::CodeOutOfRange => with_a_code_out_of_range(rng, history),
        Kind::AnyHeader => with_any_header(rng, limits, history),
        Kind::SessionOverLimit => with_a_session_over_the_limit(rng, limits, history),
        _ => history,
    };
    let numbers = in_format(numbers, format);
    match kind {
        Kind::DeskWrittenOut => with_a_desk_written_out(rng, numbers),
        Kind::ShorthandAtFirst => with_shorthand_at_first(numbers),
        Kind::OtherFirstNumbers => with_other_first_numbers(rng, numbers),
        _ => numbers,
    }
}

/// Most sheets are in shortest form: a padded number ends the reading, and hides
/// what comes after it. The archive's sheets mostly have padded numbers.
fn encoded(rng: &mut Rng, format: Format, numbers: &Numbers) -> Vec<u8> {
    if format.allows_padding() {
        mostly_padded(rng, numbers)
    } else {
        mostly_shortest(rng, numbers)
    }
}

struct Hall {
    desks: u32,
    screens: u32,
    positions: u32,
}

fn mostly_shortest(rng: &mut Rng, numbers: &Numbers) -> Vec<u8> {
    match rng.below(16) {
        0 | 1 => one_padded(rng, numbers),
        2 => many_padded(rng, numbers, 16),
        _ => shortest(numbers),
    }
}

fn mostly_padded(rng: &mut Rng, numbers: &Numbers) -> Vec<u8> {
    match rng.below(8) {
        0 => shortest(numbers),
        1 | 2 => one_padded(rng, numbers),
        _ => {
            let times = rng.pick(&[1, 2, 16]);
            many_padded(rng, numbers, times)
        }
    }
}

/// One of the numbers has two or three groups.
fn one_padded(rng: &mut Rng, numbers: &Numbers) -> Vec<u8> {
    let padded = rng.below(numbers.iter().flatten().count());
    let groups = rng.within(2, 3);
    in_groups(numbers, |at| if at == padded { groups } else { 1 })
}

/// One number in so many has two or three groups.
fn many_padded(rng: &mut Rng, numbers: &Numbers, times: usize) -> Vec<u8> {
    in_groups(numbers, |_| if rng.one_in(times) { rng.within(2, 3) } else { 1 })
}

/// Halls of all sizes, mostly small: there a few steps are enough to interact.
fn any_hall(rng: &mut Rng, limits: Limits) -> Hall {
    let [most_desks, most_screens, most_positions] = match rng.below(16) {
        0 => [1, 1, 1],
        1 => [16, 4, 64],
        2..=4 => [8, 3, 12],
        _ => [4, 2, 3],
    };
    Hall {
        desks: one_of(rng, most_desks.min(limits.desks.into())),
        screens: one_of(rng, most_screens.min(limits.screens.into())),
        positions: one_of(rng, most_positions.min(limits.positions.into())),
    }
}

/// A header and records. There are few desks and few sessions, and each sheet
/// has its own mixture of steps, so that lists become full and copies marked.
fn history(rng: &mut Rng, limits: Limits) -> Numbers {
    let hall = any_hall(rng, limits);
    let mut desks: Vec<u32> = (0..rng.within(1, 3)).map(|_| one_of(rng, hall.desks)).collect();
    if rng.one_in(8) {
        desks.push(number(rng, hall.desks));
    }
    let most = u32::from(limits.sessions);
    let any = one_of(rng, most);
    let sessions = rng.pick(&[[5, 5, 0], [5, 6, 7], [300, most, any], [0x0103, 0x0301, 3]]);
    let shares = [(); 3].map(|_| rng.pick(&[1, 4, 10]));
    let most = rng.pick(&[4, 12, 12, 40, 120]);
    let records = rng.within(1, most);

    let mut numbers = vec![vec![hall.desks, hall.screens, hall.positions]];
    while numbers.len() <= records {
        let desk = rng.pick(&desks);
        let session = if rng.one_in(6) { 0 } else { rng.pick(&sessions) };
        let turn = rng.below(shares.iter().sum::<usize>() + 2);
        if turn < shares[0] {
            let position = one_of(rng, hall.positions);
            let swap = |desk| vec![3, desk, position, session];
            numbers.push(swap(desk));
            // The same swap again is a repeat: while this desk owes, and later.
            if rng.one_in(6) {
                numbers.push(swap(rng.pick(&desks)));
            }
            numbers.push(vec![4, desk]);
            if rng.one_in(6) {
                numbers.push(swap(rng.pick(&desks)));
            }
        } else if turn < shares[0] + shares[1] {
            numbers.push(vec![5, desk]);
        } else if turn < shares[0] + shares[1] + shares[2] {
            let screen = one_of(rng, hall.screens);
            let take = vec![1, desk, screen, one_of(rng, hall.positions)];
            numbers.push(if rng.one_in(3) { vec![2, desk, screen] } else { take });
        } else {
            numbers.push(any_record(rng, &hall, session));
        }
    }
    numbers
}

/// Any step, sometimes with a number that the hall does not have.
fn any_record(rng: &mut Rng, hall: &Hall, session: u32) -> Vec<u32> {
    let desk = number(rng, hall.desks);
    match rng.within(1, 5) {
        1 => vec![1, desk, number(rng, hall.screens), number(rng, hall.positions)],
        2 => vec![2, desk, number(rng, hall.screens)],
        3 => vec![3, desk, number(rng, hall.positions), session],
        code => vec![code as u32, desk],
    }
}

fn one_of(rng: &mut Rng, most: u32) -> u32 {
    rng.within(1, most as usize) as u32
}

/// Usually 1 to most; else out of range, perhaps only because of its high byte.
fn number(rng: &mut Rng, most: u32) -> u32 {
    let within = one_of(rng, most);
    match rng.below(16) {
        0 => 0,
        1 => most + 1,
        2 => within + 256,
        3 => rng.pick(&[65_535, 128, 16_384]),
        _ => within,
    }
}

/// The offset of one number of a history.
fn any_place(rng: &mut Rng, numbers: &Numbers) -> (usize, usize) {
    let record = rng.below(numbers.len());
    (record, rng.below(numbers[record].len()))
}

/// Just over 65,535, anything over it, or more than three bytes long.
fn with_a_number_too_large(rng: &mut Rng, mut numbers: Numbers) -> Numbers {
    let (record, at) = any_place(rng, &numbers);
    let now = numbers[record][at];
    let over = rng.within(65_536, MAX_IN_THREE as usize) as u32;
    numbers[record][at] = rng.pick(&[65_536, 65_536 + now, over, MAX_IN_THREE + 1, u32::MAX]);
    numbers
}

/// The session of a swap is just over the limit, or anything over it. Nothing changes
/// where no desk swaps.
fn with_a_session_over_the_limit(rng: &mut Rng, limits: Limits, mut numbers: Numbers) -> Numbers {
    let swaps: Vec<usize> = (1..numbers.len()).filter(|&at| numbers[at][0] == 3).collect();
    if !swaps.is_empty() {
        let session = &mut numbers[rng.pick(&swaps)][3];
        let most = u32::from(limits.sessions);
        let over = rng.within(most as usize + 1, 65_535) as u32;
        *session = rng.pick(&[most + 1, most + 1, *session + 1_024, over, 65_535]);
    }
    numbers
}

fn with_a_code_out_of_range(rng: &mut Rng, mut numbers: Numbers) -> Numbers {
    let record = rng.within(1, numbers.len() - 1);
    let now = numbers[record][0];
    let any = u32::from(rng.word()).max(6);
    numbers[record][0] = rng.pick(&[0, 6, 7, 8, 9, 13, 14, 127, 128, now + 256, any]);
    numbers
}

/// A header of any numbers, around the limits of the hall and of the room, with or
/// without records after it.
fn with_any_header(rng: &mut Rng, limits: Limits, mut numbers: Numbers) -> Numbers {
    let Limits { desks, screens, positions, .. } = rng.pick(&[Limits::HALL, limits]);
    for (at, most) in [desks, screens, positions].into_iter().enumerate() {
        if rng.one_in(2) {
            numbers[0][at] = number(rng, most.into());
        }
    }
    if rng.one_in(4) {
        numbers.truncate(1);
    }
    numbers
}

/// A shorthand code becomes the code that it stands for, with the same desk again.
/// Nothing changes where no desk is left out.
fn with_a_desk_written_out(rng: &mut Rng, mut numbers: Numbers) -> Numbers {
    let is_shorthand = |record: &[u32]| (9..=13).contains(&record[0]);
    let places: Vec<usize> =
        (1..numbers.len()).filter(|&record| is_shorthand(&numbers[record])).collect();
    if !places.is_empty() {
        let at = rng.pick(&places);
        let before = numbers[1..at].iter().rev().find(|record| !is_shorthand(record));
        let desk = before.expect("a record with its desk")[1];
        numbers[at][0] -= TO_SHORTHAND;
        numbers[at].insert(1, desk);
    }
    numbers
}

fn with_shorthand_at_first(mut numbers: Numbers) -> Numbers {
    leave_desk_out(&mut numbers[1]);
    numbers
}

/// In place of 0 or of 2; sometimes neither is there, as in edition 1.
fn with_other_first_numbers(rng: &mut Rng, mut numbers: Numbers) -> Numbers {
    let other = rng.pick(&[0, 1, 2, 3, 127, 128, 256, 258, 65_535]);
    match rng.below(3) {
        0 => numbers[0][0] = other,
        1 => numbers[0][1] = other,
        _ => drop(numbers[0].drain(..2)),
    }
    numbers
}

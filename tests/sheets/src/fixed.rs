//! The sheets that every run starts with, small ones first: an obviously wrong
//! program is caught by a sheet that is easy to read.

use crate::bytes::{put, MAX_IN_THREE};
use crate::numbers::{in_format, in_groups, shortest, Numbers, TO_SHORTHAND};
use reference::sheet::Format;
use reference::Limits;

/// The longest sheet that is read.
const MAX_BYTES: usize = 65_536;

pub fn sheets(format: Format, limits: Limits) -> Vec<Vec<u8>> {
    let case_d = shortest(&in_format(case_d(), format));
    let every_step = in_format(numbers_of_every_step(limits), format);
    let mut sheets = vec![Vec::new(), case_d.clone()];
    sheets.extend((0..=255).map(|byte| vec![byte]));
    sheets.extend(headers(format, limits));
    sheets.extend(numbers(format, limits));
    sheets.extend(codes(format));
    sheets.extend(if format.has_shorthand() { wrong_in_edition_2() } else { of_edition_2() });
    let padded = |least_groups| padded(format, &every_step, least_groups);
    for sheet in [case_d, padded(1), padded(2), padded(3)] {
        sheets.extend((0..=sheet.len()).map(|cut| sheet[..cut].to_vec()));
    }
    sheets.extend(too_large(&every_step));
    sheets.extend(around_a_session(&every_step, limits));
    sheets.extend(one_padded(&every_step));
    sheets.extend(deep(format, limits));
    sheets.extend(if format.has_shorthand() { long_in_edition_2() } else { long(limits) });
    sheets
}

fn case_d() -> Numbers {
    let records: [&[u32]; 9] = [
        &[1, 1, 1],
        &[3, 1, 1, 300],
        &[1, 1, 1, 1],
        &[3, 1, 1, 7],
        &[4, 1],
        &[5, 1],
        &[2, 1, 1],
        &[5, 1],
        &[4, 1],
    ];
    records.map(<[u32]>::to_vec).to_vec()
}

/// The bytes before P.
fn first_bytes(format: Format) -> Vec<u8> {
    format.first_numbers().iter().map(|&number| number as u8).collect()
}

/// The bytes before P, then these.
fn started(format: Format, rest: &[u8]) -> Vec<u8> {
    [&first_bytes(format), rest].concat()
}

/// Each limit of the opening, the hall's and the room's, and the first number past
/// it, alone and together.
fn headers(format: Format, limits: Limits) -> Vec<Vec<u8>> {
    let around = |of: fn(Limits) -> u16| {
        let [of_hall, of_room] = [Limits::HALL, limits].map(|limits| of(limits) as u8);
        in_order(vec![0, 1, of_room, of_room + 1, of_hall, of_hall + 1])
    };
    let mut sheets = Vec::new();
    for &desks in &around(|limits| limits.desks) {
        for &screens in &around(|limits| limits.screens) {
            for &positions in &around(|limits| limits.positions) {
                sheets.push(started(format, &[desks, screens, positions]));
                sheets.push(started(format, &[desks, screens, positions, 5, 1]));
            }
        }
    }
    sheets
}

/// Each of these once.
fn in_order<T: Ord>(mut numbers: Vec<T>) -> Vec<T> {
    numbers.sort();
    numbers.dedup();
    numbers
}

/// Numbers at every bound, as the session of a swap; with zero groups too.
fn numbers(format: Format, limits: Limits) -> Vec<Vec<u8>> {
    let most = u32::from(limits.sessions);
    let mut bounds = vec![0, 1, 127, 128, 255, 256, 16_383, 16_384, 32_768, 65_535];
    bounds.extend([65_536, 65_537, 131_072, MAX_IN_THREE, MAX_IN_THREE + 1]);
    bounds.extend([most, most + 1, most + 256]);
    let mut sheets = Vec::new();
    for number in in_order(bounds) {
        let swap = vec![vec![1, 1, 1], vec![3, 1, 1, number], vec![1, 1, 1, 1]];
        let swap = in_format(swap, format);
        let session = swap[0].len() + 3;
        for least_groups in 1..=4 {
            sheets.push(in_groups(&swap, |at| if at == session { least_groups } else { 1 }));
        }
    }
    sheets
}

/// Codes in and out of range, with and without something after them.
fn codes(format: Format) -> Vec<Vec<u8>> {
    let large = [127, 128, 257, 261, 265, 32_773, 65_535, 65_536, 65_541];
    let mut sheets = Vec::new();
    for code in (0..=15).chain(large) {
        for least_groups in 1..=4 {
            for after in [&[][..], &[1], &[1, 1], &[1, 1, 1], &[1, 1, 1, 5, 1]] {
                let mut sheet = started(format, &[1, 1, 1, 5, 1]);
                put(&mut sheet, code, least_groups);
                sheet.extend(after);
                sheets.push(sheet);
            }
        }
    }
    sheets
}

/// A record of each step, with all its numbers 1.
const STEPS: [&[u8]; 5] = [&[1, 1, 1, 1], &[2, 1, 1], &[3, 1, 1, 1], &[4, 1], &[5, 1]];

/// The same with the desk left out.
fn shorthand(step: &[u8]) -> Vec<u8> {
    [&[step[0] + TO_SHORTHAND as u8], &step[2..]].concat()
}

/// Sheets and codes of edition 2, for a reader of edition 1.
fn of_edition_2() -> Vec<Vec<u8>> {
    let case_d = shortest(&in_format(case_d(), Format::Edition2));
    let mut sheets: Vec<_> = (0..=case_d.len()).map(|cut| case_d[..cut].to_vec()).collect();
    for step in STEPS {
        sheets.push([&[1, 1, 1], &shorthand(step)[..]].concat());
        sheets.push([&[1, 1, 1, 5, 1], &shorthand(step)[..]].concat());
    }
    sheets
}

/// Other first numbers and editions, shorthand codes in the first record, desks
/// written out though unchanged; also without the last field, and with more after.
fn wrong_in_edition_2() -> Vec<Vec<u8>> {
    let hall = &[0, 2, 1, 1, 1][..];
    let mut sheets = other_first_numbers();
    for step in STEPS {
        let shorthand = shorthand(step);
        sheets.extend(whole_and_cut(&[hall, &shorthand].concat()));
        // A desk of the hall, accepted and refused, and desks outside of it.
        for first in [&[5, 1][..], &[4, 1], &[5, 0], &[5, 9], &[5, 0xFF, 0xFF, 0x03]] {
            let again = [&step[..1], &first[1..], &step[2..]].concat();
            sheets.extend(whole_and_cut(&[hall, first, &again].concat()));
            sheets.extend(whole_and_cut(&[hall, first, &shorthand].concat()));
            sheets.extend(whole_and_cut(&[hall, first, &[5, 2], &shorthand].concat()));
            sheets.extend(whole_and_cut(&[hall, first, &[13], &again].concat()));
        }
    }
    sheets
}

fn whole_and_cut(sheet: &[u8]) -> [Vec<u8>; 3] {
    [sheet.to_vec(), sheet[..sheet.len() - 1].to_vec(), [sheet, &[5, 2]].concat()]
}

fn other_first_numbers() -> Vec<Vec<u8>> {
    let numbers = [0, 1, 2, 3, 4, 127, 128, 256, 258, 16_384, 65_535, 65_536, 65_538];
    let mut sheets = Vec::new();
    for number in numbers {
        for least_groups in 1..=4 {
            for (before, after) in [(&[][..], &[2, 1, 1, 1, 5, 1][..]), (&[0], &[1, 1, 1, 5, 1])] {
                let mut sheet = before.to_vec();
                put(&mut sheet, number, least_groups);
                sheets.push(sheet.clone());
                sheets.push([&sheet, &[0x80][..]].concat());
                sheets.push([&sheet, after].concat());
            }
        }
    }
    sheets
}

/// A sheet of edition 1 with each step, accepted and refused, and repeats.
fn numbers_of_every_step(limits: Limits) -> Numbers {
    let screens = u32::from(limits.screens.min(2));
    let most = u32::from(limits.sessions);
    let records: [&[u32]; 21] = [
        &[2, screens, 2],
        &[3, 1, 2, 0],
        &[3, 1, 2, 300],
        &[3, 2, 2, 300],
        &[1, 2, 1, 2],
        &[1, 2, 1, 2],
        &[1, 2, 2, 1],
        &[3, 1, 2, most],
        &[3, 1, 2, most],
        &[3, 1, 1, 7],
        &[4, 1],
        &[3, 1, 2, most],
        &[4, 1],
        &[5, 1],
        &[5, 1],
        &[2, 2, 1],
        &[2, 2, 1],
        &[5, 1],
        &[5, 1],
        &[5, 3],
        &[4, 3],
    ];
    records.map(<[u32]>::to_vec).to_vec()
}

/// The sheet, with all numbers from P on in at least `least_groups` groups.
fn padded(format: Format, numbers: &Numbers, least_groups: usize) -> Vec<u8> {
    let first = format.first_numbers().len();
    in_groups(numbers, |at| if at < first { 1 } else { least_groups })
}

/// The sheet with one number changed: each of them in turn.
fn with_one_changed(numbers: &Numbers, change: impl Fn(u32) -> u32) -> Vec<Numbers> {
    let changed = |at| {
        let mut numbers = numbers.clone();
        let number = numbers.iter_mut().flatten().nth(at).expect("a number");
        *number = change(*number);
        numbers
    };
    (0..numbers.iter().flatten().count()).map(changed).collect()
}

/// One number is too large for any field; those after it may be padded.
fn too_large(numbers: &Numbers) -> Vec<Vec<u8>> {
    let mut sheets = Vec::new();
    for (bad, numbers) in with_one_changed(numbers, |number| number + 65_536).iter().enumerate() {
        for least_groups in 1..=3 {
            sheets.push(in_groups(numbers, |at| if at > bad { least_groups } else { 1 }));
        }
    }
    sheets
}

/// One number is the largest session of the room, or one more: a session is then
/// too large, another number need not be.
fn around_a_session(numbers: &Numbers, limits: Limits) -> Vec<Vec<u8>> {
    let most = u32::from(limits.sessions);
    let sheets = [most, most + 1].into_iter().flat_map(|to| with_one_changed(numbers, |_| to));
    sheets.map(|numbers| shortest(&numbers)).collect()
}

/// One number has more groups than the others: each of them in turn.
fn one_padded(numbers: &Numbers) -> Vec<Vec<u8>> {
    let mut sheets = Vec::new();
    for padded in 0..numbers.iter().flatten().count() {
        for least_groups in 2..=4 {
            sheets.push(in_groups(numbers, |at| if at == padded { least_groups } else { 1 }));
        }
    }
    sheets
}

/// Sheets whose last number is bad, at an offset that needs 9 or 16 bits, and
/// at the end of the longest sheet, where it needs 17.
fn deep(format: Format, limits: Limits) -> Vec<Vec<u8>> {
    let mut ends: Vec<Vec<u8>> = vec![vec![0x80], vec![0x80, 0x80], vec![0x80, 0x80, 0x04]];
    ends.push(vec![0x85, 0x00, 1]);
    ends.push(shortest(&vec![vec![3, 2, 1, u32::from(limits.sessions) + 1]]));
    for step in STEPS {
        ends.extend(bad_ends(step));
        if format.has_shorthand() {
            ends.extend(bad_ends(&shorthand(step)));
            ends.push(step.to_vec());
        }
    }
    let mut sheets = Vec::new();
    for bytes in [260, 32_772, MAX_BYTES - 1, MAX_BYTES] {
        sheets.extend(ends.iter().map(|end| ending_with(format, end, bytes)));
    }
    sheets
}

/// A record cut before each field, and with each kind of bad number as a field.
fn bad_ends(record: &[u8]) -> Vec<Vec<u8>> {
    let mut ends: Vec<_> = (1..record.len()).map(|cut| record[..cut].to_vec()).collect();
    if record.len() > 1 {
        ends.push([&record[..1], &[0x80]].concat());
        ends.push([&record[..1], &[0xFF, 0xFF, 0x04]].concat());
        ends.push([&record[..record.len() - 1], &[0x81, 0x80, 0x00]].concat());
    }
    ends
}

/// A hall, whole records of desk 1 and this end, in so many bytes.
fn ending_with(format: Format, end: &[u8], bytes: usize) -> Vec<u8> {
    let before = bytes - end.len();
    let filled = match format {
        Format::Edition2 => filled(&[0, 2, 1, 1, 1, 5, 1], &[13], before),
        // Collects have two bytes; a drop before them has three.
        _ if before % 2 == 0 => filled(&[1, 1, 1, 2, 1, 1], &[5, 1], before),
        _ => filled(&[1, 1, 1], &[5, 1], before),
    };
    [&filled, end].concat()
}

/// Around the longest sheet, and well past it.
fn around_the_longest() -> [usize; 7] {
    [
        MAX_BYTES - 3,
        MAX_BYTES - 2,
        MAX_BYTES - 1,
        MAX_BYTES,
        MAX_BYTES + 1,
        MAX_BYTES + 2,
        3 * MAX_BYTES,
    ]
}

fn long(limits: Limits) -> Vec<Vec<u8>> {
    let largest = [limits.desks, limits.screens, limits.positions].map(|most| most as u8);
    let [last_desk, last_screen, last_position] = largest;
    let desk = last_desk.min(7);
    let padded_header = [last_desk | 0x80, 0x00, last_screen, last_position];
    let mut with_padded_code = vec![3, last_desk, last_position];
    put(&mut with_padded_code, limits.sessions.into(), 1);
    with_padded_code.extend([0x84, 0x80, 0x00, last_desk]);
    let steps = [
        &[3, desk, last_position, 9][..],
        &[1, last_desk, last_screen, last_position],
        &[4, desk],
        &[3, desk, last_position, 8],
        &[4, desk],
        &[2, last_desk, last_screen],
        &[5, desk],
    ];
    let mut sheets = Vec::new();
    for bytes in around_the_longest() {
        sheets.push(filled(&[1, 1, 1], &[5], bytes));
        sheets.push(filled(&[1, 1, 1], &[5, 1], bytes));
        sheets.push(filled(&largest, &[5, last_desk], bytes));
        sheets.push(filled(&largest, &steps.concat(), bytes));
        sheets.push(filled(&padded_header, &[0x85, 0x00, last_desk | 0x80, 0x00], bytes));
        sheets.push(filled(&largest, &with_padded_code, bytes));
        // Two desks in turn: in edition 2 these are two bytes longer.
        sheets.push(filled(&[2, 1, 1], &[5, 1, 5, 2], bytes));
        sheets.push(filled(&[2, 1, 1, 2, 2, 1], &[5, 1, 5, 2], bytes));
        sheets.push(filled(&[2, 1, 1, 5, 2, 2, 2, 1], &[5, 1, 5, 2], bytes));
        sheets.push(filled(&[17, 1, 1], &[0], bytes));
        sheets.push(filled(&[2, 1], &[0x80], bytes));
        sheets.push(vec![0; bytes]);
    }
    sheets
}

fn long_in_edition_2() -> Vec<Vec<u8>> {
    let mut sheets = Vec::new();
    for bytes in around_the_longest() {
        sheets.push(filled(&[0, 2, 1, 1, 1, 5, 1], &[13], bytes));
        sheets.push(filled(&[0, 2, 16, 4, 64, 5, 16], &[13, 12], bytes));
        sheets.push(filled(&[0, 2, 1, 1, 1, 5, 0xFF, 0xFF, 0x03], &[13], bytes));
        sheets.push(filled(&[0, 2, 2, 1, 1], &[5, 1, 5, 2], bytes));
        sheets.push(filled(&[0, 2, 2, 1, 1, 2, 2, 1], &[5, 1, 5, 2], bytes));
        sheets.push(filled(
            &[0, 2, 16, 4, 64],
            &[3, 7, 64, 9, 1, 16, 4, 64, 4, 7, 11, 64, 8, 12, 13, 2, 16, 4],
            bytes,
        ));
        sheets.push(filled(&[0, 2, 1, 1, 1, 5, 1], &[0x8D, 0x00], bytes));
        sheets.push(filled(&[0, 2, 17, 1, 1], &[0], bytes));
        sheets.push(filled(&[0, 2, 1], &[0x80], bytes));
        sheets.push(filled(&[1, 1, 1], &[5, 1], bytes));
        sheets.push(vec![0; bytes]);
    }
    sheets.extend(longest_in_edition_1());
    sheets
}

/// Records of one byte that in edition 1 have their desk again. There the sheet has
/// 65,534 to 65,539 bytes.
fn longest_in_edition_1() -> Vec<Vec<u8>> {
    let collects = |first: &[u8], count| [&[0, 2, 1, 1, 1], first, &vec![13; count]].concat();
    let mut sheets = Vec::new();
    for first in [&[5, 1][..], &[2, 1, 1]] {
        sheets.extend([32_764, 32_765, 32_766].map(|count| collects(first, count)));
    }
    for first in [&[5, 0xFF, 0xFF, 0x03][..], &[2, 0xFF, 0xFF, 0x03, 1]] {
        sheets.extend([16_382, 16_383].map(|count| collects(first, count)));
    }
    sheets
}

/// A prefix, then the same bytes repeated up to this length.
fn filled(beginning: &[u8], again: &[u8], bytes: usize) -> Vec<u8> {
    beginning.iter().chain(again.iter().cycle()).copied().take(bytes).collect()
}

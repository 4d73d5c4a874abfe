//! The numbers of a sheet, and the same sheet in another edition.

use crate::bytes::put;
use reference::sheet::Format;

/// Those of the header, then those of each record, the code first.
pub type Numbers = Vec<Vec<u32>>;

/// From the code of a step to its shorthand code.
pub const TO_SHORTHAND: u32 = 8;

/// A sheet of edition 1, in this format. Precondition: each record has a desk.
pub fn in_format(numbers: Numbers, format: Format) -> Numbers {
    match format {
        Format::Archive | Format::Edition1 => numbers,
        Format::Edition2 => in_edition_2(numbers),
    }
}

fn in_edition_2(mut numbers: Numbers) -> Numbers {
    let mut desk_before = None;
    for record in &mut numbers[1..] {
        let desk = record[1];
        if desk_before == Some(desk) && (1..=5).contains(&record[0]) {
            leave_desk_out(record);
        }
        desk_before = Some(desk);
    }
    numbers[0].splice(0..0, [0, 2]);
    numbers
}

pub fn leave_desk_out(record: &mut Vec<u32>) {
    record[0] += TO_SHORTHAND;
    record.remove(1);
}

/// The sheet, each number in its shortest form.
pub fn shortest(numbers: &Numbers) -> Vec<u8> {
    in_groups(numbers, |_| 1)
}

/// The sheet; the number at each place has at least so many groups.
pub fn in_groups(numbers: &Numbers, mut least_groups: impl FnMut(usize) -> usize) -> Vec<u8> {
    let mut sheet = Vec::new();
    for (at, &number) in numbers.iter().flatten().enumerate() {
        put(&mut sheet, number, least_groups(at));
    }
    sheet
}

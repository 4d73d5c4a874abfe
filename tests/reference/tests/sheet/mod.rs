//! Sheets of bytes, and their lines.

#![allow(dead_code)] // each test file uses its own part of this

use reference::sheet::Format::{self, Edition1};
use reference::sheet::{printed, Fault, Reader};
use reference::Limits;

pub const CASE_D: [u8; 27] = [
    0x01, 0x01, 0x01, 0x03, 0x01, 0x01, 0xAC, 0x02, 0x01, 0x01, 0x01, 0x01, 0x03, 0x01, 0x01, 0x07,
    0x04, 0x01, 0x05, 0x01, 0x02, 0x01, 0x01, 0x05, 0x01, 0x04, 0x01,
];

/// The same in edition 2.
pub const CASE_D_2: [u8; 22] = [
    0x00, 0x02, 0x01, 0x01, 0x01, 0x03, 0x01, 0x01, 0xAC, 0x02, 0x09, 0x01, 0x01, 0x0B, 0x01, 0x07,
    0x0C, 0x0D, 0x0A, 0x01, 0x0D, 0x0C,
];

pub const LINES_OF_CASE_D: &str = "0 0 0 0\n1 3 0 0\n2 1 0 300\n3 3 0 300\n4 4 0 300\n5 5 0 0\n\
    6 2 0 300\n7 5 0 300\n8 4 13 0\nend 7 1 1\n";

/// A hall of 1, 1, 1 with nothing after it.
pub const SMALLEST: [u8; 3] = [1, 1, 1];

/// The same in edition 2.
pub const SMALLEST_2: [u8; 5] = [0, 2, 1, 1, 1];

pub fn lines_in(format: Format, sheet: &[u8]) -> String {
    lines_in_room(Limits::HALL, format, sheet)
}

/// The lines of a sheet in a room of these limits.
pub fn lines_in_room(limits: Limits, format: Format, sheet: &[u8]) -> String {
    String::from_utf8(printed(sheet, format, limits)).expect("plain text")
}

pub fn lines(sheet: &[u8]) -> String {
    lines_in(Edition1, sheet)
}

/// The lines of a sheet that opens the smallest hall and continues with these
/// bytes.
pub fn lines_after_opening(rest: &[u8]) -> String {
    let lines = lines(&[&SMALLEST, rest].concat());
    lines.strip_prefix("0 0 0 0\n").expect("an accepted opening").to_string()
}

/// The line that ends the reading: the last but one.
pub fn stopping_line_in(format: Format, sheet: &[u8]) -> String {
    lines_in(format, sheet).lines().rev().nth(1).expect("two lines").to_string()
}

pub fn stopping_line(sheet: &[u8]) -> String {
    stopping_line_in(Edition1, sheet)
}

/// The first number of a sheet.
pub fn number_in(format: Format, sheet: &[u8]) -> Result<u16, Fault> {
    Reader::new(sheet, format).number()
}

/// The groups that a number needs.
pub fn needed_groups(number: u16) -> usize {
    match number {
        0..=127 => 1,
        128..=16_383 => 2,
        _ => 3,
    }
}

/// The bytes of a number in so many groups, at least those that it needs.
pub fn in_groups(number: u16, groups: usize) -> Vec<u8> {
    let last = groups - 1;
    let group = |at| (u32::from(number) >> (7 * at)) as u8 & 0x7F;
    (0..groups).map(|at| if at < last { group(at) | 0x80 } else { group(at) }).collect()
}

/// A sheet of these numbers, each in at least so many groups.
pub fn encoded(numbers: &[u16], least_groups: usize) -> Vec<u8> {
    let groups = |number| needed_groups(number).max(least_groups);
    numbers.iter().flat_map(|&number| in_groups(number, groups(number))).collect()
}

//! The reference under C names of its own, so that a harness in C can make the
//! same call on it and on the archive. The header is ../reference_in_c.h.

use reference::sheet::{printed, Conversion, Format};
use reference::{answer, Limits};
use std::slice;

/// A call: rooms 0 to 2 are the hall, the training room and the board with rings;
/// functions 0 to 5 are open, take, drop, swap, retire and collect, with the message number that all but
/// open have, and then the other numbers that they have, in the order of the header.
///
/// # Safety
/// `table` points to `bytes` bytes, or `bytes` is 0.
#[no_mangle]
pub unsafe extern "C" fn reference_call(
    room: u8,
    function: u8,
    message: u16,
    numbers: *const [u16; 3],
    table: *mut u8,
    bytes: usize,
) -> u32 {
    let limits = [Limits::HALL, Limits::TRAINING, Limits::RING][usize::from(room)];
    let [a, b, c] = *numbers;
    let table = lent(table, bytes);
    answer(match function {
        0 => reference::open(limits, a, b, c, table),
        1 => reference::take(limits, message, a, b, c, table),
        2 => reference::drop(limits, message, a, b, table),
        3 => reference::swap(limits, message, a, b, c, table),
        4 => reference::retire(limits, message, a, table),
        5 => reference::collect(limits, message, a, table),
        _ => unreachable!("six functions"),
    })
}

/// A run of steps in the hall.
///
/// # Safety
/// Each of the three points to its number of bytes, or this is 0.
#[no_mangle]
pub unsafe extern "C" fn reference_run(
    steps: *const u8,
    step_bytes: usize,
    replies: *mut u8,
    reply_bytes: usize,
    table: *mut u8,
    bytes: usize,
) -> u32 {
    let steps = slice_of(steps, step_bytes);
    answer(reference::run(steps, lent(replies, reply_bytes), lent(table, bytes)))
}

/// What a sheet program writes, valid until the next call; its length goes to
/// `length`. Programs 0 to 5 are day_sheet, day_sheet_2, training_sheet,
/// shorten_sheet, to_edition_2 and to_edition_1.
///
/// # Safety
/// `sheet` points to `bytes` bytes; one thread calls this.
#[no_mangle]
pub unsafe extern "C" fn reference_output(
    program: u8,
    sheet: *const u8,
    bytes: usize,
    length: *mut usize,
) -> *const u8 {
    static mut OUTPUT: Vec<u8> = Vec::new();
    let sheet = slice_of(sheet, bytes);
    let output = match program {
        0 => printed(sheet, Format::Edition1, Limits::HALL),
        1 => printed(sheet, Format::Edition2, Limits::HALL),
        2 => printed(sheet, Format::Edition1, Limits::TRAINING),
        3 => Conversion::SHORTEN.output(sheet),
        4 => Conversion::TO_EDITION_2.output(sheet),
        5 => Conversion::TO_EDITION_1.output(sheet),
        _ => unreachable!("six programs"),
    };
    keep(output, &raw mut OUTPUT, length)
}

unsafe fn slice_of<'a>(start: *const u8, bytes: usize) -> &'a [u8] {
    if bytes == 0 {
        &[]
    } else {
        slice::from_raw_parts(start, bytes)
    }
}

unsafe fn lent<'a>(start: *mut u8, bytes: usize) -> &'a mut [u8] {
    if bytes == 0 {
        &mut []
    } else {
        slice::from_raw_parts_mut(start, bytes)
    }
}

unsafe fn keep(output: Vec<u8>, place: *mut Vec<u8>, length: *mut usize) -> *const u8 {
    *place = output;
    *length = (*place).len();
    (*place).as_ptr()
}

//! The reference under the archive's C names. It replaces the archive in the
//! self-tests, and only there.
//!
//! The reference is included as a module, not linked as a crate: its functions
//! must not be confused with those of the comparison's own reference.

#[allow(dead_code, unused_imports)]
#[path = "../../reference/src/lib.rs"]
mod board;

use board::{answer, Limits};

/// # Safety
/// As the header has it: `table` points to `bytes` bytes, or `bytes` is 0.
unsafe fn lent<'a>(table: *mut u8, bytes: usize) -> &'a mut [u8] {
    if bytes == 0 {
        &mut []
    } else {
        std::slice::from_raw_parts_mut(table, bytes)
    }
}

/// # Safety
/// As for `lent`; nothing is written.
unsafe fn lent_to_read<'a>(table: *const u8, bytes: usize) -> &'a [u8] {
    if bytes == 0 {
        &[]
    } else {
        std::slice::from_raw_parts(table, bytes)
    }
}

/// The calls of a board: its limits, then for each call its C name, its function in
/// the reference, and its numbers.
macro_rules! calls {
    ($limits:expr; $($name:ident = $function:ident($($number:ident),*);)*) => {
        $(
            #[no_mangle]
            unsafe extern "C" fn $name($($number: u16,)* table: *mut u8, bytes: usize) -> u32 {
                answer(board::$function($limits, $($number,)* lent(table, bytes)))
            }
        )*
    };
}

calls! {
    Limits::HALL;
    board_open = open(desks, screens, positions);
    board_take = take(message, desk, screen, position);
    board_drop = drop(message, desk, screen);
    board_swap = swap(message, desk, position, session);
    board_retire = retire(message, desk);
    board_collect = collect(message, desk);
}

calls! {
    Limits::TRAINING;
    training_open = open(desks, screens, positions);
    training_take = take(message, desk, screen, position);
    training_drop = drop(message, desk, screen);
    training_swap = swap(message, desk, position, session);
    training_retire = retire(message, desk);
    training_collect = collect(message, desk);
}

calls! {
    Limits::RING;
    ring_open = open(desks, screens, positions);
    ring_take = take(message, desk, screen, position);
    ring_drop = drop(message, desk, screen);
    ring_swap = swap(message, desk, position, session);
    ring_retire = retire(message, desk);
    ring_collect = collect(message, desk);
}

#[no_mangle]
unsafe extern "C" fn board_run(
    steps: *const u8,
    step_bytes: usize,
    replies: *mut u8,
    reply_bytes: usize,
    table: *mut u8,
    bytes: usize,
) -> u32 {
    let steps = lent_to_read(steps, step_bytes);
    answer(board::run(steps, lent(replies, reply_bytes), lent(table, bytes)))
}

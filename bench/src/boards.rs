//! The boards: the archive's two, the one in Rust and the one in C.

/// A call and its numbers, but for the message number.
#[derive(Clone, Copy)]
pub enum Call {
    Open(u16, u16, u16),
    Take(u16, u16, u16),
    Drop(u16, u16),
    Swap(u16, u16, u16),
    Retire(u16),
    Collect(u16),
}

impl Call {
    /// Of a step; 0 of an opening.
    pub fn desk(self) -> u16 {
        match self {
            Call::Open(..) => 0,
            Call::Take(desk, ..) | Call::Drop(desk, _) | Call::Swap(desk, ..) => desk,
            Call::Retire(desk) | Call::Collect(desk) => desk,
        }
    }
}

/// Makes a call with this message number; an opening has none.
pub type Board = fn(Call, u16, &mut [u8]) -> u32;

/// In the order of the printed columns.
pub const BOARDS: [Board; 3] = [to_archive, to_reference, to_c];

#[inline(always)]
fn make(calls: &archive::Calls, call: Call, message: u16, table: &mut [u8]) -> u32 {
    match call {
        Call::Open(desks, screens, positions) => calls.open(desks, screens, positions, table),
        Call::Take(desk, screen, position) => calls.take(message, desk, screen, position, table),
        Call::Drop(desk, screen) => calls.drop(message, desk, screen, table),
        Call::Swap(desk, position, session) => calls.swap(message, desk, position, session, table),
        Call::Retire(desk) => calls.retire(message, desk, table),
        Call::Collect(desk) => calls.collect(message, desk, table),
    }
}

#[inline(never)]
pub fn to_archive(call: Call, message: u16, table: &mut [u8]) -> u32 {
    make(&archive::HALL, call, message, table)
}

/// The archive's board with rings.
#[inline(never)]
pub fn to_ring(call: Call, message: u16, table: &mut [u8]) -> u32 {
    make(&archive::RING, call, message, table)
}

/// The board in Rust behind C functions that are not inlined, as the other two are: so that the
/// three differ by their code and not by how they are called.
mod rust {
    use reference::{answer, Limits};
    use std::slice::from_raw_parts_mut;

    macro_rules! calls {
        ($($name:ident($($number:ident),*);)*) => {
            $(
                /// # Safety
                /// The table points to as many bytes as are said.
                #[inline(never)]
                pub unsafe extern "C" fn $name($($number: u16,)* table: *mut u8, bytes: usize) -> u32 {
                    let table = from_raw_parts_mut(table, bytes);
                    answer(reference::$name(Limits::HALL, $($number,)* table))
                }
            )*
        };
    }

    calls! {
        open(desks, screens, positions);
        take(message, desk, screen, position);
        drop(message, desk, screen);
        swap(message, desk, position, session);
        retire(message, desk);
        collect(message, desk);
    }
}

#[inline(never)]
pub fn to_reference(call: Call, message: u16, table: &mut [u8]) -> u32 {
    let (bytes, table) = (table.len(), table.as_mut_ptr());
    // A slice points to as many bytes as it says.
    unsafe {
        match call {
            Call::Open(desks, screens, positions) => {
                rust::open(desks, screens, positions, table, bytes)
            }
            Call::Take(desk, screen, position) => {
                rust::take(message, desk, screen, position, table, bytes)
            }
            Call::Drop(desk, screen) => rust::drop(message, desk, screen, table, bytes),
            Call::Swap(desk, position, session) => {
                rust::swap(message, desk, position, session, table, bytes)
            }
            Call::Retire(desk) => rust::retire(message, desk, table, bytes),
            Call::Collect(desk) => rust::collect(message, desk, table, bytes),
        }
    }
}

mod c {
    extern "C" {
        pub fn c_board_open(p: u16, c: u16, l: u16, table: *mut u8, bytes: usize) -> u32;
        pub fn c_board_take(m: u16, d: u16, s: u16, p: u16, table: *mut u8, bytes: usize) -> u32;
        pub fn c_board_drop(m: u16, d: u16, s: u16, table: *mut u8, bytes: usize) -> u32;
        pub fn c_board_swap(m: u16, d: u16, p: u16, new: u16, table: *mut u8, bytes: usize) -> u32;
        pub fn c_board_retire(m: u16, d: u16, table: *mut u8, bytes: usize) -> u32;
        pub fn c_board_collect(m: u16, d: u16, table: *mut u8, bytes: usize) -> u32;
    }
}

#[inline(never)]
fn to_c(call: Call, message: u16, table: &mut [u8]) -> u32 {
    let (bytes, table) = (table.len(), table.as_mut_ptr());
    // A slice points to as many bytes as it says.
    unsafe {
        match call {
            Call::Open(desks, screens, positions) => {
                c::c_board_open(desks, screens, positions, table, bytes)
            }
            Call::Take(desk, screen, position) => {
                c::c_board_take(message, desk, screen, position, table, bytes)
            }
            Call::Drop(desk, screen) => c::c_board_drop(message, desk, screen, table, bytes),
            Call::Swap(desk, position, session) => {
                c::c_board_swap(message, desk, position, session, table, bytes)
            }
            Call::Retire(desk) => c::c_board_retire(message, desk, table, bytes),
            Call::Collect(desk) => c::c_board_collect(message, desk, table, bytes),
        }
    }
}

//! The calls of the archive as safe functions, the same six for each room and for the
//! board with rings, and the run of the hall: a slice always points to as many bytes as its length says. Inlined, so
//! that timing them times the calls alone.

/// Its message number `m`, desk `d`, screen `s` and position `p`; an opening's `p`, `c`
/// and `l` are the desks, screens and positions.
mod c {
    extern "C" {
        pub fn board_open(p: u16, c: u16, l: u16, table: *mut u8, bytes: usize) -> u32;
        pub fn board_take(m: u16, d: u16, s: u16, p: u16, table: *mut u8, bytes: usize) -> u32;
        pub fn board_drop(m: u16, d: u16, s: u16, table: *mut u8, bytes: usize) -> u32;
        pub fn board_swap(m: u16, d: u16, p: u16, new: u16, table: *mut u8, bytes: usize) -> u32;
        pub fn board_retire(m: u16, d: u16, table: *mut u8, bytes: usize) -> u32;
        pub fn board_collect(m: u16, d: u16, table: *mut u8, bytes: usize) -> u32;

        pub fn board_run(
            steps: *const u8,
            step_bytes: usize,
            replies: *mut u8,
            reply_bytes: usize,
            table: *mut u8,
            bytes: usize,
        ) -> u32;

        pub fn training_open(p: u16, c: u16, l: u16, table: *mut u8, bytes: usize) -> u32;
        pub fn training_take(m: u16, d: u16, s: u16, p: u16, table: *mut u8, bytes: usize) -> u32;
        pub fn training_drop(m: u16, d: u16, s: u16, table: *mut u8, bytes: usize) -> u32;
        pub fn training_swap(m: u16, d: u16, p: u16, new: u16, table: *mut u8, bytes: usize)
            -> u32;
        pub fn training_retire(m: u16, d: u16, table: *mut u8, bytes: usize) -> u32;
        pub fn training_collect(m: u16, d: u16, table: *mut u8, bytes: usize) -> u32;

        pub fn ring_open(p: u16, c: u16, l: u16, table: *mut u8, bytes: usize) -> u32;
        pub fn ring_take(m: u16, d: u16, s: u16, p: u16, table: *mut u8, bytes: usize) -> u32;
        pub fn ring_drop(m: u16, d: u16, s: u16, table: *mut u8, bytes: usize) -> u32;
        pub fn ring_swap(m: u16, d: u16, p: u16, new: u16, table: *mut u8, bytes: usize) -> u32;
        pub fn ring_retire(m: u16, d: u16, table: *mut u8, bytes: usize) -> u32;
        pub fn ring_collect(m: u16, d: u16, table: *mut u8, bytes: usize) -> u32;
    }
}

/// A call by how many numbers it has besides the table.
type OfTwo = unsafe extern "C" fn(u16, u16, *mut u8, usize) -> u32;
type OfThree = unsafe extern "C" fn(u16, u16, u16, *mut u8, usize) -> u32;
type OfFour = unsafe extern "C" fn(u16, u16, u16, u16, *mut u8, usize) -> u32;

/// The six calls of a room, or of the board with rings.
pub struct Calls {
    open: OfThree,
    take: OfFour,
    drop: OfThree,
    swap: OfFour,
    retire: OfTwo,
    collect: OfTwo,
}

pub const HALL: Calls = Calls {
    open: c::board_open,
    take: c::board_take,
    drop: c::board_drop,
    swap: c::board_swap,
    retire: c::board_retire,
    collect: c::board_collect,
};

pub const TRAINING: Calls = Calls {
    open: c::training_open,
    take: c::training_take,
    drop: c::training_drop,
    swap: c::training_swap,
    retire: c::training_retire,
    collect: c::training_collect,
};

pub const RING: Calls = Calls {
    open: c::ring_open,
    take: c::ring_take,
    drop: c::ring_drop,
    swap: c::ring_swap,
    retire: c::ring_retire,
    collect: c::ring_collect,
};

impl Calls {
    #[inline]
    pub fn open(&self, desks: u16, screens: u16, positions: u16, table: &mut [u8]) -> u32 {
        unsafe { (self.open)(desks, screens, positions, table.as_mut_ptr(), table.len()) }
    }

    #[inline]
    pub fn take(
        &self,
        message: u16,
        desk: u16,
        screen: u16,
        position: u16,
        table: &mut [u8],
    ) -> u32 {
        unsafe { (self.take)(message, desk, screen, position, table.as_mut_ptr(), table.len()) }
    }

    #[inline]
    pub fn drop(&self, message: u16, desk: u16, screen: u16, table: &mut [u8]) -> u32 {
        unsafe { (self.drop)(message, desk, screen, table.as_mut_ptr(), table.len()) }
    }

    #[inline]
    pub fn swap(
        &self,
        message: u16,
        desk: u16,
        position: u16,
        session: u16,
        table: &mut [u8],
    ) -> u32 {
        unsafe { (self.swap)(message, desk, position, session, table.as_mut_ptr(), table.len()) }
    }

    #[inline]
    pub fn retire(&self, message: u16, desk: u16, table: &mut [u8]) -> u32 {
        unsafe { (self.retire)(message, desk, table.as_mut_ptr(), table.len()) }
    }

    #[inline]
    pub fn collect(&self, message: u16, desk: u16, table: &mut [u8]) -> u32 {
        unsafe { (self.collect)(message, desk, table.as_mut_ptr(), table.len()) }
    }
}

/// A run of steps in the hall.
#[inline]
pub fn run(steps: &[u8], replies: &mut [u8], table: &mut [u8]) -> u32 {
    let (step_bytes, reply_bytes, bytes) = (steps.len(), replies.len(), table.len());
    let (steps, replies, table) = (steps.as_ptr(), replies.as_mut_ptr(), table.as_mut_ptr());
    unsafe { c::board_run(steps, step_bytes, replies, reply_bytes, table, bytes) }
}

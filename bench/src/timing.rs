//! Times a call on copies of its table, by each of the boards in turn. Each board has a
//! task of its own: the same one, or the same call on a table of its own layout.

use crate::boards::{Board, Call};
use crate::halls::Task;
use std::hint::black_box;
use std::time::Instant;

pub const PAGE: usize = 4096;

/// Bytes of all tables of a batch together: they stay in the nearest cache.
pub const BATCH_BYTES: usize = 16 * 1024;
const MAX_TABLES: usize = 256;

/// How often a batch goes over its tables, if the call is refused or is an opening: such calls
/// can be made again on the same table, and are short, while the clock's steps are not.
pub const PASSES: usize = 16;

pub const REPETITIONS: usize = 1001;
pub const PLACES: usize = 64;
const REPETITIONS_OF_A_PLACE: usize = 201;

/// A board, and what it is timed with.
pub type Entry<'a> = (Board, &'a Task);

/// Where the tables of a batch stand: in bytes from the start of a page, one right behind
/// the other or each at the same place of a page.
struct Layout {
    first: usize,
    whole_pages: bool,
    tables: usize,
}

impl Layout {
    fn stride(&self, bytes: usize) -> usize {
        if self.whole_pages {
            bytes.next_multiple_of(PAGE)
        } else {
            bytes
        }
    }
}

/// The bytes of the longest table.
fn longest(entries: &[Entry]) -> usize {
    entries.iter().map(|(_, task)| task.table.len()).max().unwrap_or(0)
}

pub struct Clock {
    memory: Vec<u8>,
    /// The nanoseconds that a batch of no calls takes.
    empty: f64,
}

impl Clock {
    pub fn new() -> Clock {
        let empty = (0..REPETITIONS).map(|_| Instant::now().elapsed().as_nanos() as f64);
        Clock { memory: vec![0; BATCH_BYTES + 4 * PAGE], empty: median(empty.collect()) }
    }

    /// How many tables of this length are in a batch.
    pub fn tables(bytes: usize) -> usize {
        (BATCH_BYTES / bytes).clamp(1, MAX_TABLES)
    }

    /// The same with all tables at the same place of their pages. There they share the cache's
    /// sets, so there are few.
    pub fn tables_at_a_place(bytes: usize) -> usize {
        (BATCH_BYTES / bytes.next_multiple_of(PAGE)).clamp(1, 4)
    }

    /// The median times of a call, in nanoseconds, one for each board. The tables of a batch stand one behind the
    /// other, and the next batch begins elsewhere in the page.
    pub fn time<const N: usize>(&mut self, entries: &[Entry; N]) -> [f64; N] {
        let tables = Clock::tables(longest(entries));
        let mut times = entries.map(|_| Vec::with_capacity(REPETITIONS));
        for repetition in 0..REPETITIONS {
            let first = repetition * 521 % PAGE;
            let layout = Layout { first, whole_pages: false, tables };
            self.turn(repetition, entries, &layout, &mut times);
        }
        times.map(median)
    }

    /// The median times of a call with its table at each of 64 places of a
    /// page: each on a cache line of its own, and each aligned in its own way.
    pub fn time_at_places<const N: usize>(&mut self, entries: &[Entry; N]) -> Vec<[f64; N]> {
        let tables = Clock::tables_at_a_place(longest(entries));
        let mut times: Vec<_> = (0..PLACES).map(|_| entries.map(|_| Vec::new())).collect();
        // The places in turn, so that a disturbance meets all of them alike.
        for repetition in 0..REPETITIONS_OF_A_PLACE {
            for (place, times) in times.iter_mut().enumerate() {
                let first = place * (PAGE / PLACES + 1) % PAGE;
                let layout = Layout { first, whole_pages: true, tables };
                self.turn(repetition, entries, &layout, times);
            }
        }
        times.into_iter().map(|of_place| of_place.map(median)).collect()
    }

    /// A batch for each board. Who goes first changes, so that none gains by it.
    fn turn<const N: usize>(
        &mut self,
        repetition: usize,
        entries: &[Entry; N],
        layout: &Layout,
        times: &mut [Vec<f64>; N],
    ) {
        for turn in 0..N {
            let which = (repetition + turn) % N;
            let (board, task) = entries[which];
            let batch = self.time_batch(board, task, layout);
            times[which].push((batch - self.empty) / (layout.tables * passes(task)) as f64);
        }
    }

    fn time_batch(&mut self, board: Board, task: &Task, layout: &Layout) -> f64 {
        let bytes = task.table.len();
        let stride = layout.stride(bytes);
        let page = self.memory.as_ptr().align_offset(PAGE);
        let tables = &mut self.memory[page + layout.first..][..stride * layout.tables];
        for table in tables.chunks_exact_mut(stride) {
            table[..bytes].copy_from_slice(&task.table);
        }
        let begun = Instant::now();
        for _ in 0..passes(task) {
            for table in tables.chunks_exact_mut(stride) {
                black_box(board(black_box(task.call), task.message, &mut table[..bytes]));
            }
        }
        begun.elapsed().as_nanos() as f64
    }
}

fn passes(task: &Task) -> usize {
    let again = task.number != 0 || matches!(task.call, Call::Open(..));
    if again {
        PASSES
    } else {
        1
    }
}

pub fn median(mut times: Vec<f64>) -> f64 {
    times.sort_by(f64::total_cmp);
    times[times.len() / 2]
}

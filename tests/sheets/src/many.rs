//! Many sheets, distributed among threads.

use crate::comparison::{Comparison, Tally};
use crate::program::{InputMode, Runner};
use std::path::Path;
use std::sync::atomic::{AtomicU64, Ordering::Relaxed};
use std::thread;

/// The fixed sheets come first, then those of the seed.
pub struct Sheets<'a, C> {
    pub seed: u64,
    fixed: Vec<Vec<u8>>,
    comparison: &'a C,
}

impl<'a, C: Comparison> Sheets<'a, C> {
    pub fn of(comparison: &'a C, seed: u64) -> Self {
        Sheets { seed, fixed: comparison.fixed_sheets(), comparison }
    }

    pub fn sheet(&self, number: u64) -> Vec<u8> {
        match self.fixed.get(number as usize) {
            Some(sheet) => sheet.clone(),
            None => self.comparison.make_sheet(self.seed, number),
        }
    }
}

/// How a sheet is delivered. Pieces are rare, because they are slow.
pub fn input_mode(number: u64) -> InputMode {
    match number % 64 {
        63 => InputMode::Pieces,
        number if number % 2 == 0 => InputMode::File,
        _ => InputMode::Pipe,
    }
}

/// Compares sheets 0 to count - 1. The error is the first that differs.
pub fn compare_all<C: Comparison>(
    all: &Sheets<C>,
    count: u64,
    folder: &Path,
) -> Result<C::Tally, u64> {
    let next = AtomicU64::new(0);
    let differs = AtomicU64::new(u64::MAX);
    let (next, differs) = (&next, &differs);
    let mut tally = all.comparison.tally();
    thread::scope(|threads| {
        // Two per core: one waits while the program of the other runs.
        let cores = thread::available_parallelism().map_or(1, usize::from);
        let share = |at: usize| {
            let runner = Runner::new(folder.join(at.to_string()));
            threads.spawn(move || compare_share(all, count, next, differs, &runner))
        };
        let shares: Vec<_> = (0..2 * cores).map(share).collect();
        shares.into_iter().for_each(|share| tally.add(&share.join().expect("a thread's tally")));
    });
    match differs.load(Relaxed) {
        u64::MAX => Ok(tally),
        number => Err(number),
    }
}

/// Takes the next sheet and the next, until all are taken or one differs.
fn compare_share<C: Comparison>(
    all: &Sheets<C>,
    count: u64,
    next: &AtomicU64,
    differs: &AtomicU64,
    runner: &Runner,
) -> C::Tally {
    let mut tally = all.comparison.tally();
    loop {
        let number = next.fetch_add(1, Relaxed);
        if number >= count || number > differs.load(Relaxed) {
            return tally;
        }
        let (sheet, mode) = (all.sheet(number), input_mode(number));
        if !all.comparison.differences(&sheet, mode, runner, &mut tally).is_empty() {
            differs.fetch_min(number, Relaxed);
        }
    }
}

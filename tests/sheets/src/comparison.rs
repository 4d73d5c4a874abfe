//! What a comparison of sheet programs says of itself.

use crate::program::{InputMode, Runner};
use std::fmt::Display;
use std::path::Path;

pub trait Comparison: Sync + Sized {
    /// Its name, as it prints it.
    const NAME: &'static str;
    /// The programs that it can test.
    const PROGRAMS: &'static [&'static str];
    /// How many sheets are compared, unless the command line says it.
    const SHEETS: u64;

    type Tally: Tally;

    /// The comparison that tests this program, one of `PROGRAMS`; it and the other
    /// programs are in the folder.
    fn new(program: &str, folder: &Path) -> Self;

    /// The sheets that it starts with.
    fn fixed_sheets(&self) -> Vec<Vec<u8>>;

    /// The sheet of a number under a seed.
    fn make_sheet(&self, seed: u64, number: u64) -> Vec<u8>;

    /// A tally with nothing counted.
    fn tally(&self) -> Self::Tally;

    /// Runs the programs on a sheet, and counts what that shows. The result is a
    /// line for each difference.
    fn differences(
        &self,
        sheet: &[u8],
        mode: InputMode,
        runner: &Runner,
        tally: &mut Self::Tally,
    ) -> Vec<String>;
}

/// What was compared. What never occurred was never compared.
pub trait Tally: Display + Send {
    fn add(&mut self, other: &Self);

    /// What must occur in every comparison, but did not.
    fn missing(&self) -> Vec<String>;
}

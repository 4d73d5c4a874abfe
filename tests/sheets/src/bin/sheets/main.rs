//! Compares a day sheet program with the reference on many sheets: every byte
//! that it prints.
//!
//!     sheets PROGRAM FOLDER [--seed N] [--count N]   many sheets
//!     sheets PROGRAM FOLDER --seed N --sheet N       one of them again
//!     sheets PROGRAM FOLDER --hex 'BYTES'            a sheet as it was printed
//!
//! PROGRAM is day_sheet, day_sheet_2 or training_sheet, which is in FOLDER.

mod tally;

use reference::sheet::{printed, Format};
use reference::Limits;
use sheets::{
    first_difference_in_lines, fixed_sheets, run_comparison, sheet, Comparison, InputMode, Runner,
};
use std::path::{Path, PathBuf};
use std::process::ExitCode;
use tally::Lines;

fn main() -> ExitCode {
    run_comparison::<DaySheet>()
}

struct DaySheet {
    program: PathBuf,
    format: Format,
    limits: Limits,
}

impl Comparison for DaySheet {
    const NAME: &'static str = "sheets";
    const PROGRAMS: &'static [&'static str] = &["day_sheet", "day_sheet_2", "training_sheet"];
    const SHEETS: u64 = 20_000;

    type Tally = Lines;

    fn new(program: &str, folder: &Path) -> DaySheet {
        let (format, limits) = match program {
            "day_sheet_2" => (Format::Edition2, Limits::HALL),
            "training_sheet" => (Format::Edition1, Limits::TRAINING),
            _ => (Format::Edition1, Limits::HALL),
        };
        DaySheet { program: folder.join(program), format, limits }
    }

    fn fixed_sheets(&self) -> Vec<Vec<u8>> {
        fixed_sheets(self.format, self.limits)
    }

    fn make_sheet(&self, seed: u64, number: u64) -> Vec<u8> {
        sheet(self.format, self.limits, seed, number)
    }

    fn tally(&self) -> Lines {
        Lines::new(self.format, self.limits)
    }

    fn differences(
        &self,
        sheet: &[u8],
        mode: InputMode,
        runner: &Runner,
        tally: &mut Lines,
    ) -> Vec<String> {
        let expected = printed(sheet, self.format, self.limits);
        tally.count(sheet, &expected);
        let found = runner.run(&self.program, sheet, mode);
        let difference =
            first_difference_in_lines(("reference", &Ok(expected)), ("program", &found));
        difference.into_iter().collect()
    }
}

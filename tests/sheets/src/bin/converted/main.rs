//! Compares a program that writes sheets in another format with the reference, on
//! many sheets, and gives what it writes to the other programs:
//!
//!     converted PROGRAM FOLDER [--seed N] [--count N]   many sheets
//!     converted PROGRAM FOLDER --seed N --sheet N       one of them again
//!     converted PROGRAM FOLDER --hex 'BYTES'            a sheet as it was printed
//!
//! PROGRAM is shorten_sheet, to_edition_2 or to_edition_1; FOLDER contains it and the
//! day sheet programs.

mod tally;

use reference::sheet::{printed, Conversion, Format};
use reference::Limits;
use sheets::{
    first_difference_in_bytes, first_difference_in_lines, fixed_sheets, run_comparison, sheet,
    Comparison, InputMode, Output, Runner,
};
use std::path::{Path, PathBuf};
use std::process::ExitCode;
use tally::Outcomes;

fn main() -> ExitCode {
    run_comparison::<Converter>()
}

struct Converter {
    conversion: Conversion,
    folder: PathBuf,
    program: &'static str,
    /// Converts the output back; that of the archive is only shortened again.
    back: &'static str,
}

impl Comparison for Converter {
    const NAME: &'static str = "converted";
    const PROGRAMS: &'static [&'static str] = &["shorten_sheet", "to_edition_2", "to_edition_1"];
    const SHEETS: u64 = 5_000;

    type Tally = Outcomes;

    fn new(program: &str, folder: &Path) -> Converter {
        let (conversion, program, back) = match program {
            "to_edition_2" => (Conversion::TO_EDITION_2, "to_edition_2", "to_edition_1"),
            "to_edition_1" => (Conversion::TO_EDITION_1, "to_edition_1", "to_edition_2"),
            _ => (Conversion::SHORTEN, "shorten_sheet", "shorten_sheet"),
        };
        Converter { conversion, folder: folder.to_path_buf(), program, back }
    }

    fn fixed_sheets(&self) -> Vec<Vec<u8>> {
        fixed_sheets(self.conversion.from, Limits::HALL)
    }

    fn make_sheet(&self, seed: u64, number: u64) -> Vec<u8> {
        sheet(self.conversion.from, Limits::HALL, seed, number)
    }

    fn tally(&self) -> Outcomes {
        Outcomes::new(self.conversion)
    }

    /// The output is that of the reference. For a sheet that is accepted there are
    /// three more questions, which do not rest on how the reference converts.
    fn differences(
        &self,
        sheet: &[u8],
        mode: InputMode,
        runner: &Runner,
        tally: &mut Outcomes,
    ) -> Vec<String> {
        let outcome = self.conversion.convert(sheet);
        tally.count(sheet, &outcome);
        let run = Run { programs: &self.folder, mode, runner };
        let output = run.output(self.program, sheet);
        let expected = Ok(self.conversion.output(sheet));
        let mut differences = Vec::new();
        differences
            .extend(first_difference_in_bytes(("reference", &expected), ("program", &output)));
        if let (Ok(_), Ok(output)) = (&outcome, &output) {
            differences.extend(self.longer(sheet, output));
            differences.extend(self.other_lines(sheet, output, &run));
            differences.extend(self.other_way_back(sheet, output, &run));
        }
        differences
    }
}

/// How the programs are run on a sheet.
struct Run<'a> {
    programs: &'a Path,
    mode: InputMode,
    runner: &'a Runner,
}

impl Run<'_> {
    fn output(&self, program: &str, sheet: &[u8]) -> Output {
        self.runner.run(&self.programs.join(program), sheet, self.mode)
    }

    /// The lines of a sheet. No program prints those of the archive.
    fn lines(&self, format: Format, sheet: &[u8]) -> Output {
        match format {
            Format::Archive => Ok(printed(sheet, format, Limits::HALL)),
            Format::Edition1 => self.output("day_sheet", sheet),
            Format::Edition2 => self.output("day_sheet_2", sheet),
        }
    }
}

impl Converter {
    /// Only a desk that was left out makes a sheet longer, and the first numbers of
    /// edition 2.
    fn longer(&self, sheet: &[u8], output: &[u8]) -> Option<String> {
        let most = match self.conversion.from {
            Format::Edition2 => return None,
            _ => sheet.len() + self.conversion.to.first_numbers().len(),
        };
        let (bytes, before) = (output.len(), sheet.len());
        (bytes > most).then(|| format!("longer: {bytes} bytes, the sheet has {before}"))
    }

    /// The same meaning, record by record: the same lines as before.
    fn other_lines(&self, sheet: &[u8], output: &[u8], run: &Run) -> Option<String> {
        let before = run.lines(self.conversion.from, sheet);
        let now = run.lines(self.conversion.to, output);
        let difference = first_difference_in_lines(("before", &before), ("now", &now))?;
        Some(format!("other lines: {difference}"))
    }

    /// There and back gives the first bytes again. A sheet that has been shortened
    /// stays as it is.
    fn other_way_back(&self, sheet: &[u8], output: &[u8], run: &Run) -> Option<String> {
        let expected = match self.conversion.from {
            Format::Archive => output,
            _ => sheet,
        };
        let back = run.output(self.back, output);
        let expected: Output = Ok(expected.to_vec());
        let difference = first_difference_in_bytes(("expected", &expected), (self.back, &back))?;
        Some(format!("other way back: {difference}"))
    }
}

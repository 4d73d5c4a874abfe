//! Reads a sheet of edition 2 from standard input and prints its lines.

use reference::sheet::{printed, run_program, Format};
use reference::Limits;
use std::process::ExitCode;

fn main() -> ExitCode {
    run_program("day_sheet_2_reference", |sheet| printed(sheet, Format::Edition2, Limits::HALL))
}

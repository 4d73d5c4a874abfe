//! Reads a sheet of edition 1 from standard input and prints its lines.

use reference::sheet::{printed, run_program, Format};
use reference::Limits;
use std::process::ExitCode;

fn main() -> ExitCode {
    run_program("day_sheet_reference", |sheet| printed(sheet, Format::Edition1, Limits::HALL))
}

//! Reads a sheet of the archive from standard input and prints its lines, as the
//! sheet program did before it refused padded numbers.

use reference::sheet::{printed, run_program, Format};
use reference::Limits;
use std::process::ExitCode;

fn main() -> ExitCode {
    run_program("archive_sheet_reference", |sheet| printed(sheet, Format::Archive, Limits::HALL))
}

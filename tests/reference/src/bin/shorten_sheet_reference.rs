//! Reads a sheet of the archive from standard input and writes it in shortest
//! form, or the line of its refusal.

use reference::sheet::{run_program, Conversion};
use std::process::ExitCode;

fn main() -> ExitCode {
    run_program("shorten_sheet_reference", |sheet| Conversion::SHORTEN.output(sheet))
}

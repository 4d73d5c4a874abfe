//! Reads a sheet of edition 2 from standard input and writes it in edition 1, or
//! the line of its refusal.

use reference::sheet::{run_program, Conversion};
use std::process::ExitCode;

fn main() -> ExitCode {
    run_program("to_edition_1_reference", |sheet| Conversion::TO_EDITION_1.output(sheet))
}

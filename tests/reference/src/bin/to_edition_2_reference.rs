//! Reads a sheet of edition 1 from standard input and writes it in edition 2, or
//! the line of its refusal.

use reference::sheet::{run_program, Conversion};
use std::process::ExitCode;

fn main() -> ExitCode {
    run_program("to_edition_2_reference", |sheet| Conversion::TO_EDITION_2.output(sheet))
}

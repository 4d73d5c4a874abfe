//! What the programs share: a sheet on standard input, and what they make of it
//! on standard output.

use super::MAX_BYTES;
use std::io::{self, Read, Write};
use std::process::ExitCode;

pub fn run_program(name: &str, output: impl Fn(&[u8]) -> Vec<u8>) -> ExitCode {
    match run(output) {
        Ok(()) => ExitCode::SUCCESS,
        Err(error) => {
            eprintln!("{name}: {error}");
            ExitCode::FAILURE
        }
    }
}

/// One byte more than the longest sheet is enough to tell that it is too long.
fn run(output: impl Fn(&[u8]) -> Vec<u8>) -> io::Result<()> {
    let mut sheet = Vec::with_capacity(MAX_BYTES + 1);
    io::stdin().take(MAX_BYTES as u64 + 1).read_to_end(&mut sheet)?;
    io::stdout().write_all(&output(&sheet))?;
    io::stdout().flush()
}

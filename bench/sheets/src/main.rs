//! Times the sheet programs and those in Rust on the longest sheets, whole runs
//! from start to end, from a file to a file, in turn; then prints how many bytes
//! each edition takes for a shift:
//!
//!     bench_sheets PROGRAMS REFERENCES
//!
//! PROGRAMS is the folder of the programs, REFERENCES that of those in Rust.

mod records;
mod sheets;
mod shifts;

use records::Edition;
use sheets::{longest, longest_in_edition_1, Sheet};
use std::fs::{self, File};
use std::io;
use std::path::{Path, PathBuf};
use std::process::{Command, ExitCode, Stdio};
use std::time::Instant;
use std::{env, process};

const REPETITIONS: usize = 31;

fn main() -> ExitCode {
    let folders: Vec<PathBuf> = env::args_os().skip(1).map(PathBuf::from).collect();
    let [programs, references] = &folders[..] else {
        eprintln!("usage: bench_sheets PROGRAMS REFERENCES");
        return ExitCode::from(2);
    };
    let folder = env::temp_dir().join(format!("bench-sheets-{}", process::id()));
    let timed = fs::create_dir_all(&folder).and_then(|()| time_all(programs, references, &folder));
    let _ = fs::remove_dir_all(&folder);
    match timed {
        Ok(()) => ExitCode::SUCCESS,
        Err(error) => {
            eprintln!("bench_sheets: {error}");
            ExitCode::FAILURE
        }
    }
}

/// Each program, with the longest sheets that it accepts.
fn programs() -> [(&'static str, Vec<Sheet>); 5] {
    [
        ("day_sheet", longest(Edition::One)),
        ("shorten_sheet", longest(Edition::One)),
        ("day_sheet_2", longest(Edition::Two)),
        ("to_edition_2", longest(Edition::One)),
        ("to_edition_1", longest_in_edition_1()),
    ]
}

fn time_all(in_folder: &Path, references: &Path, folder: &Path) -> io::Result<()> {
    println!("milliseconds per run, median of {REPETITIONS} runs, program and reference in turn;");
    println!("a run is the whole process, file to file, on a sheet of 65,536 bytes,");
    println!("for to_edition_1 on one that has 65,536 bytes in edition 1");
    for (name, sheets) in programs() {
        let program = in_folder.join(name);
        let reference = references.join(format!("{name}_reference"));
        println!();
        println!("{name:<44}{:>9}{:>11}{:>9}", "program", "reference", "ratio");
        for sheet in sheets {
            row(sheet.name, time(&program, &reference, &sheet.bytes, folder)?);
        }
        row("the empty sheet: the start of the process", time(&program, &reference, &[], folder)?);
    }
    println!();
    shifts::print_lengths();
    Ok(())
}

fn row(name: &str, [program, reference]: [f64; 2]) {
    println!("{name:<44}{program:>9.2}{reference:>11.2}{:>9.2}", program / reference);
}

/// The median times of the program and of the reference.
fn time(program: &Path, reference: &Path, bytes: &[u8], folder: &Path) -> io::Result<[f64; 2]> {
    let programs = [program, reference];
    let sheet = folder.join("sheet");
    let lines = ["of_program", "of_reference"].map(|name| folder.join(name));
    fs::write(&sheet, bytes)?;
    for which in 0..2 {
        run(programs[which], &sheet, &lines[which])?;
    }
    if fs::read(&lines[0])? != fs::read(&lines[1])? {
        return Err(io::Error::other("the two programs write different bytes"));
    }
    let mut times = [Vec::new(), Vec::new()];
    for repetition in 0..REPETITIONS {
        for turn in 0..2 {
            // Who goes first changes, so that neither gains by it.
            let which = (repetition + turn) % 2;
            times[which].push(run(programs[which], &sheet, &lines[which])?);
        }
    }
    Ok(times.map(median))
}

/// One run, in milliseconds.
fn run(program: &Path, sheet: &Path, lines: &Path) -> io::Result<f64> {
    let (sheet, lines) = (File::open(sheet)?, File::create(lines)?);
    let name = program.display();
    let begun = Instant::now();
    let status = Command::new(program)
        .stdin(Stdio::from(sheet))
        .stdout(Stdio::from(lines))
        .status()
        .map_err(|error| io::Error::other(format!("{name}: {error}")))?;
    let time = begun.elapsed().as_secs_f64() * 1000.0;
    match status.success() {
        true => Ok(time),
        false => Err(io::Error::other(format!("{name}: {status}"))),
    }
}

fn median(mut times: Vec<f64>) -> f64 {
    times.sort_by(f64::total_cmp);
    times[times.len() / 2]
}

//! The command line of a comparison:
//!
//!     NAME PROGRAM FOLDER [--seed N] [--count N]   many sheets
//!     NAME PROGRAM FOLDER --seed N --sheet N       one of them again
//!     NAME PROGRAM FOLDER --hex 'BYTES'            a sheet as it was printed
//!
//! PROGRAM is the name of the program to be tested; FOLDER contains the programs.

use crate::bytes::{from_hex, hex};
use crate::comparison::{Comparison, Tally};
use crate::folder::with_folder;
use crate::many::{compare_all, input_mode, Sheets};
use crate::program::{InputMode, Runner, INPUT_MODES};
use crate::shrink::shrink;
use std::path::{Path, PathBuf};
use std::process::ExitCode;
use std::time::Instant;
use std::{env, fs};

struct Options {
    program: String,
    folder: PathBuf,
    seed: u64,
    count: u64,
    sheet: Option<u64>,
    bytes: Option<Vec<u8>>,
}

pub fn run_comparison<C: Comparison>() -> ExitCode {
    let options = match options::<C>(env::args().skip(1)) {
        Ok(options) => options,
        Err(error) => {
            let (name, programs) = (C::NAME, C::PROGRAMS.join("|"));
            eprintln!("{name}: {error}");
            eprintln!(
                "usage: {name} {programs} FOLDER [--seed N] [--count N | --sheet N | --hex BYTES]"
            );
            return ExitCode::from(2);
        }
    };
    with_folder(|folder| compare::<C>(&options, folder))
}

fn options<C: Comparison>(mut arguments: impl Iterator<Item = String>) -> Result<Options, String> {
    let program = arguments.next().ok_or("a program is to be named")?;
    if !C::PROGRAMS.contains(&program.as_str()) {
        return Err(format!("{program} is not tested here"));
    }
    let folder = arguments.next().ok_or("the folder of the programs is to be named")?;
    let folder = fs::canonicalize(&folder).map_err(|error| format!("{folder}: {error}"))?;
    let mut options =
        Options { program, folder, seed: 1, count: C::SHEETS, sheet: None, bytes: None };
    while let Some(name) = arguments.next() {
        let value = arguments.next().ok_or(format!("{name}: a value is missing"))?;
        let number = || value.parse::<u64>().map_err(|error| format!("{name} {value}: {error}"));
        match name.as_str() {
            "--seed" => options.seed = number()?,
            "--count" => options.count = number()?,
            "--sheet" => options.sheet = Some(number()?),
            "--hex" => options.bytes = Some(from_hex(&value)?),
            _ => return Err(format!("no option {name}")),
        }
    }
    Ok(options)
}

fn compare<C: Comparison>(options: &Options, folder: &Path) -> ExitCode {
    let command = Command::<C>::new(options, folder);
    let all = Sheets::of(&command.comparison, options.seed);
    if let Some(sheet) = &options.bytes {
        command.compare_one(sheet, &INPUT_MODES)
    } else if let Some(number) = options.sheet {
        command.compare_one(&all.sheet(number), &[input_mode(number)])
    } else {
        command.compare_many(&all, options.count, folder)
    }
}

struct Command<C> {
    comparison: C,
    /// The name of the comparison, and of the program.
    name: String,
    /// The beginning of the same command line.
    line: String,
    runner: Runner,
}

impl<C: Comparison> Command<C> {
    fn new(options: &Options, folder: &Path) -> Self {
        let (name, program) = (C::NAME, &options.program);
        Command {
            comparison: C::new(program, &options.folder),
            name: format!("{name}: {program}"),
            line: format!("{name} {program} {}", options.folder.display()),
            runner: Runner::new(folder.to_path_buf()),
        }
    }

    fn compare_many(&self, all: &Sheets<C>, count: u64, folder: &Path) -> ExitCode {
        let begun = Instant::now();
        match compare_all(all, count, folder) {
            Ok(tally) => {
                println!("{tally}");
                println!("seed {}, {:.1} s", all.seed, begun.elapsed().as_secs_f64());
                self.judge(&tally, count)
            }
            Err(number) => {
                println!("sheet {number} of seed {} differs", all.seed);
                println!("again: {} --seed {} --sheet {number}", self.line, all.seed);
                self.explain_smallest(all.sheet(number), input_mode(number))
            }
        }
    }

    /// No sheet differed; but what never occurred was never compared.
    fn judge(&self, tally: &C::Tally, count: u64) -> ExitCode {
        let name = &self.name;
        let missing = tally.missing();
        missing.iter().for_each(|missing| println!("{missing}"));
        if missing.is_empty() {
            println!("{name}: {count} sheets, 0 differences");
            ExitCode::SUCCESS
        } else {
            println!("{name}: {count} sheets, 0 differences, {} never occurred", missing.len());
            ExitCode::FAILURE
        }
    }

    fn compare_one(&self, sheet: &[u8], modes: &[InputMode]) -> ExitCode {
        match modes.iter().find(|&&mode| !self.differences(sheet, mode).is_empty()) {
            Some(&mode) => self.explain_smallest(sheet.to_vec(), mode),
            None => {
                println!("{}: 1 sheet, 0 differences", self.name);
                ExitCode::SUCCESS
            }
        }
    }

    /// The smallest sheet that differs, how it does, and how to run it again.
    fn explain_smallest(&self, sheet: Vec<u8>, mode: InputMode) -> ExitCode {
        let sheet = shrink(sheet, |other| !self.differences(other, mode).is_empty());
        println!("smallest sheet found: {} bytes, {mode}", sheet.len());
        println!("  {}", if sheet.is_empty() { "(no bytes)".into() } else { hex(&sheet) });
        for difference in self.differences(&sheet, mode) {
            println!("  {difference}");
        }
        println!("replay: {} --hex '{}'", self.line, hex(&sheet));
        println!("{}: 1 difference", self.name);
        ExitCode::FAILURE
    }

    fn differences(&self, sheet: &[u8], mode: InputMode) -> Vec<String> {
        self.comparison.differences(sheet, mode, &self.runner, &mut self.comparison.tally())
    }
}

//! Runs the published sheets (tests/vectors) on programs and on the reference:
//!
//!     sheet_vectors PROGRAMS REFERENCES FILE...
//!
//! The program that the files call NAME is NAME in the folder PROGRAMS, and
//! NAME_reference in the folder REFERENCES. Each sheet must get its output from
//! both. Every sheet that does not is printed, with the first difference. Where
//! two files have the same sheet for a program, the later one holds.

mod case;
#[path = "../../../../compare/src/vector_bytes.rs"]
mod vector_bytes;

use case::{add_later, cases, Case};
use sheets::{with_folder, InputMode, Runner};
use std::path::PathBuf;
use std::process::ExitCode;
use std::{env, fs};

/// The folders of the programs and of the references.
struct Folders {
    programs: PathBuf,
    references: PathBuf,
}

fn main() -> ExitCode {
    let (folders, files) = match options(env::args().skip(1)) {
        Ok(options) => options,
        Err(error) => {
            eprintln!("sheet_vectors: {error}");
            eprintln!("usage: sheet_vectors PROGRAMS REFERENCES FILE...");
            return ExitCode::from(2);
        }
    };
    let mut faults = Vec::new();
    let cases = cases_in_force(&files, &mut faults);
    with_folder(|folder| {
        let runner = Runner::new(folder.to_path_buf());
        for case in &cases {
            let Case { place, program, .. } = case;
            let of_case = case_faults(case, &folders, &runner);
            faults.extend(of_case.iter().map(|fault| format!("{place}: {program}: {fault}")));
        }
    });
    let sheets = cases.len();
    faults.iter().for_each(|fault| println!("{fault}"));
    if faults.is_empty() {
        println!("sheet vectors: {sheets} sheets agree, program and reference");
        ExitCode::SUCCESS
    } else {
        println!("sheet vectors: {sheets} sheets, {} faults", faults.len());
        ExitCode::FAILURE
    }
}

fn options(mut arguments: impl Iterator<Item = String>) -> Result<(Folders, Vec<String>), String> {
    let mut folder = || {
        let path = arguments.next().ok_or("two folders are to be named")?;
        fs::canonicalize(&path).map_err(|error| format!("{path}: {error}"))
    };
    let folders = Folders { programs: folder()?, references: folder()? };
    let files: Vec<String> = arguments.collect();
    if files.is_empty() {
        return Err("no file is named".into());
    }
    Ok((folders, files))
}

/// The cases of all files, the later ones in place of the earlier.
fn cases_in_force(files: &[String], faults: &mut Vec<String>) -> Vec<Case> {
    let mut all = Vec::new();
    for file in files {
        let text = fs::read_to_string(file).map_err(|error| format!("{file}: {error}"));
        match text.and_then(|text| cases(file, &text)) {
            Ok(later) => add_later(&mut all, later),
            Err(fault) => faults.push(fault),
        }
    }
    all
}

/// Where the program or the reference differs from the case.
fn case_faults(case: &Case, folders: &Folders, runner: &Runner) -> Vec<String> {
    let of = |which: &str, program: PathBuf| {
        let printed = runner.run(&program, &case.sheet, InputMode::File);
        let fault = printed.map_or_else(Some, |printed| case.difference(&printed));
        fault.map(|fault| format!("{which}: {fault}"))
    };
    let program = of("program", folders.programs.join(&case.program));
    let reference = folders.references.join(format!("{}_reference", case.program));
    program.into_iter().chain(of("reference", reference)).collect()
}

//! Runs the published calls (tests/vectors) on the archive and on the reference:
//!
//!     vectors FILE...
//!
//! Each line must get its answer and leave its bytes on both. Every line that
//! does not is printed, with what was expected and what came.
//!
//! The name of a file says its job, as in job-05-calls.txt. The calls of a job before 6
//! are translated (former.rs); all of them can be.

#[allow(dead_code)]
#[path = "../call.rs"]
mod call;
#[path = "../former.rs"]
mod former;
#[path = "../vector_bytes.rs"]
mod vector_bytes;

use call::Call;
use reference::answer;
use std::path::Path;
use std::process::ExitCode;
use std::{env, fs};
use vector_bytes::bytes;

fn main() -> ExitCode {
    let files: Vec<String> = env::args().skip(1).collect();
    if files.is_empty() {
        eprintln!("usage: vectors FILE...");
        return ExitCode::from(2);
    }
    let (mut calls, mut translated, mut faults) = (0, 0, Vec::new());
    for file in &files {
        let of_file = layout(file).and_then(|layout| {
            let of_file = run_file(file, layout, &mut faults)?;
            translated += if layout == Layout::Former { of_file } else { 0 };
            Ok(of_file)
        });
        match of_file {
            Ok(of_file) => calls += of_file,
            Err(fault) => faults.push(format!("{file}: {fault}")),
        }
    }
    faults.iter().for_each(|fault| println!("{fault}"));
    if faults.is_empty() {
        println!(
            "vectors: {calls} calls agree, archive and reference; {translated} of them translated"
        );
        ExitCode::SUCCESS
    } else {
        println!("vectors: {calls} calls, {} faults", faults.len());
        ExitCode::FAILURE
    }
}

/// That of the calls and tables of a file.
#[derive(Clone, Copy, PartialEq, Eq)]
enum Layout {
    /// Without message numbers.
    Former,
    Current,
}

fn layout(file: &str) -> Result<Layout, String> {
    let name = Path::new(file).file_name().and_then(|name| name.to_str()).unwrap_or_default();
    let job = name.strip_prefix("job-").and_then(|rest| rest.get(..2)?.parse::<u8>().ok());
    match job {
        Some(1..=5) => Ok(Layout::Former),
        Some(_) => Ok(Layout::Current),
        None => Err("the name does not say the job".into()),
    }
}

/// How many calls a file has. None is an error.
fn run_file(file: &str, layout: Layout, faults: &mut Vec<String>) -> Result<usize, String> {
    let text = fs::read_to_string(file).map_err(|error| error.to_string())?;
    let mut calls = 0;
    for (number, line) in (1..).zip(text.lines()) {
        if line.is_empty() || line.starts_with('#') {
            continue;
        }
        calls += 1;
        let of_line = match Vector::of_line(line, layout) {
            Ok(vector) => vector.faults(),
            Err(fault) => vec![fault],
        };
        faults.extend(of_line.iter().map(|fault| format!("{file}:{number}: {fault}")));
    }
    match calls {
        0 => Err("no calls".into()),
        calls => Ok(calls),
    }
}

/// A call or a run, the tables it is lent, its answer, and the tables after it.
struct Vector {
    /// The call as the line has it.
    text: String,
    sent: Sent,
    tables: Vec<Vec<u8>>,
    answer: u32,
    after: Vec<Vec<u8>>,
}

enum Sent {
    Call(Call),
    /// It has no numbers; its tables are steps, replies and the board's.
    Run,
}

impl Sent {
    fn of_text(text: &str, layout: Layout) -> Result<Sent, String> {
        Ok(match (text, layout) {
            ("board_run", _) => Sent::Run,
            (_, Layout::Current) => Sent::Call(text.parse()?),
            (_, Layout::Former) => Sent::Call(former::call(text)?),
        })
    }

    /// The names of the tables.
    fn tables(&self) -> &'static [&'static str] {
        match self {
            Sent::Call(_) => &["table"],
            Sent::Run => &["steps", "replies", "table"],
        }
    }

    fn to_archive(&self, tables: &mut [Vec<u8>]) -> u32 {
        match (self, tables) {
            (Sent::Call(call), [table]) => call.to_archive(table),
            (Sent::Run, [steps, replies, table]) => archive::run(steps, replies, table),
            _ => unreachable!("as many tables as names"),
        }
    }

    fn to_reference(&self, tables: &mut [Vec<u8>]) -> u32 {
        match (self, tables) {
            (Sent::Call(call), [table]) => call.to_reference(table),
            (Sent::Run, [steps, replies, table]) => answer(reference::run(steps, replies, table)),
            _ => unreachable!("as many tables as names"),
        }
    }
}

impl Vector {
    /// Where the archive or the reference differs from the line.
    fn faults(&self) -> Vec<String> {
        let mut of_archive = self.tables.clone();
        let archive = self.sent.to_archive(&mut of_archive);
        let mut of_reference = self.tables.clone();
        let reference = self.sent.to_reference(&mut of_reference);
        let mut faults = self.differences("archive", archive, &of_archive);
        faults.extend(self.differences("reference", reference, &of_reference));
        faults
    }

    /// The answer, and the first byte of each table, that are not as expected.
    fn differences(&self, board: &str, answer: u32, tables: &[Vec<u8>]) -> Vec<String> {
        let call = &self.text;
        let mut faults = Vec::new();
        if answer != self.answer {
            let (expected, got) = (reply(self.answer), reply(answer));
            faults.push(format!("{call}: expected {expected}, {board} answered {got}"));
        }
        for (name, (after, table)) in self.sent.tables().iter().zip(self.after.iter().zip(tables)) {
            let mut bytes = after.iter().zip(table);
            if let Some(at) = bytes.position(|(expected, got)| expected != got) {
                let what = format!("{call}: byte {at} of the {name}");
                let (expected, got) = (after[at], table[at]);
                faults.push(format!("{what}: expected {expected:02x}, {board} left {got:02x}"));
            }
        }
        faults
    }
}

fn reply(answer: u32) -> String {
    format!("{} {}", answer >> 16, answer & 0xFFFF)
}

impl Vector {
    /// `board_swap 0 1 1 5 | 010001000100.00*36 | 0 0 | 0100010001000500.00*32.0100`
    fn of_line(line: &str, layout: Layout) -> Result<Vector, String> {
        let fields: Vec<&str> = line.split(" | ").collect();
        let [text, tables, answer, after] = fields[..] else {
            return Err(format!("{} fields, not 4", fields.len()));
        };
        let sent = Sent::of_text(text, layout)?;
        let text = text.to_string();
        let tables = tables.split(' ').map(bytes).collect::<Result<Vec<_>, _>>()?;
        let answer = numbers(answer)?;
        let after: Vec<&str> = after.split(' ').collect();
        if [tables.len(), after.len()] != [sent.tables().len(); 2] {
            return Err(format!("{text}: not the number of its tables"));
        }
        // `=` is a table that has not changed. A call cannot change its length.
        let after = tables.iter().zip(after).map(|(table, after)| match after {
            "=" => Ok(table.clone()),
            after => bytes(after),
        });
        let after = after.collect::<Result<Vec<_>, _>>()?;
        if tables.iter().map(Vec::len).ne(after.iter().map(Vec::len)) {
            return Err(format!("{text}: a table after the call has another length"));
        }
        Ok(match (layout, sent) {
            (Layout::Former, Sent::Call(call)) => {
                let is_accepted = answer >> 16 == 0;
                let after = former::after(call, is_accepted, &tables[0], &after[0]);
                let tables = vec![former::before(call, &tables[0])];
                Vector { text, sent: Sent::Call(call), tables, answer, after: vec![after] }
            }
            (_, sent) => Vector { text, sent, tables, answer, after },
        })
    }
}

/// The answer of a reply number and a session.
fn numbers(text: &str) -> Result<u32, String> {
    let number = |text: &str| text.parse::<u16>().map_err(|error| format!("{text}: {error}"));
    let (reply, session) = text.split_once(' ').ok_or(format!("{text}: not two numbers"))?;
    Ok(u32::from(number(reply)?) << 16 | u32::from(number(session)?))
}

//! A sheet program, run once on one sheet.

use std::fmt;
use std::fs::{self, File};
use std::io::{self, Write};
use std::path::{Path, PathBuf};
use std::process::{Child, ChildStdin, Command, Stdio};
use std::thread::{scope, sleep};
use std::time::{Duration, Instant};

/// Far more than any sheet needs.
const MAX_TIME: Duration = Duration::from_secs(10);

/// The lines of the longest sheet are less than a third of this.
const MAX_WRITTEN: u64 = 4 << 20;

/// Between the pieces of a sheet: by then the program waits for more.
const PAUSE: Duration = Duration::from_millis(3);

/// How a sheet is delivered on standard input.
#[derive(Clone, Copy, Debug, PartialEq, Eq)]
pub enum InputMode {
    File,
    Pipe,
    /// A pipe that delivers one half first and the rest after a pause.
    Pieces,
}

pub const INPUT_MODES: [InputMode; 3] = [InputMode::File, InputMode::Pipe, InputMode::Pieces];

impl fmt::Display for InputMode {
    fn fmt(&self, out: &mut fmt::Formatter) -> fmt::Result {
        out.write_str(match self {
            InputMode::File => "from a file",
            InputMode::Pipe => "by a pipe",
            InputMode::Pieces => "by a pipe, in two pieces",
        })
    }
}

/// What the program wrote, or how else it ended.
pub type Output = Result<Vec<u8>, String>;

/// Runs programs, one at a time: the files of a run are in its folder.
pub struct Runner {
    folder: PathBuf,
}

impl Runner {
    pub fn new(folder: PathBuf) -> Runner {
        fs::create_dir_all(&folder).expect("a folder for the sheets");
        Runner { folder }
    }

    pub fn run(&self, program: &Path, sheet: &[u8], mode: InputMode) -> Output {
        self.start_and_wait(program, sheet, mode)
            .unwrap_or_else(|error| Err(format!("cannot be run: {error}")))
    }

    /// The output goes to a file, so that the program never waits for a reader.
    fn start_and_wait(&self, program: &Path, sheet: &[u8], mode: InputMode) -> io::Result<Output> {
        let output = self.folder.join("output");
        let stdin = match mode {
            InputMode::File => Stdio::from(File::open(self.written(sheet)?)?),
            InputMode::Pipe | InputMode::Pieces => Stdio::piped(),
        };
        let mut child = Command::new(program)
            .stdin(stdin)
            .stdout(File::create(&output)?)
            .stderr(Stdio::null())
            .spawn()?;
        let ended = match child.stdin.take() {
            None => wait(&mut child, &output)?,
            // In a thread: a program that does not read must not block the wait.
            Some(pipe) => scope(|threads| {
                threads.spawn(|| feed(pipe, sheet, mode));
                wait(&mut child, &output)
            })?,
        };
        Ok(match ended {
            Ok(()) => Ok(fs::read(&output)?),
            Err(how) => Err(how),
        })
    }

    fn written(&self, sheet: &[u8]) -> io::Result<PathBuf> {
        let path = self.folder.join("sheet");
        fs::write(&path, sheet)?;
        Ok(path)
    }
}

/// A program need not read a sheet that is too long to its end, so it may close
/// the pipe early.
fn feed(mut pipe: ChildStdin, sheet: &[u8], mode: InputMode) {
    let first = if mode == InputMode::Pieces { sheet.len() / 2 } else { sheet.len() };
    let _ = pipe.write_all(&sheet[..first]);
    if first < sheet.len() {
        sleep(PAUSE);
        let _ = pipe.write_all(&sheet[first..]);
    }
}

/// Kills a program that does not end, or that writes without end.
fn wait(child: &mut Child, output: &Path) -> io::Result<Result<(), String>> {
    let begun = Instant::now();
    let mut pause = Duration::from_micros(200);
    loop {
        if let Some(status) = child.try_wait()? {
            return Ok(if status.success() { Ok(()) } else { Err(status.to_string()) });
        }
        if begun.elapsed() > MAX_TIME {
            end(child)?;
            return Ok(Err(format!("did not end within {} s", MAX_TIME.as_secs())));
        }
        if fs::metadata(output)?.len() > MAX_WRITTEN {
            end(child)?;
            return Ok(Err(format!("wrote more than {MAX_WRITTEN} bytes")));
        }
        sleep(pause);
        pause = (pause * 5 / 4).min(Duration::from_millis(2));
    }
}

fn end(child: &mut Child) -> io::Result<()> {
    child.kill()?;
    child.wait().map(drop)
}

//! A run of steps, and the tables that it is lent: steps, replies and the board's table.

use crate::call::{Call, Function, Room, FUNCTIONS};
use crate::case::{bytes, hex};
use crate::guarded::Guarded;
use reference::{answer, set_word, word};
use std::fmt;
use std::str::FromStr;

/// Code, message number, desk, screen, position, session.
pub type Step = [u16; 6];

pub const CODE: usize = 0;
pub const MESSAGE: usize = 1;
pub const DESK: usize = 2;
pub const SCREEN: usize = 3;
pub const POSITION: usize = 4;
pub const SESSION: usize = 5;

/// The words of a step that hold the numbers of a call, in their order.
fn words_of(function: Function) -> &'static [usize] {
    use Function::*;
    match function {
        Open => unreachable!("an opening is no step"),
        Take => &[DESK, SCREEN, POSITION],
        Drop => &[DESK, SCREEN],
        Swap => &[DESK, POSITION, SESSION],
        Retire | Collect => &[DESK],
    }
}

/// The call of a step; `None` if its code is not 1 to 5.
pub fn call_of(step: Step) -> Option<Call> {
    let function = FUNCTIONS.into_iter().find(|&of_all| of_all as u16 == step[CODE]);
    let function = function.filter(|function| function.is_step())?;
    let numbers: Vec<u16> = words_of(function).iter().map(|&at| step[at]).collect();
    Some(Call::new(Room::Hall, function, step[MESSAGE], &numbers))
}

/// The step of a call. The words that its code lacks are taken from `others`.
pub fn step_of(call: Call, others: Step) -> Step {
    let mut step = others;
    step[CODE] = call.function as u16;
    step[MESSAGE] = call.message;
    for (&number, &at) in call.numbers.iter().zip(words_of(call.function)) {
        step[at] = number;
    }
    step
}

#[derive(Clone, Debug, PartialEq, Eq)]
pub struct Run {
    /// The addresses of the steps, the replies and the table, modulo 8.
    pub aligns: [usize; 3],
    pub steps: Vec<Step>,
    /// The bytes after the last step, too few for another.
    pub rest: Vec<u8>,
    /// Before the run, as is the table.
    pub replies: Vec<u8>,
    pub table: Vec<u8>,
}

/// The answer to a run, and the tables that it left.
pub struct Sent {
    pub answer: u32,
    tables: [Guarded; 3],
}

impl Sent {
    /// The reply of a step, as an answer.
    pub fn reply(&mut self, step: usize) -> u32 {
        let replies = self.tables[1].table();
        u32::from(word(replies, 2 * step)) << 16 | u32::from(word(replies, 2 * step + 1))
    }
}

/// Where the archive's run differs first from what is expected.
#[derive(Debug)]
pub struct Difference {
    /// The reference, or the archive's single calls.
    pub expected_by: &'static str,
    pub expected: u32,
    pub archive: u32,
    /// The name of the table, and as in `case::Difference`.
    pub byte: Option<(&'static str, (isize, u8, u8))>,
}

impl Run {
    /// The bytes that are sent as steps.
    pub fn step_bytes(&self) -> Vec<u8> {
        let words = self.steps.iter().flatten();
        words.flat_map(|word| word.to_le_bytes()).chain(self.rest.iter().copied()).collect()
    }

    /// The reference's run, and where the archive's differs from it or from the archive's
    /// own single calls: in the answer, or in a byte of the three tables or their guards.
    pub fn compare(&self) -> (Sent, Option<Difference>) {
        let archive = self.sent(archive::run);
        let by_reference = |steps: &[u8], replies: &mut [u8], table: &mut [u8]| {
            answer(reference::run(steps, replies, table))
        };
        let reference = self.sent(by_reference);
        let singly = self.sent(|_, replies, table| self.singly(replies, table));
        let difference = difference("the reference", &reference, &archive)
            .or_else(|| difference("single calls", &singly, &archive));
        (reference, difference)
    }

    pub fn differs(&self) -> bool {
        self.compare().1.is_some()
    }

    fn sent(&self, run: impl FnOnce(&[u8], &mut [u8], &mut [u8]) -> u32) -> Sent {
        let [steps, replies, table] = self.aligns;
        let mut steps = Guarded::new(&self.step_bytes(), steps);
        let mut replies = Guarded::new(&self.replies, replies);
        let mut table = Guarded::new(&self.table, table);
        let answer = run(steps.table(), replies.table(), table.table());
        Sent { answer, tables: [steps, replies, table] }
    }

    /// The archive's calls, one after the other.
    fn singly(&self, replies: &mut [u8], table: &mut [u8]) -> u32 {
        if replies.len() / 4 < self.steps.len() {
            return 4 << 16;
        }
        // No hall has a desk 0: a sound table gives 6.
        if archive::HALL.collect(0, 0, table) == 5 << 16 {
            return 5 << 16;
        }
        for (at, &step) in self.steps.iter().enumerate() {
            let reply = call_of(step).map_or(17 << 16, |call| call.to_archive(table));
            set_word(replies, 2 * at, (reply >> 16) as u16);
            set_word(replies, 2 * at + 1, reply as u16);
        }
        0
    }
}

fn difference(expected_by: &'static str, expected: &Sent, archive: &Sent) -> Option<Difference> {
    let names = ["steps", "replies", "table"];
    let mut pairs = names.into_iter().zip(expected.tables.iter().zip(&archive.tables));
    let byte = pairs.find_map(|(name, (expected, archive))| {
        expected.first_difference(archive).map(|byte| (name, byte))
    });
    let differs = byte.is_some() || expected.answer != archive.answer;
    let (expected, archive) = (expected.answer, archive.answer);
    differs.then_some(Difference { expected_by, expected, archive, byte })
}

/// What the text of a run begins with.
pub const NAME: &str = "board_run";

/// `board_run 0 0 3 | 05 00*3 01 00*7 | EE*4 | 01 00 01 00 01 00 00*36`: the alignments,
/// and the steps, the replies and the table in hex with equal bytes counted.
impl fmt::Display for Run {
    fn fmt(&self, out: &mut fmt::Formatter) -> fmt::Result {
        let [steps, replies, table] = self.aligns;
        write!(out, "{NAME} {steps} {replies} {table}")?;
        for bytes in [&self.step_bytes(), &self.replies, &self.table] {
            write!(out, " |{}", hex(bytes))?;
        }
        Ok(())
    }
}

impl FromStr for Run {
    type Err = String;

    fn from_str(text: &str) -> Result<Run, String> {
        let parts: Vec<&str> = text.split('|').collect();
        let [aligns, steps, replies, table] = parts[..] else {
            return Err("a run is: board_run and alignments | steps | replies | table".into());
        };
        let numbers = aligns.trim().strip_prefix(NAME).unwrap_or_default().split_whitespace();
        let numbers: Result<Vec<usize>, _> = numbers.map(str::parse).collect();
        let numbers = numbers.map_err(|error| format!("{aligns}: {error}"))?;
        let aligns = numbers.try_into().map_err(|_| format!("{aligns}: not three alignments"))?;
        let steps = bytes(steps)?;
        let steps = steps.chunks_exact(12);
        Ok(Run {
            aligns,
            rest: steps.remainder().to_vec(),
            steps: steps.map(|step| std::array::from_fn(|at| word(step, at))).collect(),
            replies: bytes(replies)?,
            table: bytes(table)?,
        })
    }
}

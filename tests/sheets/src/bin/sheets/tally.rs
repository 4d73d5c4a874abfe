//! What was compared: the lines, by reply number and by what they answer, and
//! the offsets that they print.

use reference::sheet::{Format, Reader};
use reference::Limits;
use sheets::{width_of, Tally, WIDTHS};
use std::fmt;

const NUMBERS: usize = 23;

/// What a line answers, with the reply numbers that the documents give it. An
/// opening is never 4, because the program lends enough; no step is ever 5.
const COLUMNS: [(&str, &[usize]); 8] = [
    ("header", &[0, 1, 2, 3, 15, 16, 18, 19]),
    ("take", &[0, 6, 7, 8, 9, 10, 15, 16, 19]),
    ("drop", &[0, 6, 7, 11, 15, 16, 19]),
    ("swap", &[0, 6, 8, 12, 15, 16, 19]),
    ("retire", &[0, 6, 13, 14, 15, 16, 19]),
    ("collect", &[0, 6, 15, 16, 19]),
    ("no code", &[15, 16, 19]),
    ("bad code", &[17]),
];

/// The reply numbers that only edition 2 gives: to its header and to each step.
const OF_EDITION_2: [&[usize]; COLUMNS.len()] =
    [&[21], &[20], &[20], &[20], &[20], &[20], &[], &[]];

/// Those that only the training room gives. A session over its limit is 16.
const OF_TRAINING: [&[usize]; COLUMNS.len()] = [&[22], &[], &[], &[], &[], &[], &[], &[]];

const HEADER: usize = 0;
const SWAP: usize = 3;
const NO_CODE: usize = 6;
const BAD_CODE: usize = 7;

/// The reply numbers that print an offset.
const WITH_OFFSET: [usize; 3] = [15, 16, 19];

type Counts<const KINDS: usize> = [[u64; KINDS]; COLUMNS.len()];

pub struct Lines {
    format: Format,
    limits: Limits,
    lines: Counts<NUMBERS>,
    offsets: [Counts<{ WIDTHS.len() }>; WITH_OFFSET.len()],
    /// Swaps with 16 because of a number that the hall would have read.
    over_limit: u64,
}

impl Lines {
    pub fn new(format: Format, limits: Limits) -> Lines {
        let (lines, offsets) = Default::default();
        Lines { format, limits, lines, offsets, over_limit: 0 }
    }

    fn in_training(&self) -> bool {
        self.limits == Limits::TRAINING
    }

    /// The reply numbers that must occur in a column.
    fn required(&self, column: usize) -> impl Iterator<Item = usize> {
        let of_edition = if self.format.has_shorthand() { OF_EDITION_2[column] } else { &[] };
        let of_room = if self.in_training() { OF_TRAINING[column] } else { &[] };
        COLUMNS[column].1.iter().chain(of_edition).chain(of_room).copied()
    }

    /// Counts the lines of the reference for a sheet. Other output leaves a column
    /// empty, which is a failure.
    pub fn count(&mut self, sheet: &[u8], printed: &[u8]) {
        for line in printed.split(|&byte| byte == b'\n') {
            let words: Option<Vec<usize>> =
                line.split(|&byte| byte == b' ').map(plain_number).collect();
            if let Some([record, code, number @ ..NUMBERS, session]) = words.as_deref() {
                let column = column(*record, *code, *number);
                self.count_line(column, *number, *session);
                if (column, *number) == (SWAP, 16) {
                    let mut refused = Reader::new(&sheet[*session..], Format::Archive);
                    self.over_limit += u64::from(refused.number().is_ok());
                }
            }
        }
    }

    fn count_line(&mut self, column: usize, number: usize, session: usize) {
        self.lines[column][number] += 1;
        if let Some(at) = WITH_OFFSET.iter().position(|&with| with == number) {
            self.offsets[at][column][width_of(session)] += 1;
        }
    }
}

impl Tally for Lines {
    fn add(&mut self, other: &Lines) {
        add(&mut self.lines, &other.lines);
        for (offsets, of_other) in self.offsets.iter_mut().zip(&other.offsets) {
            add(offsets, of_other);
        }
        self.over_limit += other.over_limit;
    }

    /// The replies and offsets that a sheet can get, but that never occurred.
    fn missing(&self) -> Vec<String> {
        let mut missing = Vec::new();
        for (column, (name, _)) in COLUMNS.iter().enumerate() {
            let never = self.required(column).filter(|&number| self.lines[column][number] == 0);
            missing.extend(never.map(|number| format!("{name}: never {number}")));
            for (number, offsets) in WITH_OFFSET.iter().zip(&self.offsets) {
                let widths = required_widths(column, *number).iter();
                let never = widths.filter(|&&from| offsets[column][width_of(from)] == 0);
                missing.extend(
                    never.map(|from| format!("{name}: never {number} at an offset from {from}")),
                );
            }
        }
        if self.in_training() && self.over_limit == 0 {
            missing.push("swap: never a session over the room's limit".to_string());
        }
        missing
    }
}

fn add<const KINDS: usize>(counts: &mut Counts<KINDS>, others: &Counts<KINDS>) {
    let counts = counts.iter_mut().flatten();
    counts.zip(others.iter().flatten()).for_each(|(count, other)| *count += other);
}

fn plain_number(word: &[u8]) -> Option<usize> {
    std::str::from_utf8(word).ok()?.parse().ok()
}

fn column(record: usize, code: usize, number: usize) -> usize {
    match (record, code) {
        _ if number == 17 => BAD_CODE,
        (0, _) => HEADER,
        (_, 1..=5) => code,
        _ => NO_CODE,
    }
}

/// The widths of offset that must occur. A code that is missing is no fault, and
/// a number that is too large or padded has bytes: none starts where a sheet ends.
fn required_widths(column: usize, number: usize) -> &'static [usize] {
    match (column, number) {
        (BAD_CODE, _) => &[],
        (HEADER, _) => &[0, 1],
        (NO_CODE, _) | (_, 16 | 19) => &[1, 256, 32_768],
        _ => &[1, 256, 32_768, 65_536],
    }
}

impl fmt::Display for Lines {
    fn fmt(&self, out: &mut fmt::Formatter) -> fmt::Result {
        table(out, "reply", &(0..NUMBERS).collect::<Vec<_>>(), &self.lines)?;
        for (number, offsets) in WITH_OFFSET.iter().zip(&self.offsets) {
            writeln!(out)?;
            table(out, &format!("{number} at"), &WIDTHS, offsets)?;
        }
        write!(out, "\nsessions over the limit: {}", self.over_limit)
    }
}

/// A row for each kind, under the names of the columns.
fn table<const KINDS: usize>(
    out: &mut fmt::Formatter,
    head: &str,
    kinds: &[usize],
    counts: &Counts<KINDS>,
) -> fmt::Result {
    write!(out, "{head:<6}")?;
    COLUMNS.iter().try_for_each(|(name, _)| write!(out, "{name:>9}"))?;
    for (row, kind) in kinds.iter().enumerate() {
        write!(out, "\n{kind:<6}")?;
        for of_column in counts {
            match of_column[row] {
                0 => write!(out, "{:>9}", "-")?,
                lines => write!(out, "{lines:>9}")?,
            }
        }
    }
    Ok(())
}

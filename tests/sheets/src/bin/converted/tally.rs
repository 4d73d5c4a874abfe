//! What was compared: the sheets, by the number that refuses them and its offset,
//! and how long the outputs are.

use reference::sheet::{Columns, Conversion, Format, MAX_BYTES};
use sheets::{width_of, Tally, WIDTHS};
use std::fmt;

const ACCEPTED: u32 = 0;

/// Accepted, and the numbers that refuse a sheet, with the offsets that must
/// occur. Only 15, 16 and 19 have one.
const OUTCOMES: [(u32, &[usize]); 11] = [
    (ACCEPTED, &[0]),
    (1, &[0]),
    (2, &[0]),
    (3, &[0]),
    (15, &WIDTHS),
    (16, &[0, 1, 256, 32_768]),
    (17, &[0]),
    (18, &[0]),
    (19, &[0, 1, 256, 32_768]),
    (20, &[0]),
    (21, &[0]),
];

/// Far fewer would mean that most sheets come out as they were.
const LEAST_CHANGED: u64 = 800;

pub struct Outcomes {
    conversion: Conversion,
    counts: [[u64; WIDTHS.len()]; OUTCOMES.len()],
    /// Accepted, and P, c, L and the records have another length than before.
    changed: u64,
    /// As long as a sheet can be.
    longest: u64,
    /// Refused because the output is too long, not the sheet.
    too_long: u64,
}

impl Outcomes {
    pub fn new(conversion: Conversion) -> Outcomes {
        Outcomes { conversion, counts: Default::default(), changed: 0, longest: 0, too_long: 0 }
    }

    pub fn count(&mut self, sheet: &[u8], outcome: &Result<Vec<u8>, Columns>) {
        let (number, offset) = match outcome {
            Ok(_) => (ACCEPTED, 0),
            Err(refused) => (refused.number, refused.session as usize),
        };
        let row = OUTCOMES.iter().position(|&(of_row, _)| of_row == number);
        self.counts[row.expect("a number that refuses a sheet")][width_of(offset)] += 1;
        let Conversion { from, to } = self.conversion;
        let from_p = |sheet: &[u8], format: Format| sheet.len() - format.first_numbers().len();
        let is_changed = |output: &Vec<u8>| from_p(sheet, from) != from_p(output, to);
        self.changed += u64::from(outcome.as_ref().is_ok_and(is_changed));
        self.longest += u64::from(outcome.as_ref().is_ok_and(|output| output.len() == MAX_BYTES));
        self.too_long += u64::from(number == 18 && sheet.len() <= MAX_BYTES);
    }

    /// Whether a sheet can be refused with this number.
    fn can_refuse(&self, number: u32) -> bool {
        match number {
            19 => !self.conversion.from.allows_padding(),
            20 | 21 => self.conversion.from.has_shorthand(),
            _ => true,
        }
    }
}

impl Tally for Outcomes {
    fn add(&mut self, other: &Outcomes) {
        self.changed += other.changed;
        self.longest += other.longest;
        self.too_long += other.too_long;
        let counts = self.counts.iter_mut().flatten();
        counts.zip(other.counts.iter().flatten()).for_each(|(count, other)| *count += other);
    }

    fn missing(&self) -> Vec<String> {
        let mut missing = Vec::new();
        for ((number, offsets), counts) in OUTCOMES.iter().zip(&self.counts) {
            if self.can_refuse(*number) {
                let unseen = offsets.iter().filter(|&&from| counts[width_of(from)] == 0);
                missing.extend(unseen.map(|&from| never(*number, from)));
            }
        }
        if self.changed < LEAST_CHANGED {
            missing.push(format!("only {} sheets changed their length", self.changed));
        }
        if self.longest == 0 {
            missing.push(format!("no output of {MAX_BYTES} bytes"));
        }
        // A sheet of the archive does not become longer.
        if self.too_long == 0 && self.conversion != Conversion::SHORTEN {
            missing.push("no output was too long".to_string());
        }
        missing
    }
}

fn never(number: u32, from: usize) -> String {
    match number {
        ACCEPTED => "no sheet was accepted".to_string(),
        15 | 16 | 19 => format!("never {number} at an offset from {from}"),
        _ => format!("never {number}"),
    }
}

impl fmt::Display for Outcomes {
    fn fmt(&self, out: &mut fmt::Formatter) -> fmt::Result {
        write!(out, "{:<10}", "reply at")?;
        WIDTHS.iter().try_for_each(|from| write!(out, "{from:>8}"))?;
        for ((number, _), counts) in OUTCOMES.iter().zip(&self.counts) {
            write!(out, "\n{number:<10}")?;
            for &count in counts {
                match count {
                    0 => write!(out, "{:>8}", "-")?,
                    sheets => write!(out, "{sheets:>8}")?,
                }
            }
        }
        write!(out, "\nchanged   {:>8}", self.changed)?;
        write!(out, "\nlongest   {:>8}", self.longest)?;
        write!(out, "\ntoo long  {:>8}", self.too_long)
    }
}

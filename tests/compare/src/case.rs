//! A case: a table and the calls made on it, one after the other.

use crate::beside::Beside;
use crate::call::{Call, Room};
use crate::guarded::Guarded;
use crate::ring::Found;
use std::fmt;
use std::str::FromStr;

#[derive(Clone, Debug, PartialEq, Eq)]
pub struct Case {
    /// The address of the table, modulo 8.
    pub align: usize,
    pub table: Vec<u8>,
    pub calls: Vec<Call>,
}

/// A call that was compared.
pub struct Compared {
    pub call: Call,
    /// It is a swap to what stood at its position.
    pub repeats: bool,
    /// It is a step, and its table was sound in the hall but too large for its room.
    pub found_too_large: bool,
    /// The message number that was due, if its table had its desk.
    pub due_message: Option<u16>,
    /// It was refused with 23, and its number was due from another desk.
    pub of_another_desk: bool,
    /// In the table of a ring.
    pub found: Found,
    /// The first board got it too, beside the ring.
    pub beside: bool,
    /// That of the reference.
    pub answer: u32,
}

impl Compared {
    /// Makes the call to the reference.
    pub fn of_call(call: Call, table: &mut [u8]) -> Compared {
        let repeats = call.repeats(table);
        let found_too_large = call.finds_too_large(table);
        let due_message = call.due_message(table);
        let found = Found::by(call, table);
        let answer = call.to_reference(table);
        let of_another_desk = answer >> 16 == 23 && call.has_message_of_a_desk(table);
        Compared {
            call,
            repeats,
            found_too_large,
            due_message,
            of_another_desk,
            found,
            beside: false,
            answer,
        }
    }

    pub fn number(&self) -> u16 {
        (self.answer >> 16) as u16
    }

    pub fn session(&self) -> u16 {
        self.answer as u16
    }
}

/// Where the archive differs first from the reference, or its ring from its first board.
#[derive(Debug)]
pub struct Difference {
    /// Calls before the one that differs.
    pub call: usize,
    /// The reference, or the first board with what is wrong beside it.
    pub expected_by: &'static str,
    pub expected: u32,
    pub archive: u32,
    /// The first byte that differs, counted from the table's start (negative
    /// before it), with the reference's and the archive's.
    pub byte: Option<(isize, u8, u8)>,
}

impl Case {
    /// Makes every call on both boards until they differ in the answer or in
    /// any byte of the table or its guards. `seen` gets each call compared. Beside a
    /// sound ring the archive's first board gets the calls too.
    pub fn run(&self, mut seen: impl FnMut(Compared)) -> Option<Difference> {
        let mut of_reference = Guarded::new(&self.table, self.align);
        let mut of_archive = Guarded::new(&self.table, self.align);
        let mut beside = None;
        for (index, &call) in self.calls.iter().enumerate() {
            if beside.is_none() && call.room == Room::Ring {
                beside = Beside::of_ring(of_archive.table());
            }
            let mut compared = Compared::of_call(call, of_reference.table());
            let answer = compared.answer;
            let archive = call.to_archive(of_archive.table());
            let difference = |expected_by, expected, byte| {
                Some(Difference { call: index, expected_by, expected, archive, byte })
            };
            if answer != archive || of_reference.bytes() != of_archive.bytes() {
                seen(compared);
                let byte = of_reference.first_difference(&of_archive);
                return difference("reference", answer, byte);
            }
            let fault;
            (beside, fault) = Beside::after(beside, call, archive, of_archive.table());
            compared.beside = beside.is_some();
            seen(compared);
            if let Some(fault) = fault {
                return difference(fault.what, fault.first, None);
            }
        }
        None
    }

    pub fn differs(&self) -> bool {
        self.run(|_| ()).is_some()
    }
}

/// `0 | 01 00 01 00 01 00 00*36 | board_swap 0 1 1 5; training_collect 1 1`: the alignment,
/// the table in hex with equal bytes counted, the calls.
impl fmt::Display for Case {
    fn fmt(&self, out: &mut fmt::Formatter) -> fmt::Result {
        let calls: Vec<String> = self.calls.iter().map(Call::to_string).collect();
        write!(out, "{} |{} | {}", self.align, hex(&self.table), calls.join("; "))
    }
}

pub fn hex(bytes: &[u8]) -> String {
    let alike = bytes.chunk_by(|a, b| a == b);
    let text = alike.map(|alike| match alike.len() {
        1 => format!(" {:02X}", alike[0]),
        2 => format!(" {0:02X} {0:02X}", alike[0]),
        length => format!(" {:02X}*{length}", alike[0]),
    });
    text.collect()
}

pub fn bytes(hex: &str) -> Result<Vec<u8>, String> {
    let mut bytes = Vec::new();
    for part in hex.split_whitespace() {
        let (byte, times) = part.split_once('*').unwrap_or((part, "1"));
        let byte = u8::from_str_radix(byte, 16).map_err(|error| format!("{part}: {error}"))?;
        let times: usize = times.parse().map_err(|error| format!("{part}: {error}"))?;
        bytes.extend(vec![byte; times]);
    }
    Ok(bytes)
}

impl FromStr for Case {
    type Err = String;

    fn from_str(text: &str) -> Result<Case, String> {
        let parts: Vec<&str> = text.split('|').collect();
        let [align, table, calls] = parts[..] else {
            return Err("a case is: alignment | table | calls".into());
        };
        let align = align.trim().parse().map_err(|error| format!("{align}: {error}"))?;
        let calls: Result<Vec<Call>, String> = calls.split(';').map(str::parse).collect();
        Ok(Case { align, table: bytes(table)?, calls: calls? })
    }
}

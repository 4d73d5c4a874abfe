//! The printed lines: numbers in decimal, one space between.

use super::super::{Refusal, Reply};
use super::number::Fault;
use super::tally::Tally;

/// What a line says of its record: reply number and session. Where a number
/// is refused, its offset stands in place of the session; that can be 65,536,
/// which is more than a session can be.
#[derive(Clone, Copy, Debug, PartialEq, Eq)]
pub struct Columns {
    pub number: u32,
    pub session: u32,
}

impl From<Reply> for Columns {
    fn from(reply: Reply) -> Columns {
        match reply {
            Ok(session) => Columns { number: 0, session: u32::from(session) },
            Err(refusal) => refusal.into(),
        }
    }
}

impl From<Refusal> for Columns {
    fn from(refusal: Refusal) -> Columns {
        Columns { number: refusal as u32, session: 0 }
    }
}

impl From<Fault> for Columns {
    fn from(fault: Fault) -> Columns {
        let (number, offset) = match fault {
            Fault::SheetShort { offset } => (15, offset),
            Fault::BadNumber { offset } => (16, offset),
            Fault::BadCode => (17, 0),
            Fault::SheetLong => (18, 0),
            Fault::Padded { offset } => (19, offset),
            Fault::BadShorthand => (20, 0),
            Fault::BadEdition => (21, 0),
        };
        Columns { number, session: offset as u32 }
    }
}

/// Record number, step code, reply number, session.
pub fn print_line(text: &mut Vec<u8>, record: u32, code: u16, columns: Columns) {
    print(text, record, b' ');
    print(text, u32::from(code), b' ');
    print_columns(text, columns);
}

/// Reply number, session.
pub fn print_columns(text: &mut Vec<u8>, columns: Columns) {
    print(text, columns.number, b' ');
    print(text, columns.session, b'\n');
}

/// The last line, always.
pub fn print_end(text: &mut Vec<u8>, tally: &Tally) {
    text.extend(b"end ");
    print(text, tally.accepted, b' ');
    print(text, tally.refused, b' ');
    print(text, tally.handed_back, b'\n');
}

/// A number and what follows it. A sheet's lines may have 260,000 of them, so
/// this does not use the library's formatting.
fn print(text: &mut Vec<u8>, number: u32, then: u8) {
    let mut digits = [0; 11];
    let mut at = digits.len() - 1;
    digits[at] = then;
    let mut rest = number;
    loop {
        at -= 1;
        digits[at] = b'0' + (rest % 10) as u8;
        rest /= 10;
        if rest == 0 {
            break;
        }
    }
    text.extend(&digits[at..]);
}

#[cfg(test)]
mod tests {
    use super::print;

    #[test]
    fn numbers_of_every_length() {
        for number in [0, 9, 10, 99, 100, 65_535, 100_000, u32::MAX] {
            let mut text = Vec::new();
            print(&mut text, number, b'\n');
            assert_eq!(text, format!("{number}\n").into_bytes());
        }
    }
}

//! Calls as they were before job 6: without a message number, on tables whose records
//! have no word for it.
//!
//! Such a call is made with the number 0, on a table with one word more behind each
//! record: the desk's next message number, 0 too, which an accepted step moves on to 1.
//! Nothing else of the call, its table or its answer changes. A table that is too short
//! for its hall gets as many words more, so that it is as much too short.

use crate::call::{hall_of, Call, Function};
use reference::{Hall, Limits};

/// What an opening finds in place of the numbers: it must write 0.
const OLD: u16 = 0xA5A5;

/// The call of this text, with its message number.
pub fn call(text: &str) -> Result<Call, String> {
    match text.split_once(' ') {
        Some((name, numbers)) if !name.ends_with("_open") => format!("{name} 0 {numbers}").parse(),
        _ => text.parse(),
    }
}

/// The table before a call, in the layout with message numbers.
pub fn before(call: Call, table: &[u8]) -> Vec<u8> {
    let next = if call.function.is_step() { 0 } else { OLD };
    with_messages(call, table, table, |_| next)
}

/// The table after a call, which got the table `before`.
pub fn after(call: Call, is_accepted: bool, before: &[u8], table: &[u8]) -> Vec<u8> {
    let [desk, ..] = call.numbers;
    with_messages(call, before, table, |of_desk| match call.function {
        Function::Open if is_accepted => 0,
        Function::Open => OLD,
        _ => u16::from(is_accepted && of_desk == desk),
    })
}

/// The table with a word more behind each record of the hall: that of the opening, or
/// the one that the table has at first. Without a hall every call is refused, whatever
/// the rest of the table is.
fn with_messages(call: Call, at_first: &[u8], table: &[u8], next: impl Fn(u16) -> u16) -> Vec<u8> {
    let [desks, screens, positions] = call.numbers;
    let hall = match call.function {
        Function::Open => Hall::new(Limits::HALL, desks, screens, positions).ok(),
        _ => hall_of(at_first),
    };
    let Some(hall) = hall else { return table.to_vec() };
    let (first, length) = (hall.record(1).start, hall.record(1).len() - 1);
    let (mut longer, mut copied) = (Vec::new(), 0);
    for desk in 1..=hall.desks {
        let end = 2 * (table.len() / 2).min(first + usize::from(desk) * length);
        longer.extend(&table[copied..end]);
        longer.extend(next(desk).to_le_bytes());
        copied = end;
    }
    longer.extend(&table[copied..]);
    longer
}

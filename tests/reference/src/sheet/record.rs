//! A record: the code of a step, and the fields that follow it.

use super::super::{collect, drop, next_message, retire, swap, take, Limits, Reply};
use super::number::{write_number, Fault, Reader};
use super::Format;

pub const TAKE: u16 = 1;
pub const DROP: u16 = 2;
pub const SWAP: u16 = 3;
pub const RETIRE: u16 = 4;
pub const COLLECT: u16 = 5;

/// From the code of a step to its shorthand code, which leaves the desk out.
const TO_SHORTHAND: u16 = 8;
const FIRST_SHORTHAND: u16 = TAKE + TO_SHORTHAND;
const LAST_SHORTHAND: u16 = COLLECT + TO_SHORTHAND;

/// Desk, screen, position, session; those that a code does not have are 0.
pub type Fields = [u16; 4];

/// The place of the desk.
pub const DESK: usize = 0;

/// Which of desk, screen, position and session follow each code.
const FOLLOWS: [[bool; 4]; 5] = [
    [true, true, true, false],
    [true, true, false, false],
    [true, false, true, true],
    [true, false, false, false],
    [true, false, false, false],
];

/// The code of a record.
#[derive(Clone, Copy)]
pub struct Code {
    /// 1 to 5: the code of the step, also where the desk is left out.
    pub step: u16,
    pub is_shorthand: bool,
}

impl Code {
    /// Asks 17.
    pub fn of_number(number: u16, format: Format) -> Result<Code, Fault> {
        match number {
            TAKE..=COLLECT => Ok(Code { step: number, is_shorthand: false }),
            FIRST_SHORTHAND..=LAST_SHORTHAND if format.has_shorthand() => {
                Ok(Code { step: number - TO_SHORTHAND, is_shorthand: true })
            }
            _ => Err(Fault::BadCode),
        }
    }

    fn number(self) -> u16 {
        if self.is_shorthand {
            self.step + TO_SHORTHAND
        } else {
            self.step
        }
    }

    fn follows(self) -> [bool; 4] {
        let mut follows = FOLLOWS[usize::from(self.step - TAKE)];
        follows[DESK] &= !self.is_shorthand;
        follows
    }
}

/// Asks 20 once all fields are read. Document 01, for Job 5: "Only a session is
/// read against 999; other numbers keep 65,535."
pub fn read_fields(
    code: Code,
    desk_before: Option<u16>,
    limits: Limits,
    reader: &mut Reader,
) -> Result<Fields, Fault> {
    let largest = [u16::MAX, u16::MAX, u16::MAX, limits.sessions];
    let mut fields = [0; 4];
    for ((field, follows), most) in fields.iter_mut().zip(code.follows()).zip(largest) {
        if follows {
            *field = reader.number_up_to(most)?;
        }
    }
    if code.is_shorthand {
        fields[DESK] = desk_before.ok_or(Fault::BadShorthand)?;
    } else if leaves_desk_out(reader.format(), fields[DESK], desk_before) {
        return Err(Fault::BadShorthand);
    }
    Ok(fields)
}

/// A record of this desk has a shorthand code: the record before has the same desk.
fn leaves_desk_out(format: Format, desk: u16, desk_before: Option<u16>) -> bool {
    format.has_shorthand() && desk_before == Some(desk)
}

/// Appends a record. Precondition: the step's code is 1 to 5.
pub fn write_record(
    sheet: &mut Vec<u8>,
    format: Format,
    step: u16,
    desk_before: Option<u16>,
    fields: Fields,
) {
    let code = Code { step, is_shorthand: leaves_desk_out(format, fields[DESK], desk_before) };
    write_number(sheet, code.number());
    for (field, follows) in fields.into_iter().zip(code.follows()) {
        if follows {
            write_number(sheet, field);
        }
    }
}

/// Does the step on the board, with the desk's next message number; a desk that the
/// hall does not have is refused with 6, whatever the number. Precondition: the code
/// is 1 to 5.
pub fn step(
    limits: Limits,
    code: u16,
    [desk, screen, position, session]: Fields,
    table: &mut [u8],
) -> Reply {
    let message = next_message(limits.list, table, desk).unwrap_or(0);
    match code {
        TAKE => take(limits, message, desk, screen, position, table),
        DROP => drop(limits, message, desk, screen, table),
        SWAP => swap(limits, message, desk, position, session, table),
        RETIRE => retire(limits, message, desk, table),
        _ => collect(limits, message, desk, table),
    }
}

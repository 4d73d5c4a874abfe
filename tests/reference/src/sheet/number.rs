//! Numbers: groups of seven bits, lowest first; the top bit of a byte says
//! that another follows.

use super::Format;

/// What ends the reading of a sheet. A number that is refused has the offset
/// of its first byte, counted from 0 at the start of the sheet.
#[derive(Clone, Copy, Debug, PartialEq, Eq)]
pub enum Fault {
    /// 15
    SheetShort { offset: usize },
    /// 16
    BadNumber { offset: usize },
    /// 17
    BadCode,
    /// 18
    SheetLong,
    /// 19
    Padded { offset: usize },
    /// 20: a shorthand code in the first record, or a desk that is written out
    /// though it is that of the record before.
    BadShorthand,
    /// 21: a first number other than 0, or an edition other than 2.
    BadEdition,
}

const MAX_GROUPS: u32 = 3;

pub struct Reader<'a> {
    sheet: &'a [u8],
    format: Format,
    /// The byte to be read next.
    next: usize,
}

impl<'a> Reader<'a> {
    pub fn new(sheet: &'a [u8], format: Format) -> Self {
        Reader { sheet, format, next: 0 }
    }

    pub fn format(&self) -> Format {
        self.format
    }

    pub fn at_end(&self) -> bool {
        self.next == self.sheet.len()
    }

    /// A number up to 65,535.
    pub fn number(&mut self) -> Result<u16, Fault> {
        self.number_up_to(u16::MAX)
    }

    /// A number up to the limit of the caller. Asks 15 and 16, then 19.
    pub fn number_up_to(&mut self, most: u16) -> Result<u16, Fault> {
        let offset = self.next;
        let mut number = 0;
        for group in 0..MAX_GROUPS {
            let byte = self.byte().ok_or(Fault::SheetShort { offset })?;
            number |= u32::from(byte & 0x7F) << (7 * group);
            if byte & 0x80 == 0 {
                if number > u32::from(most) {
                    return Err(Fault::BadNumber { offset });
                }
                let is_padded = byte == 0 && group > 0;
                if is_padded && !self.format.allows_padding() {
                    return Err(Fault::Padded { offset });
                }
                return Ok(number as u16);
            }
        }
        Err(Fault::BadNumber { offset })
    }

    fn byte(&mut self) -> Option<u8> {
        let byte = *self.sheet.get(self.next)?;
        self.next += 1;
        Some(byte)
    }
}

/// Appends a number in its shortest form.
pub fn write_number(sheet: &mut Vec<u8>, number: u16) {
    let mut rest = number;
    while rest > 0x7F {
        sheet.push(rest as u8 | 0x80);
        rest >>= 7;
    }
    sheet.push(rest as u8);
}

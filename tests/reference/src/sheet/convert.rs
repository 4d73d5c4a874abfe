//! A sheet in another format: the archive's in shortest form, and each edition in
//! the other.
//!
//! Document 02, Job 3: "Old sheets in the archive are kept, and a small program
//! rewrites each in shortest form, with the same meaning record by record,
//! refusing what the old reader refused. A refused sheet .. gives only a line:
//! the number, a space, its offset or 0." Job 4: "Converting refuses what ends a
//! reading, and an output over 65,536 bytes is 18." These sheets are the hall's.

use super::super::{Hall, Limits};
use super::line::{print_columns, Columns};
use super::number::{write_number, Fault};
use super::record::{read_fields, write_record, Code, DESK};
use super::{begin, read_header, Format, MAX_BYTES};

/// What is read, and what is written.
#[derive(Clone, Copy, Debug, PartialEq, Eq)]
pub struct Conversion {
    pub from: Format,
    pub to: Format,
}

impl Conversion {
    pub const SHORTEN: Conversion = Conversion { from: Format::Archive, to: Format::Edition1 };
    pub const TO_EDITION_2: Conversion =
        Conversion { from: Format::Edition1, to: Format::Edition2 };
    pub const TO_EDITION_1: Conversion =
        Conversion { from: Format::Edition2, to: Format::Edition1 };

    /// The sheet in the other format, or the line of its refusal.
    pub fn output(self, sheet: &[u8]) -> Vec<u8> {
        self.convert(sheet).unwrap_or_else(|refused| {
            let mut line = Vec::new();
            print_columns(&mut line, refused);
            line
        })
    }

    /// The sheet in the other format. The error is the number that ends its
    /// reading, or 18 for an output that is too long, with the offset or 0.
    pub fn convert(self, sheet: &[u8]) -> Result<Vec<u8>, Columns> {
        let mut reader = begin(sheet, self.from)?;
        let header = read_header(&mut reader)?;
        let [desks, screens, positions] = header;
        Hall::new(Limits::HALL, desks, screens, positions)?;
        let mut converted = Vec::with_capacity(sheet.len());
        let numbers = self.to.first_numbers().iter().copied().chain(header);
        numbers.for_each(|number| write_number(&mut converted, number));
        let mut desk_before = None;
        while !reader.at_end() {
            let code = Code::of_number(reader.number()?, self.from)?;
            let fields = read_fields(code, desk_before, Limits::HALL, &mut reader)?;
            write_record(&mut converted, self.to, code.step, desk_before, fields);
            desk_before = Some(fields[DESK]);
        }
        if converted.len() > MAX_BYTES {
            return Err(Fault::SheetLong.into());
        }
        Ok(converted)
    }
}

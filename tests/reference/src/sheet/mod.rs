//! The day sheet, from documents 01 and 02 alone: a hall, then one record per
//! step, each run as soon as it is read; and the printed lines.
//!
//! Document 02, Job 2: "When a number gives 15 or 16, the number reader's reply
//! must carry the offset of that number's first byte, and the session column
//! prints it". Job 3: "19 for a padded number, asked after 15 and 16, with its
//! offset as in Job 2". Job 4: "20 for a shorthand code in the first record or a
//! desk written out though unchanged, 21 for a first number other than 0 or an
//! edition other than 2, each straight after that number is read; 17 for codes
//! outside both ranges; 20 after the record's fields." Job 5: "16 for a session over
//! the caller's limit in a sheet"; so only the opening of a sheet can get 22. Job 6:
//! "The sheet program fills in the right number itself"; so no step of a sheet can get
//! 23.

mod convert;
mod format;
mod line;
mod number;
mod program;
mod record;
mod tally;

pub use self::convert::Conversion;
pub use self::format::Format;
pub use self::line::Columns;
pub use self::number::{Fault, Reader};
pub use self::program::run_program;
pub use self::tally::Tally;

use self::line::{print_end, print_line};
use self::record::{read_fields, step, Code, DESK};
use super::{open, Limits};

/// The longest sheet that is read.
pub const MAX_BYTES: usize = 65_536;

/// The largest hall's need, 2,403 words: no opening of a sheet is refused
/// with 4, and no step after it with 5.
const TABLE_BYTES: usize = 2 * 2403;

/// All lines of a sheet, the last one included, in a room of these limits.
pub fn printed(sheet: &[u8], format: Format, limits: Limits) -> Vec<u8> {
    let mut run = Run::new(limits);
    if let Err(Stop { code, columns }) = run.whole(sheet, format) {
        run.line(code, columns);
    }
    print_end(&mut run.text, &run.tally);
    run.text
}

/// A reader at the start of a sheet that is not too long.
fn begin(sheet: &[u8], format: Format) -> Result<Reader<'_>, Fault> {
    if sheet.len() > MAX_BYTES {
        return Err(Fault::SheetLong);
    }
    Ok(Reader::new(sheet, format))
}

/// P, c and L. Asks 21 of each number before them, straight after it is read.
fn read_header(reader: &mut Reader) -> Result<[u16; 3], Fault> {
    for &expected in reader.format().first_numbers() {
        if reader.number()? != expected {
            return Err(Fault::BadEdition);
        }
    }
    Ok([reader.number()?, reader.number()?, reader.number()?])
}

/// The line that ends a reading before the end of the sheet. The code is that
/// of the current record, 0 if it was not read.
struct Stop {
    code: u16,
    columns: Columns,
}

/// The stop for a fault of the sheet, or for a refusal of the board.
fn stop_at<Reason: Into<Columns>>(code: u16) -> impl Fn(Reason) -> Stop {
    move |reason| Stop { code, columns: reason.into() }
}

/// The state of reading a sheet.
struct Run {
    limits: Limits,
    table: [u8; TABLE_BYTES],
    /// The current record; the header is record 0.
    record: u32,
    /// That of the record before, whether the board accepted it or not.
    desk_before: Option<u16>,
    tally: Tally,
    text: Vec<u8>,
}

impl Run {
    fn new(limits: Limits) -> Run {
        Run {
            limits,
            table: [0; TABLE_BYTES],
            record: 0,
            desk_before: None,
            tally: Tally::default(),
            text: Vec::new(),
        }
    }

    fn whole(&mut self, sheet: &[u8], format: Format) -> Result<(), Stop> {
        let mut reader = begin(sheet, format).map_err(stop_at(0))?;
        self.header(&mut reader)?;
        while !reader.at_end() {
            self.record += 1;
            self.one_record(&mut reader)?;
        }
        Ok(())
    }

    /// All three numbers are read before the opening asks its questions.
    fn header(&mut self, reader: &mut Reader) -> Result<(), Stop> {
        let [desks, screens, positions] = read_header(reader).map_err(stop_at(0))?;
        let reply = open(self.limits, desks, screens, positions, &mut self.table);
        reply.map_err(stop_at(0))?;
        self.line(0, reply.into());
        Ok(())
    }

    /// The code is asked before its fields are read, and all fields are read
    /// before the step asks its questions. A shorthand code prints as the code
    /// that it stands for.
    fn one_record(&mut self, reader: &mut Reader) -> Result<(), Stop> {
        let number = reader.number().map_err(stop_at(0))?;
        let code = Code::of_number(number, reader.format()).map_err(stop_at(number))?;
        let fields =
            read_fields(code, self.desk_before, self.limits, reader).map_err(stop_at(code.step))?;
        self.desk_before = Some(fields[DESK]);
        let reply = step(self.limits, code.step, fields, &mut self.table);
        self.tally.count(code.step, reply);
        self.line(code.step, reply.into());
        Ok(())
    }

    fn line(&mut self, code: u16, columns: Columns) {
        print_line(&mut self.text, self.record, code, columns);
    }
}

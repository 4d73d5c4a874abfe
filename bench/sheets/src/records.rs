//! The records of a sheet, in each edition.

#[derive(Clone, Copy, PartialEq, Eq)]
pub enum Edition {
    One,
    Two,
}

impl Edition {
    /// The bytes before P.
    pub fn first_bytes(self) -> &'static [u8] {
        match self {
            Edition::One => &[],
            Edition::Two => &[0, 2],
        }
    }
}

/// The bytes of a record in edition 1; the second is its desk.
pub type Record = Vec<u8>;

/// The sheet of these records, in this edition.
pub fn in_edition(edition: Edition, header: [u8; 3], records: &[Record]) -> Vec<u8> {
    let mut sheet = [edition.first_bytes(), &header].concat();
    let mut desk_before = None;
    for record in records {
        if leaves_desk_out(edition, desk_before, record) {
            sheet.push(record[0] + 8);
            sheet.extend(&record[2..]);
        } else {
            sheet.extend(record);
        }
        desk_before = Some(record[1]);
    }
    sheet
}

/// The bytes that these records take, after a record of this desk.
pub fn length(edition: Edition, mut desk_before: Option<u8>, records: &[Record]) -> usize {
    let mut bytes = 0;
    for record in records {
        bytes += record.len() - usize::from(leaves_desk_out(edition, desk_before, record));
        desk_before = Some(record[1]);
    }
    bytes
}

fn leaves_desk_out(edition: Edition, desk_before: Option<u8>, record: &Record) -> bool {
    edition == Edition::Two && desk_before == Some(record[1])
}

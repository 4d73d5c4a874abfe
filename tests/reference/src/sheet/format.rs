//! The formats of a sheet: two editions, and the first one as the archive has it.

/// What a sheet is read as, or written as.
#[derive(Clone, Copy, Debug, PartialEq, Eq)]
pub enum Format {
    /// Edition 1 of document 01: "Zero groups at the high end are allowed." Old
    /// sheets may have them.
    Archive,
    /// Document 02, Job 3: "Numbers with a zero group at the high end are
    /// refused from now on; 0 itself is one byte."
    Edition1,
    /// Job 4: "Edition 2 starts with 0, then 2, then P, c, L; codes 9 to 13 stand
    /// for 1 to 5 with the desk left out, meaning the previous record's desk, and
    /// must be used whenever it is the same."
    Edition2,
}

impl Format {
    pub fn allows_padding(self) -> bool {
        self == Format::Archive
    }

    /// The numbers before P.
    pub fn first_numbers(self) -> &'static [u16] {
        match self {
            Format::Archive | Format::Edition1 => &[],
            Format::Edition2 => &[0, 2],
        }
    }

    pub fn has_shorthand(self) -> bool {
        self == Format::Edition2
    }
}

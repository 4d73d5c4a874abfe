//! Lent bytes between guard bytes, at a given alignment.

/// On each side of a table.
const GUARD: usize = 64;

/// A table between guard bytes.
pub struct Guarded {
    memory: Vec<u8>,
    start: usize,
    length: usize,
}

impl Guarded {
    pub fn new(table: &[u8], align: usize) -> Guarded {
        let length = table.len();
        let mut memory = vec![0; length + 2 * GUARD + 8];
        let start = GUARD + align.wrapping_sub(memory.as_ptr() as usize) % 8;
        // No two neighbours alike, and none 0: a stray write is unlikely to match.
        for at in 0..GUARD {
            memory[start - GUARD + at] = at as u8 + 1;
            memory[start + length + at] = 255 - at as u8;
        }
        memory[start..start + length].copy_from_slice(table);
        Guarded { memory, start, length }
    }

    pub fn table(&mut self) -> &mut [u8] {
        &mut self.memory[self.start..self.start + self.length]
    }

    /// The table with its guards.
    pub fn bytes(&self) -> &[u8] {
        &self.memory[self.start - GUARD..self.start + self.length + GUARD]
    }

    /// The first byte that differs, counted from the table's start (negative before it),
    /// with both values.
    pub fn first_difference(&self, other: &Guarded) -> Option<(isize, u8, u8)> {
        if self.bytes() == other.bytes() {
            return None; // faster than byte by byte
        }
        let mut pairs = self.bytes().iter().zip(other.bytes());
        let at = pairs.position(|(mine, others)| mine != others)?;
        Some((at as isize - GUARD as isize, self.bytes()[at], other.bytes()[at]))
    }
}

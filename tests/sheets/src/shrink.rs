//! The smallest sheet that still differs: fewest bytes, then the smallest.

use std::time::{Duration, Instant};

/// A sheet that differs only because of its length cannot be made shorter; the
/// search is limited in time.
const MAX_TIME: Duration = Duration::from_secs(10);

/// Tries smaller and smaller sheets until none of them differs.
pub fn shrink(sheet: Vec<u8>, differs: impl Fn(&[u8]) -> bool) -> Vec<u8> {
    let mut search = Search { differs, smallest: sheet, begun: Instant::now() };
    loop {
        let before = size(&search.smallest);
        search.shorter_end();
        search.fewer_bytes();
        search.plainer_parts();
        search.smaller_bytes();
        if size(&search.smallest) == before || search.is_late() {
            return search.smallest;
        }
    }
}

fn size(sheet: &[u8]) -> (usize, u64) {
    (sheet.len(), sheet.iter().map(|&byte| u64::from(byte)).sum())
}

struct Search<Differs> {
    differs: Differs,
    smallest: Vec<u8>,
    begun: Instant,
}

impl<Differs: Fn(&[u8]) -> bool> Search<Differs> {
    fn is_late(&self) -> bool {
        self.begun.elapsed() > MAX_TIME
    }

    /// Takes the other sheet if it is smaller and still differs.
    fn try_other(&mut self, other: Vec<u8>) -> bool {
        let better =
            !self.is_late() && size(&other) < size(&self.smallest) && (self.differs)(&other);
        if better {
            self.smallest = other;
        }
        better
    }

    fn shorter_end(&mut self) {
        let mut cut = self.smallest.len();
        while cut > 0 && !self.is_late() {
            let length = self.smallest.len().saturating_sub(cut);
            if !self.try_other(self.smallest[..length].to_vec()) {
                cut /= 2;
            }
        }
    }

    /// Leaves out runs of bytes, long ones first; records are among them. In a
    /// long sheet the runs are tried end to end, in a short one at each offset.
    fn fewer_bytes(&mut self) {
        let mut length = self.smallest.len() / 2;
        while length > 0 && !self.is_late() {
            let step = if length > 64 { length } else { 1 };
            let mut start = 0;
            while start + length <= self.smallest.len() && !self.is_late() {
                let mut other = self.smallest.clone();
                other.drain(start..start + length);
                if !self.try_other(other) {
                    start += step;
                }
            }
            length = if length > 8 { length / 2 } else { length - 1 };
        }
    }

    /// Runs of bytes become 0, long ones first.
    fn plainer_parts(&mut self) {
        let mut length = self.smallest.len();
        while length > 1 && !self.is_late() {
            for start in (0..self.smallest.len()).step_by(length) {
                let mut other = self.smallest.clone();
                let end = other.len().min(start + length);
                other[start..end].fill(0);
                self.try_other(other);
            }
            length = length.div_ceil(2).min(length - 1);
        }
    }

    /// Each byte: none, one, half, or one less.
    fn smaller_bytes(&mut self) {
        for at in 0..self.smallest.len() {
            let byte = self.smallest[at];
            for smaller in [0, 1, byte & 0x7F, byte / 2, byte.saturating_sub(1)] {
                if smaller < self.smallest[at] {
                    let mut other = self.smallest.clone();
                    other[at] = smaller;
                    self.try_other(other);
                }
            }
        }
    }
}

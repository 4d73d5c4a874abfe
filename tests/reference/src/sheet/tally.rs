//! The three counts of the last line.

use super::super::Reply;
use super::record::COLLECT;

/// Each count stays at its largest once there.
#[derive(Clone, Copy, Debug, Default, PartialEq, Eq)]
pub struct Tally {
    pub accepted: u32,
    pub refused: u32,
    /// Replies to collect other than 0.
    pub handed_back: u32,
}

impl Tally {
    pub fn count(&mut self, code: u16, reply: Reply) {
        match reply {
            Err(_) => one_more(&mut self.refused),
            Ok(session) => {
                one_more(&mut self.accepted);
                if code == COLLECT && session != 0 {
                    one_more(&mut self.handed_back);
                }
            }
        }
    }
}

fn one_more(count: &mut u32) {
    *count = count.saturating_add(1);
}

#[cfg(test)]
mod tests {
    use super::super::super::Refusal;
    use super::*;

    #[test]
    fn a_refused_step_changes_only_its_count() {
        let mut tally = Tally::default();
        tally.count(COLLECT, Err(Refusal::NoDesk));
        assert_eq!(tally, Tally { refused: 1, ..Tally::default() });
    }

    #[test]
    fn a_count_stays_at_its_largest() {
        let full = Tally { accepted: u32::MAX, refused: u32::MAX, handed_back: u32::MAX };
        let mut tally = full;
        tally.count(COLLECT, Ok(5));
        tally.count(COLLECT, Err(Refusal::NoDesk));
        assert_eq!(tally, full);
    }
}

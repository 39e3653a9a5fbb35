//! Document 01's tally of one set for all markings, which document 02 calls the old totals.

use super::facts::Facts;
use super::marking;
use crate::refusal::Answer;

/// Accepted, declined and turned away.
#[derive(Clone, Copy)]
pub struct Totals {
    pub counts: [u32; 3],
}

impl Totals {
    /// Whether some count is 2^32 - 1.
    pub fn are_full(self) -> bool {
        self.counts.contains(&u32::MAX)
    }

    /// The totals after a marking that sheet and slices answer so: refusal 25 comes before both and
    /// moves nothing.
    pub fn after(self, answer: Answer<&Facts>) -> Totals {
        let mut moved = self;
        if let Some(step) = marking::counted_as(answer)
            && !self.are_full()
        {
            moved.counts[step as usize] += 1;
        }
        moved
    }
}

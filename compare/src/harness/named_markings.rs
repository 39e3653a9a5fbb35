//! The examples of marking: 19, 25 and 26, a candidate beside a full one, and a list.

use super::checker::Checker;
use super::difference::Checked;
use super::lending::{Lending, Lent};
use super::list::List;
use super::marking::Marking;
use crate::generate::random::Random;
use crate::reference::facts::Facts;
use crate::reference::tally::{COUNTS, Tally, ZERO};
use crate::rows;

/// The bytes and the numbers that a marking of W asks for.
const NEEDS: [usize; 2] = [212, 17];

/// A tally with one full count of a candidate.
fn full(candidate: usize, way: usize) -> Tally {
    let mut tally = ZERO;
    tally[candidate][way] = u32::MAX;
    tally
}

impl Checker<'_> {
    /// All of them.
    pub fn named_markings(&mut self, random: &mut Random, w: &[u8]) -> Checked<()> {
        self.named_marking(random, 0, w, [212, 16], &ZERO)?;
        for way in 0..3 {
            self.named_marking(random, 0, w, NEEDS, &full(0, way))?;
            // Candidate 2 is refused before the sheet is looked at, and candidate 3 marks on.
            for (candidate, sheet) in [(2, &[][..]), (2, w), (3, &[]), (3, w)] {
                self.named_marking(random, candidate, sheet, NEEDS, &full(2, way))?;
            }
        }
        for candidate in [16, 17, 255, 256, usize::MAX] {
            self.named_marking(random, candidate, &[], [0, 0], &[[u32::MAX; 3]; 16])?;
            self.named_marking(random, candidate, w, NEEDS, &ZERO)?;
        }
        self.short_tallies(random, w)?;
        self.named_list(random, w).map(drop)
    }

    /// A slice that is too short for a tally is told before the candidate and the full count.
    fn short_tallies(&mut self, random: &mut Random, w: &[u8]) -> Checked<()> {
        let facts = Facts::of(w);
        for length in [0, 1, COUNTS - 1] {
            for candidate in [0, 16] {
                let tally = Lending::holding(random, length, &[u32::MAX]);
                let lent = Lent { tally, ..Lent::new(random, NEEDS[0], NEEDS[1]) };
                self.mark(Marking { candidate, sheet: w, facts: &facts }, &lent)?;
            }
        }
        Ok(())
    }

    /// A marking with a slice of just a tally's length.
    fn named_marking(
        &mut self,
        random: &mut Random,
        candidate: usize,
        sheet: &[u8],
        [bytes, numbers]: [usize; 2],
        tally: &Tally,
    ) -> Checked<()> {
        let tally = Lending::holding(random, COUNTS, tally.as_flattened());
        let lent = Lent { tally, ..Lent::new(random, bytes, numbers) };
        self.mark(Marking { candidate, sheet, facts: &Facts::of(sheet) }, &lent).map(drop)
    }

    /// A new list from zero: accepted, declined, 1, 26 and 17. Hands back the codes and verdicts.
    pub fn named_list(&mut self, random: &mut Random, w: &[u8]) -> Checked<Vec<(u8, u8)>> {
        let declined = rows::sheet("K2 b33=02");
        let [bytes, numbers] = NEEDS;
        let calls = [
            (0, w, bytes),
            (1, &declined, bytes),
            (0, &[], bytes),
            (16, w, bytes),
            (1, w, bytes - 1),
        ];
        self.list = List::new();
        let mut answers = Vec::new();
        for (candidate, sheet, bytes) in calls {
            let call = Marking { candidate, sheet, facts: &Facts::of(sheet) };
            let (code, found) = self.mark_next(random, call, [bytes, numbers])?;
            answers.push((code, found.verdict));
        }
        Ok(answers)
    }
}

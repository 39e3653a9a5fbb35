//! The examples of practice sheets: of each kind of draw, at both ends of m, and of each refusal.

use super::checker::Checker;
use super::difference::Checked;
use super::lending::Lent;
use super::request::Request;
use crate::generate::practice::{Practice, like_w};
use crate::generate::random::Random;

/// From here twenty drawn rules describe 547 nodes, more than from any lower first x.
const LARGE: u32 = 30_203_644;

/// An automaton of one state that is not final, without transitions.
const BARE: [u8; 2] = [1, 0];

impl Checker<'_> {
    pub fn named_practice(&mut self, random: &mut Random) -> Checked<()> {
        for first in [0, 2, LARGE, u32::MAX] {
            for m in [1, 3, 20] {
                for automaton in [BARE.to_vec(), like_w()] {
                    self.practice(random, &Practice { first, m, automaton })?;
                }
            }
        }
        self.named_refusals(random)
    }

    /// Each with all wrong that is told later; 27 also with nothing else wrong.
    fn named_refusals(&mut self, random: &mut Random) -> Checked<()> {
        let calls: [(usize, &[u8], usize); 8] = [
            (0, &[], 0),
            (21, &[], 0),
            (21, &BARE, 1832),
            (usize::MAX, &BARE, 1832),
            (1, &[1], 0),
            (1, &[0, 0, 3, 0, 0xFF, 0xFF, 0xFF, 0xFF], 0),
            (1, &[1, 0, 3, 0, 0xFF, 0xFF, 0xFF, 0xFF], 0),
            (1, &BARE, 29),
        ];
        for (m, automaton, room) in calls {
            let lent = Lent::new(random, room, 0);
            self.request(Request::Practice { first: 0, m, automaton }, lent)?;
        }
        Ok(())
    }
}

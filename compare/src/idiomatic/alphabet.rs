//! The terminals' ranks.

use crate::refusal::{Answer, Refusal};

#[derive(Clone, Copy, PartialEq)]
pub struct Alphabet<'a>(&'a [u8]);

impl<'a> Alphabet<'a> {
    pub fn read(ranks: &'a [u8]) -> Answer<Self> {
        match ranks.len() {
            1..=32 if ranks.iter().all(|&rank| rank <= 4) => Ok(Alphabet(ranks)),
            1..=32 => Err(Refusal(4)),
            _ => Err(Refusal(3)),
        }
    }

    pub fn ranks(self) -> &'a [u8] {
        self.0
    }

    pub fn rank(self, terminal: u8) -> Option<usize> {
        self.0.get(usize::from(terminal)).map(|&rank| usize::from(rank))
    }
}

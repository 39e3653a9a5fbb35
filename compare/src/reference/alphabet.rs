//! An alphabet: one byte a terminal, its rank.

use crate::refusal::{Answer, Refusal};

/// Two alphabets are the same when they have as many terminals, each of the same rank.
#[derive(PartialEq, Eq)]
pub struct Alphabet {
    ranks: Vec<usize>,
}

impl Alphabet {
    /// Refusals 3 and 4.
    pub fn read(bytes: &[u8]) -> Answer<Alphabet> {
        if bytes.is_empty() || bytes.len() > 32 {
            return Err(Refusal(3));
        }
        if bytes.iter().any(|&rank| rank > 4) {
            return Err(Refusal(4));
        }
        let ranks = bytes.iter().map(|&rank| usize::from(rank)).collect();
        Ok(Alphabet { ranks })
    }

    /// The rank of a terminal, where there is such a terminal.
    pub fn rank(&self, terminal: u8) -> Option<usize> {
        self.ranks.get(usize::from(terminal)).copied()
    }
}

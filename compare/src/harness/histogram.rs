//! How often each code was given.

use crate::refusal::{LAST, RETIRED};
use std::fmt;

pub struct Histogram {
    times: [u64; LAST as usize + 1],
}

impl Histogram {
    pub fn new() -> Histogram {
        Histogram { times: [0; LAST as usize + 1] }
    }

    /// Counts a code that was expected; an engine that gives another one differs.
    pub fn add(&mut self, code: u8) {
        assert_ne!(code, RETIRED, "the reference gives a refusal that is retired");
        self.times[usize::from(code)] += 1;
    }

    /// The refusals that were never given, though they may be.
    pub fn missing(&self) -> Vec<u8> {
        refusals().filter(|&code| self.times[usize::from(code)] == 0).collect()
    }
}

impl Default for Histogram {
    fn default() -> Histogram {
        Histogram::new()
    }
}

impl fmt::Display for Histogram {
    fn fmt(&self, to: &mut fmt::Formatter) -> fmt::Result {
        writeln!(to, "answered {}", self.times[0])?;
        for code in refusals() {
            writeln!(to, "refused {code} {}", self.times[usize::from(code)])?;
        }
        Ok(())
    }
}

/// The refusals that are not retired.
fn refusals() -> impl Iterator<Item = u8> {
    (1..=LAST).filter(|&code| code != RETIRED)
}

//! Limits of the documents that several parts read.

/// The most transitions of an automaton: one more gets 14.
pub const MOST_TRANSITIONS: usize = 255;

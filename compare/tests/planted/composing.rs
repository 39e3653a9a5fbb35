//! The faults of composing and of applying: what the single states give is joined by a sum or by an
//! exclusive or, where *or* is right. Two are faults of rules of kind 3, and two of rules of kind 2.

use crate::engine::{Fault, Planted};
use compare::reference::head::end;

/// Bit 0 of each row of a relation.
const ROWS: u64 = 0x0101_0101_0101_0101;

impl Planted {
    /// Makes the entries of one kind of rules anew, by the fault's operation, from the right entries
    /// below. The mask stays as it was: the entries tell of the fault.
    pub fn join_by_fault(&self, form: &[u8], relations: &mut [u64]) {
        let (kind, join): (u8, fn(u64, u64) -> u64) = match self.fault {
            Fault::ComposedBySum => (3, u64::wrapping_add),
            Fault::ComposedByExclusiveOr => (3, |all, way| all ^ way),
            Fault::AppliedBySum => (2, u64::wrapping_add),
            Fault::AppliedByExclusiveOr => (2, |all, way| all ^ way),
            _ => return,
        };
        let right = relations.to_vec();
        for (number, rule) in form[end(form)..].chunks_exact(12).enumerate() {
            let entry =
                |at: usize| right[usize::from(u16::from_le_bytes([rule[at], rule[at + 1]]))];
            if rule[0] == kind {
                relations[number] = joined_by(join, entry(4), entry(6));
            }
        }
    }
}

/// For each state, the rows of the inner relation that have it, with what it goes to in the outer one.
/// A set of states is a relation of one row.
fn joined_by(join: fn(u64, u64) -> u64, outer: u64, inner: u64) -> u64 {
    (0..8).map(|state| ((inner >> state) & ROWS) * ((outer >> (8 * state)) & 0xFF)).fold(0, join)
}

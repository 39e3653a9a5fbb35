//! All that the reference knows of a sheet, worked out without a form.

use super::blackboard::Blackboard;
use super::derivation;
use super::fingerprint::Fingerprint;
use super::profile::Profiles;
use super::sheet::Sheet;
use crate::refusal::Answer;

/// Trees up to this size are written out in full.
pub const SMALL: u64 = 4096;

pub struct Facts {
    pub sheet: Sheet,
    /// The sheet's tree in preorder.
    pub whole: Fingerprint,
    /// The same written out, where the tree is small.
    pub tree: Option<Vec<u8>>,
    /// Some positions all over the tree and the terminals there.
    pub labels: Vec<(u64, u8)>,
    pub mask: u8,
    pub blackboard: Blackboard,
}

impl Facts {
    /// Refusals 1 to 16.
    pub fn of(bytes: &[u8]) -> Answer<Facts> {
        let sheet = Sheet::read(bytes)?;
        let profiles = Profiles::of(&sheet.rules);
        let whole = profiles.whole();
        let labels = positions(whole.length).map(|at| (at, profiles.label(at))).collect();
        let blackboard = Blackboard::of(&sheet);
        let mask = blackboard.mask;
        let tree = (whole.length <= SMALL).then(|| written_out(&sheet, whole, mask));
        Ok(Facts { sheet, whole, tree, labels, mask, blackboard })
    }

    pub fn accepted(&self) -> bool {
        self.mask & self.sheet.automaton.finals != 0
    }
}

/// The first position, the last, and some between.
fn positions(size: u64) -> impl Iterator<Item = u64> {
    let last = size - 1;
    let between = (1..8).map(move |part| last / 8 * part + part);
    [0, last].into_iter().chain(between).filter(move |&position| position <= last)
}

/// The tree by substitution. It must have the fingerprint and the mask found without it: two ways
/// of the reference to one meaning.
fn written_out(sheet: &Sheet, whole: Fingerprint, mask: u8) -> Vec<u8> {
    let tree = derivation::tree(&sheet.rules);
    let preorder = tree.preorder();
    assert_eq!(Fingerprint::of_word(&preorder), whole, "the reference derives two trees");
    assert_eq!(tree.masks(&sheet.automaton)[0], mask, "the reference finds two masks");
    preorder
}

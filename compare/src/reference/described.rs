//! The tree that the draws of a practice sheet describe, without a sheet: rule 0 is the context h
//! over an open place, an even draw puts context j around context k, an odd one puts context j
//! under f beside a, and the tree is context m around a.

use super::facts::{Facts, SMALL};
use super::fingerprint::Fingerprint;
use super::practice::{A, Drawn, F, H};
use super::tree::Tree;

pub struct Described {
    /// The tree in preorder; its length is the tree's size.
    pub whole: Fingerprint,
    /// The same written out, where the tree is small.
    pub tree: Option<Vec<u8>>,
}

impl Described {
    pub fn of(drawn: &[Drawn]) -> Described {
        let m = drawn.len();
        let [before, behind] = sides(drawn)[m];
        let whole = before.then(Fingerprint::of(A)).then(behind);
        let tree = (whole.length <= SMALL).then(|| around(drawn, m, leaf()).preorder());
        Described { whole, tree }
    }

    /// Whether the sheet of these facts derives the tree, and what is wrong if not.
    pub fn check(&self, facts: &Facts) -> Result<(), String> {
        let (described, derived) = (self.whole.length, facts.whole.length);
        if described != derived {
            return Err(format!("the draws describe {described} nodes, the sheet has {derived}"));
        }
        if (self.whole, &self.tree) != (facts.whole, &facts.tree) {
            return Err("the sheet derives another tree than the draws describe".to_string());
        }
        Ok(())
    }
}

fn leaf() -> Tree {
    Tree { terminal: A, children: Vec::new() }
}

/// The context of this number with the tree in its open place.
fn around(drawn: &[Drawn], number: usize, inside: Tree) -> Tree {
    if number == 0 {
        return Tree { terminal: H, children: vec![inside] };
    }
    match drawn[number - 1] {
        Drawn::Twice { j, k } => around(drawn, j, around(drawn, k, inside)),
        Drawn::Beside { j } => {
            Tree { terminal: F, children: vec![around(drawn, j, inside), leaf()] }
        }
    }
}

/// What stands before and behind the open place of each context, in preorder.
fn sides(drawn: &[Drawn]) -> Vec<[Fingerprint; 2]> {
    let mut contexts = vec![[Fingerprint::of(H), Fingerprint::EMPTY]];
    for rule in drawn {
        contexts.push(match *rule {
            Drawn::Twice { j, k } => {
                let ([before, behind], [inner, last]) = (contexts[j], contexts[k]);
                [before.then(inner), last.then(behind)]
            }
            Drawn::Beside { j } => {
                let [before, behind] = contexts[j];
                [Fingerprint::of(F).then(before), behind.then(Fingerprint::of(A))]
            }
        });
    }
    contexts
}

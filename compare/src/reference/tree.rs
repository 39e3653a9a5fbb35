//! Trees of terminals, their preorder, and the masks of their subtrees.

use super::alphabet::Alphabet;
use super::automaton::Automaton;

#[derive(Debug, PartialEq, Eq)]
pub struct Tree {
    pub terminal: u8,
    pub children: Vec<Tree>,
}

impl Tree {
    /// The one tree whose terminals in preorder are these bytes, if there is one.
    pub fn read(alphabet: &Alphabet, bytes: &[u8]) -> Option<Tree> {
        let mut rest = bytes;
        let tree = read_node(alphabet, &mut rest)?;
        rest.is_empty().then_some(tree)
    }

    pub fn preorder(&self) -> Vec<u8> {
        let mut terminals = Vec::new();
        self.write(&mut terminals);
        terminals
    }

    /// The mask of each subtree, in preorder.
    pub fn masks(&self, automaton: &Automaton) -> Vec<u8> {
        let mut masks = Vec::new();
        self.write_masks(automaton, &mut masks);
        masks
    }

    fn write(&self, terminals: &mut Vec<u8>) {
        terminals.push(self.terminal);
        for child in &self.children {
            child.write(terminals);
        }
    }

    fn write_masks(&self, automaton: &Automaton, masks: &mut Vec<u8>) -> u8 {
        let place = masks.len();
        masks.push(0);
        let children: Vec<u8> =
            self.children.iter().map(|child| child.write_masks(automaton, masks)).collect();
        masks[place] = automaton.step(self.terminal, &children);
        masks[place]
    }
}

fn read_node(alphabet: &Alphabet, rest: &mut &[u8]) -> Option<Tree> {
    let (&terminal, behind) = rest.split_first()?;
    *rest = behind;
    let rank = alphabet.rank(terminal)?;
    let children = (0..rank).map(|_| read_node(alphabet, rest)).collect::<Option<Vec<Tree>>>()?;
    Some(Tree { terminal, children })
}

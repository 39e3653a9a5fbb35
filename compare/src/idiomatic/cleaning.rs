//! The rules without dropped arguments and without calls of rules that are one parameter: source
//! document 000, section 5. No node is added.

use super::alphabet::Alphabet;
use super::sheet::{Rule, rules};

/// The longest rules body: 64 ranks, 64 node counts and 128 nodes.
pub const LONGEST_BODY: usize = 256;

/// What the calls of a cleaned rule hang on.
struct Cleaned {
    /// The rank as written.
    rank: u8,
    /// Bit i where parameter i is left.
    present: u8,
    /// Whether the right side is one parameter.
    lone: bool,
}

struct Cleaner<'s> {
    alphabet: Alphabet<'s>,
    lower: Vec<Cleaned>,
    /// Whether each tree that is still to come is kept, the next one last.
    flags: Vec<bool>,
}

/// Writes the cleaned rules into the body and reads them there. Which parameters a rule is left
/// with, bit i for parameter i, is told from the rule as written and from the nodes that are kept.
pub fn clean<'b>(
    alphabet: Alphabet,
    written: &[Rule],
    present_in: impl Fn(&Rule, &[u8]) -> u8,
    body: &'b mut [u8; LONGEST_BODY],
) -> Vec<Rule<'b>> {
    let lower = Vec::with_capacity(written.len());
    let mut cleaner = Cleaner { alphabet, lower, flags: Vec::with_capacity(128) };
    let mut end = 0;
    for rule in written {
        let [rank, count, place @ ..] = &mut body[end..] else {
            unreachable!("no cleaned rule is longer than it was")
        };
        let length = cleaner.keep(rule, place);
        let nodes = &mut place[..length];
        let present = present_in(rule, nodes);
        renumber(nodes, present);
        (*rank, *count) = (present.count_ones() as u8, length as u8);
        let lone = *rank == 1 && matches!(nodes, [0x80..=0x83]);
        cleaner.lower.push(Cleaned { rank: rule.rank, present, lone });
        end += 2 + length;
    }
    rules(&body[..end]).0
}

impl Cleaner<'_> {
    /// Copies the nodes that are kept and answers their number.
    fn keep(&mut self, rule: &Rule, place: &mut [u8]) -> usize {
        let mut length = 0;
        self.flags.push(true);
        for &node in rule.nodes {
            let kept = self.flags.pop().expect("the nodes are one tree");
            let (rank, present, lone) = self.named(node);
            let flags = (0..rank).rev().map(|child| kept && present >> child & 1 == 1);
            self.flags.extend(flags);
            if kept && !lone {
                place[length] = node;
                length += 1;
            }
        }
        length
    }

    /// The rank of what a node names, which children a kept node keeps, and whether the one it
    /// keeps takes its place.
    fn named(&self, node: u8) -> (u8, u8, bool) {
        match node {
            0x00..=0x1F => (self.alphabet.rank(node).unwrap_or(0) as u8, 0xFF, false),
            0x40..=0x7F => {
                let Cleaned { rank, present, lone } = self.lower[usize::from(node - 0x40)];
                (rank, present, lone)
            }
            _ => (0, 0, false),
        }
    }
}

/// The parameters among the nodes: bit i for parameter i.
pub fn parameters(nodes: &[u8]) -> u8 {
    let parameters = nodes.iter().filter(|node| **node >= 0x80);
    parameters.fold(0, |set, node| set | 1 << (node - 0x80))
}

/// Numbers the parameters anew in their old order, where these are present.
fn renumber(nodes: &mut [u8], present: u8) {
    for node in nodes.iter_mut().filter(|node| **node >= 0x80) {
        let before = present & ((1 << (*node - 0x80)) - 1);
        *node = 0x80 + u8::count_ones(before) as u8;
    }
}

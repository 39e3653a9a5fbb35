//! Unfolding a form into a slice.

use super::counts::Count;
use super::form::{Form, FormRule};

pub struct Unfolder<'a> {
    pub form: &'a Form<'a>,
    pub counts: &'a [Count],
    pub tree: &'a mut [u8],
}

impl Unfolder<'_> {
    /// Writes a rule's own nodes from a place on, leaving a gap of this length at its hole.
    pub fn write(&mut self, number: u16, at: usize, gap: usize) {
        match self.form.rules[usize::from(number)] {
            FormRule::Tree { terminal, slots } => self.write_node(terminal, &slots, 4, at, gap),
            FormRule::Context { terminal, hole, slots } => {
                self.write_node(terminal, &slots, usize::from(hole) - 1, at, gap);
            }
            FormRule::Applied { outer, inner } | FormRule::Composed { outer, inner } => {
                let Count { before, .. } = self.counts[usize::from(outer)];
                let Count { nodes, .. } = self.counts[usize::from(inner)];
                self.write(outer, at, gap + nodes as usize);
                self.write(inner, at + before as usize, gap);
            }
        }
    }

    fn write_node(&mut self, terminal: u8, slots: &[u16; 4], hole: usize, at: usize, gap: usize) {
        self.tree[at] = terminal;
        let mut next = at + 1;
        for (place, &slot) in slots.iter().enumerate() {
            if place == hole {
                next += gap;
            } else if slot != 0xFFFF {
                self.write(slot, next, 0);
                next += self.counts[usize::from(slot)].nodes as usize;
            }
        }
    }
}

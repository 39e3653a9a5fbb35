//! The size and the labels of the sheet's tree without the form, by the outlines of its rules,
//! however large the tree is.

use super::fingerprint::Fingerprint;
use super::outline::{Outlines, Piece};
use super::rules::Rule;
use super::term::Term;

pub struct Profiles<'s> {
    rules: &'s [Rule],
    outlines: Outlines,
}

impl<'s> Profiles<'s> {
    pub fn of(rules: &'s [Rule]) -> Profiles<'s> {
        Profiles { rules, outlines: Outlines::of(rules) }
    }

    /// The fingerprint of the sheet's tree in preorder.
    pub fn whole(&self) -> Fingerprint {
        match self.outlines.of_rule(self.rules.len() - 1) {
            [Piece::Terminals(whole)] => *whole,
            _ => unreachable!("the start has terminals and no parameters"),
        }
    }

    /// The terminal at a position below the size of the sheet's tree.
    pub fn label(&self, position: u64) -> u8 {
        let start = self.rules.last().expect("a sheet has a rule");
        self.label_in(&start.right, &[], position)
    }

    /// The number of nodes of what the term derives, with these sizes of what is put for the
    /// parameters.
    fn size(&self, term: &Term, sizes: &[u64]) -> u64 {
        let piece_size = |piece: Piece| match piece {
            Piece::Terminals(stretch) => stretch.length,
            Piece::Parameter(parameter) => sizes[parameter],
        };
        self.outlines.of_term(term).into_iter().map(piece_size).sum()
    }

    /// The terminal at a position that lies in no parameter.
    fn label_in(&self, term: &Term, sizes: &[u64], position: u64) -> u8 {
        match term {
            Term::Parameter(_) => unreachable!("the position lies in no parameter"),
            Term::Terminal(terminal, _) if position == 0 => *terminal,
            Term::Terminal(_, children) => {
                let mut left = position - 1;
                for child in children {
                    let size = self.size(child, sizes);
                    if left < size {
                        return self.label_in(child, sizes, left);
                    }
                    left -= size;
                }
                unreachable!("the position lies in some child")
            }
            Term::Call(rule, arguments) => self.label_in_call(*rule, arguments, sizes, position),
        }
    }

    /// In an argument where the position lies in one, else among the called rule's own terminals.
    fn label_in_call(&self, rule: usize, arguments: &[Term], sizes: &[u64], position: u64) -> u8 {
        let given: Vec<u64> = arguments.iter().map(|term| self.size(term, sizes)).collect();
        let mut left = position;
        for piece in self.outlines.of_rule(rule) {
            let size = match piece {
                Piece::Terminals(stretch) => stretch.length,
                Piece::Parameter(parameter) => given[*parameter],
            };
            match piece {
                Piece::Parameter(parameter) if left < size => {
                    return self.label_in(&arguments[*parameter], sizes, left);
                }
                Piece::Terminals(_) if left < size => break,
                _ => left -= size,
            }
        }
        self.label_in(&self.rules[rule].right, &given, position)
    }
}
